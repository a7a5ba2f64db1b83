The examples: array programs, each compiled and run in the scratchpad of its need and in 4,096 bytes, on one lane and on four. Where
the machine left what the program means, a line has its bytes of scratchpad and lanes with the steps and cycles.

  $ venice() { "$TESTDIR/../../venice" "$@"; }
  $ cd "$TESTDIR/../../examples"
  $ venice run add.ven add.arrays "$CRAMTMP/add.image" 4 7
  y u8[1,4]
  5 7 9 4
  steps 712
  cycles 696
  $ compared() {
  >   venice run $1.ven $1.arrays "$CRAMTMP/$1.image" $2 $3 > "$CRAMTMP/said"
  >   sed '/^steps /,$d' "$CRAMTMP/said" > "$CRAMTMP/outputs"
  >   venice eval $1.ven $1.arrays | cmp - "$CRAMTMP/outputs" && echo $1 $3 $2 $(tail -n 2 "$CRAMTMP/said")
  > }
  $ for program in *.ven; do
  >   for spad in $(venice check $program 4096 | sed -n 's/^need //p') 4096; do
  >     for lanes in 1 4; do compared ${program%.ven} $lanes $spad; done
  >   done
  > done
  add 7 1 steps 712 cycles 696
  add 7 4 steps 712 cycles 696
  add 4096 1 steps 173 cycles 169
  add 4096 4 steps 173 cycles 169
  bins 36 1 steps 198193 cycles 196213
  bins 36 4 steps 198190 cycles 196210
  bins 4096 1 steps 6131 cycles 5633
  bins 4096 4 steps 5755 cycles 5293
  blend 12 1 steps 9478 cycles 9226
  blend 12 4 steps 9478 cycles 9226
  blend 4096 1 steps 706 cycles 660
  blend 4096 4 steps 676 cycles 648
  blur 20 1 steps 22647 cycles 22122
  blur 20 4 steps 22647 cycles 22122
  blur 4096 1 steps 1294 cycles 1165
  blur 4096 4 steps 1191 cycles 1116
  brighten 7 1 steps 2788 cycles 2724
  brighten 7 4 steps 2788 cycles 2724
  brighten 4096 1 steps 176 cycles 172
  brighten 4096 4 steps 173 cycles 169
  dot 36 1 steps 1489 cycles 1450
  dot 36 4 steps 1489 cycles 1450
  dot 4096 1 steps 389 cycles 370
  dot 4096 4 steps 377 cycles 366
  edges 20 1 steps 10603 cycles 10303
  edges 20 4 steps 10603 cycles 10303
  edges 4096 1 steps 818 cycles 722
  edges 4096 4 steps 746 cycles 704
  fir 20 1 steps 3550 cycles 3470
  fir 20 4 steps 3550 cycles 3470
  fir 4096 1 steps 433 cycles 408
  fir 4096 4 steps 421 cycles 405
  histogram 28 1 steps 9181 cycles 8939
  histogram 28 4 steps 9181 cycles 8939
  histogram 4096 1 steps 1162 cycles 1124
  histogram 4096 4 steps 1108 cycles 1085
  light 5 1 steps 4270 cycles 4180
  light 5 4 steps 4270 cycles 4180
  light 4096 1 steps 526 cycles 517
  light 4096 4 steps 520 cycles 511
  matvec 32 1 steps 4163 cycles 4103
  matvec 32 4 steps 4163 cycles 4103
  matvec 4096 1 steps 650 cycles 639
  matvec 4096 4 steps 638 cycles 627
  median 14 1 steps 58319 cycles 56799
  median 14 4 steps 58319 cycles 56799
  median 4096 1 steps 3202 cycles 2965
  median 4096 4 steps 3062 cycles 2911
  mirror 12 1 steps 32707 cycles 31915
  mirror 12 4 steps 32707 cycles 31915
  mirror 4096 1 steps 2263 cycles 2121
  mirror 4096 4 steps 2199 cycles 2097
  product 80 1 steps 12070 cycles 11942
  product 80 4 steps 12058 cycles 11930
  product 4096 1 steps 4304 cycles 4197
  product 4096 4 steps 4264 cycles 4181
  sobel 24 1 steps 58717 cycles 57397
  sobel 24 4 steps 58717 cycles 57397
  sobel 4096 1 steps 2239 cycles 1990
  sobel 4096 4 steps 1975 cycles 1803
  threshold 12 1 steps 7504 cycles 7372
  threshold 12 4 steps 7504 cycles 7372
  threshold 4096 1 steps 1296 cycles 1264
  threshold 4096 4 steps 1283 cycles 1258
  wrap 7 1 steps 1058 cycles 1034
  wrap 7 4 steps 1058 cycles 1034
  wrap 4096 1 steps 174 cycles 170
  wrap 4096 4 steps 173 cycles 169

Assembler programs.

  $ run() { venice asm $1.asm "$CRAMTMP/$1.image" && venice exec "$CRAMTMP/$1.image" $1.arrays $2 $3 1000; }
  $ run copy 1 16
  to u8[1,16]
  1 1 2 3 5 8 13 21 34 55 89 144 233 121 98 219
  steps 11
  cycles 9
  $ run add 4 12
  y u8[1,4]
  5 7 9 4
  steps 24
  cycles 20
  $ run tiles 2 16 | tail -n 2
  steps 70
  cycles 54
  $ run matvec 4 76
  y i32[3,1]
  7
  34
  56
  steps 32
  cycles 24
  $ venice asm double.asm "$CRAMTMP/double.image"
  $ venice asm serial.asm "$CRAMTMP/serial.image"
  $ for lanes in 1 2 4; do
  >   for name in serial double; do
  >     venice exec "$CRAMTMP/$name.image" serial.arrays $lanes 512 1000 > "$CRAMTMP/$name.out"
  >     head -n 9 "$CRAMTMP/$name.out" > "$CRAMTMP/$name.sums"
  >     echo $lanes $name $(tail -n 1 "$CRAMTMP/$name.out")
  >   done
  >   cmp "$CRAMTMP/serial.sums" "$CRAMTMP/double.sums"
  > done
  1 serial cycles 226
  1 double cycles 206
  2 serial cycles 162
  2 double cycles 142
  4 serial cycles 130
  4 double cycles 110
  $ cut -d ' ' -f 1,2,63,64 "$CRAMTMP/double.sums"
  y u8[8,64]
  100 102 224 226
  116 118 240 242
  132 134 0 2
  148 150 16 18
  164 166 32 34
  180 182 48 50
  196 198 64 66
  212 214 80 82
  $ run race 4 16
  steps 12
  cycles 10
  $ for grants in host read late; do venice exec "$CRAMTMP/race.image" race.arrays 4 16 100 $grants.grants; done
  error: machine hazard pc 8 cycle 9
  steps 12
  cycles 12
  steps 12
  cycles 18

What some of them mean.

  $ venice eval blur.ven blur.arrays
  y u8[5,6]
  0 10 30 30 10 0
  0 30 90 90 30 0
  0 30 90 90 30 0
  0 10 30 30 10 0
  0 0 0 0 0 0
  $ venice eval edges.ven edges.arrays
  y u8[4,6]
  0 0 80 0 0 80
  0 0 80 80 80 160
  0 0 0 0 0 0
  0 0 0 80 80 80
  $ venice eval threshold.ven threshold.arrays
  y u8[3,4]
  0 0 255 255
  255 0 255 0
  0 0 0 0
  $ venice eval histogram.ven histogram.arrays
  low u32[1,1]
  5
  middle u32[1,1]
  5
  high u32[1,1]
  6
  $ venice eval dot.ven dot.arrays
  y i32[1,1]
  999970
  $ venice eval matvec.ven matvec.arrays
  y i32[3,1]
  7
  34
  56
  $ venice eval light.ven light.arrays
  brighter u8[2,5]
  60 110 160 210 255
  119 120 121 255 255
  darker u8[2,5]
  0 0 40 90 140
  0 0 1 135 136
  wrapped u8[2,5]
  60 110 160 210 4
  119 120 121 255 0
  $ venice eval fir.ven fir.arrays
  y i16[1,10]
  3 2 -1 0 0 15 25 20 20 20
  $ venice eval sobel.ven sobel.arrays
  y u8[6,8]
  120 80 80 80 80 80 80 120
  80 0 80 160 160 160 80 80
  80 0 160 240 160 240 160 80
  80 0 160 160 0 160 160 80
  80 0 160 240 160 240 160 80
  120 80 160 240 240 240 160 120
  $ venice eval median.ven median.arrays
  y u8[5,6]
  0 10 20 30 40 0
  10 20 30 40 50 50
  10 20 30 40 50 50
  10 20 30 40 50 50
  0 10 20 30 40 0
  $ venice eval mirror.ven mirror.arrays
  y u8[3,8]
  0 0 200 0 0 0 0 0
  0 220 200 180 160 140 120 100
  0 0 200 0 0 0 0 0
  $ venice eval product.ven product.arrays
  y i32[3,2]
  7 1
  34 2
  56 17
  $ venice eval bins.ven bins.arrays
  y u32[1,16]
  3 2 2 2 0 0 3 1 4 0 0 0 4 0 0 3
  $ venice eval blend.ven blend.arrays
  y u8[3,6]
  0 50 130 180 200 250
  0 80 250 255 230 250
  0 50 130 180 200 250
  rest u8[3,6]
  0 50 70 120 200 250
  0 20 0 0 170 250
  0 50 70 120 200 250
