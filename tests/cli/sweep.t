Tools that make tables and grants: `tools/sweep`, `tools/passes`, `tools/grants`. They want python3, and are skipped without.

  $ command -v python3 > /dev/null || exit 80
  $ tools="$TESTDIR/../../tools"
  $ cp "$TESTDIR"/../../examples/* .

What a program needs, over the bytes of the scratchpad.

  $ "$tools/sweep" sobel.ven --spad 10,24..400
  spad  need  passes  tiles   bound                     refusal
    10     -       -      -       -  scratchpad need 24 have 10
    24    24       4    168  737536
    48    24       4     84  737536
    96    24       4     42  737536
   192    24       4     21  737536
   384    24       4     11  737536
  $ "$tools/sweep" sobel.ven --spad 24,100-101 --csv
  spad,need,passes,tiles,bound
  24,24,4,168,737536
  100,24,4,42,737536
  101,24,4,42,737536
  $ "$tools/sweep" sobel.ven --spad 10
  spad  need  passes  tiles  bound                     refusal
    10     -       -      -      -  scratchpad need 24 have 10
  [1]

Steps and cycles of an image, or of an assembler text, over lanes and grants.

  $ "$tools/sweep" serial.asm serial.arrays
  lanes  spad  steps  cycles
      1   128    246     226
      2   128    182     162
      3   128    162     142
      4   128    150     130
  $ "$tools/sweep" double.asm serial.arrays --spad 512,1024 --lanes 1,4
  lanes  spad  steps  cycles
      1   512    281     206
      1  1024    281     206
      4   512    185     110
      4  1024    185     110
  $ "$tools/sweep" race.asm race.arrays --lanes 4 --grants host.grants,late.grants
       grants  lanes  spad  steps  cycles                      refusal
  host.grants      4    16      -       -  machine hazard pc 8 cycle 9
  late.grants      4    16     12      18

Tiles, steps and cycles of a program on its inputs, by `run`; without a scratchpad in that of its need.

  $ "$tools/sweep" sobel.ven sobel.arrays --lanes 1,4 --spad 10,24..400
  lanes  spad  tiles  steps  cycles                     refusal
      1    10      -      -       -  scratchpad need 24 have 10
      1    24    168  58717   57397
      1    48     84  30601   29917
      1    96     42  15899   15391
      1   192     21   8292    7908
      1   384     11   5180    4809
      4    10      -      -       -  scratchpad need 24 have 10
      4    24    168  58717   57397
      4    48     84  30589   29905
      4    96     42  15679   15325
      4   192     21   8028    7836
      4   384     11   4916    4737
  $ "$tools/sweep" sobel.ven sobel.arrays --csv
  lanes,spad,tiles,steps,cycles
  1,24,168,58717,57397
  2,24,168,58717,57397
  3,24,168,58717,57397
  4,24,168,58717,57397
  $ "$tools/sweep" add.ven add.arrays --lanes 4 --spad 7,28 --grants turns.grants,late_reads.grants
             grants  lanes  spad  tiles  steps  cycles
       turns.grants      4     7      4    712     768
       turns.grants      4    28      1    173     241
  late_reads.grants      4     7      4    712     696
  late_reads.grants      4    28      1    173     169
  $ ls *.image
  ls: cannot access '*.image': No such file or directory
  [2]

How many beats each unit makes, and how many times as long as the busiest of them the run takes.

  $ "$tools/sweep" double.asm serial.arrays --lanes 1,4 --beats
  lanes  spad  steps  cycles  vec  read  write  ratio
      1   512    281     206  128    32     32   1.61
      4   512    185     110   32    32     32   3.44
  $ "$tools/sweep" sobel.ven sobel.arrays --lanes 1,4 --spad 10,24,4096 --beats
  lanes  spad  tiles  steps  cycles  vec  read  write  ratio                     refusal
      1    10      -      -       -    -     -      -      -  scratchpad need 24 have 10
      1    24    168  58717   57397  704   448    168  81.53
      1  4096      4   2239    1990  376    59     21   5.29
      4    10      -      -       -    -     -      -      -  scratchpad need 24 have 10
      4    24    168  58717   57397  704   448    168  81.53
      4  4096      4   1975    1803  112    59     21  16.10
  $ "$tools/sweep" bins.ven bins.arrays --lanes 4 --spad 36,4096 --beats --csv
  lanes,spad,tiles,steps,cycles,vec,read,write,ratio
  4,36,404,198190,196210,-,-,-,-
  4,4096,6,5755,5293,126,422,10,12.54
  $ "$tools/sweep" sobel.ven --spad 24 --beats
  sweep: --beats wants INPUTS, and runs that are made here
  [2]

A plot, which names each number that it shows.

  $ "$tools/sweep" double.asm serial.arrays --plot plot.svg > table
  $ grep -o '<title>[^<]*' plot.svg
  <title>cycles: 1, 206
  <title>cycles: 2, 142
  <title>cycles: 3, 122
  <title>cycles: 4, 110
  $ "$tools/sweep" add.ven add.arrays --lanes 1,2 --spad 7,28 --plot plot.svg > table
  $ grep -o '<title>[^<]*' plot.svg
  <title>1 lane: 7, 696
  <title>1 lane: 28, 169
  <title>2 lanes: 7, 696
  <title>2 lanes: 28, 169
  $ python3 -c 'import sys, xml.dom.minidom; xml.dom.minidom.parse(sys.argv[1])' plot.svg

Commands for other machines, and the table of what they left.

  $ "$TESTDIR/../../venice" asm double.asm double.image
  $ "$tools/sweep" double.image serial.arrays --lanes 1,4 --jobs answers > jobs
  $ sed 's,[^ ]*venice ,venice ,' jobs
  mkdir -p answers; venice exec double.image serial.arrays 1 512 1099511627776 > answers/lanes=1,spad=512.answer; echo status $? >> answers/lanes=1,spad=512.answer
  mkdir -p answers; venice exec double.image serial.arrays 4 512 1099511627776 > answers/lanes=4,spad=512.answer; echo status $? >> answers/lanes=4,spad=512.answer
  $ head -n 1 jobs | sh
  $ "$tools/sweep" double.image serial.arrays --lanes 1,4 --collect answers
  lanes  spad  steps  cycles        refusal
      1   512    281     206
      4   512      -       -  no answer yet
  $ tail -n 1 jobs | sh
  $ "$tools/sweep" double.image serial.arrays --lanes 1,4 --collect answers
  lanes  spad  steps  cycles
      1   512    281     206
      4   512    185     110

An array program is compiled there, and its images are left there, too.

  $ "$tools/sweep" add.ven add.arrays --lanes 1,4 --spad 28 --jobs made > jobs
  $ sed 's,[^ ]*venice ,venice ,' jobs
  mkdir -p made; venice run add.ven add.arrays made/lanes=1,spad=28.image 1 28 > made/lanes=1,spad=28.answer; echo status $? >> made/lanes=1,spad=28.answer
  mkdir -p made; venice run add.ven add.arrays made/lanes=4,spad=28.image 4 28 > made/lanes=4,spad=28.answer; echo status $? >> made/lanes=4,spad=28.answer
  $ sh jobs
  $ ls made
  lanes=1,spad=28.answer
  lanes=1,spad=28.image
  lanes=4,spad=28.answer
  lanes=4,spad=28.image
  $ "$tools/sweep" add.ven add.arrays --lanes 1,4 --spad 28 --collect made
  lanes  spad  tiles  steps  cycles
      1    28      1    173     169
      4    28      1    173     169

Words that it can't take.

  $ "$tools/sweep" sobel.ven
  sweep: the words are PROGRAM --spad LIST, PROGRAM INPUTS or IMAGE INPUTS
  [2]
  $ "$tools/sweep" sobel.ven --spad few
  sweep: `few` is no number, range (1-4) or doubling (64..4096)
  [2]
  $ "$tools/sweep" double.asm --spad 512
  sweep: an IMAGE wants its INPUTS
  [2]
  $ "$tools/sweep" no.ven --spad 64
  sweep: no.ven: No such file or directory
  [8]
  $ "$tools/sweep" sobel.ven --spad 64 --colour
  sweep: there is no option --colour
  [2]

`tools/passes`: where each pass comes from.

  $ "$tools/passes" blur.ven 64
  y u8[5,6]
  need 20
  pass 1 map 5 6 tile 1 6 tiles 5
    line 4, let w: u16(a)
    reads a (an input)
    node 1 holds 1: u16(a)
  pass 2 map 5 6 tile 1 3 tiles 10
    line 5, let rows: shift(w, -1, 0, 0) + w * 2 + shift(w, 1, 0, 0)
    reads shift(w, -1, 0, 0) (pass 1), w (pass 1), shift(w, 1, 0, 0) (pass 1)
    node 3 holds 1: w * 2
    node 2 holds 1: shift(w, -1, 0, 0) + w * 2
    node 1 holds 1: shift(w, -1, 0, 0) + w * 2 + shift(w, 1, 0, 0)
  pass 3 map 5 6 tile 1 3 tiles 10
    line 6, output y: u8((shift(rows, 0, -1, 0) + rows * 2 + shift(rows, 0, 1, 0)) >> 4)
    reads shift(rows, 0, -1, 0) (pass 2), rows (pass 2), shift(rows, 0, 1, 0) (pass 2)
    node 5 holds 1: rows * 2
    node 4 holds 1: shift(rows, 0, -1, 0) + rows * 2
    node 3 holds 1: shift(rows, 0, -1, 0) + rows * 2 + shift(rows, 0, 1, 0)
    node 2 holds 1: (shift(rows, 0, -1, 0) + rows * 2 + shift(rows, 0, 1, 0)) >> 4
    node 1 holds 2: u8((shift(rows, 0, -1, 0) + rows * 2 + shift(rows, 0, 1, 0)) >> 4)
  bound 330496
  $ "$tools/passes" threshold.ven 64 | tail -n 8
  pass 3 map 3 4 tile 2 4 tiles 2
    line 5, output y: select(a > limit, 255, 0)
    reads a (an input), stretch(u8(rowsum(u16(a)) >> 2), 1, 4) (pass 2)
    node 3 holds 1: a > limit
    node 4 holds 2: 0, copied
    node 2 holds 1: select(a > limit, 255, 0)
    node 1 holds 1: select(a > limit, 255, 0), copied
  bound 89344
  $ echo 'input a u8[2,8]; output y = sum(u32(a));' > whole.ven
  $ "$tools/passes" whole.ven 64
  y u32[1,1]
  need 24
  pass 1 sum 2 8 tile 1 2 tiles 8
    line 1, output y: sum(u32(a))
    reads a (an input)
    node 1 holds 1: u32(a)
  pass 2 sum 1 2 tile 1 2 tiles 1
    line 1, output y: sum(u32(a)), from the rows' results of pass 1
    reads the rows' results (pass 1)
    node 1 holds 1: the rows' results, copied
  bound 46336
  $ "$tools/passes" blur.ven 10
  passes: error: scratchpad need 20 have 10 (`tools/why check blur.ven 10` says more)
  [5]

`tools/grants`: grant lists in words.

  $ "$tools/grants" 'host*9 all*3 (read lanes)*4 read+lanes none 3f read2 write2'
  01 01 01 01 01 01 01 01 01 0f 0f 0f 04 02 04 02 04 02 04 02 06 00 3f 14 28
  $ "$tools/grants" random:7*8 random:7*4
  14 3c 09 19 29 03 04 34 14 3c 09 19
  $ "$tools/grants" '(host*2 (lanes none)*2)*2'
  01 01 02 00 02 00 01 01 02 00 02 00
  $ "$tools/grants" host*9 > nine.grants
  $ "$TESTDIR/../../venice" asm race.asm race.image
  $ "$TESTDIR/../../venice" exec race.image race.arrays 4 16 100 nine.grants
  error: machine hazard pc 8 cycle 9
  [7]
  $ for words in hots '(host' 'host)' '*3' 'host*' host*1048577; do "$tools/grants" "$words"; done
  grants: `hots` is none of host lanes read write read2 write2 all none, two hexadecimal digits, random:SEED
  grants: a `(` isn't closed
  grants: a `)` closes no bracket
  grants: `*3` stands behind nothing
  grants: `host*` has a `*` without a number behind it
  grants: these are more than 1048576 cycles, the most of a grant list
  [2]
  $ { "$tools/grants" 'all*1048576'; echo $? > status; } | head -n 1 | cut -c 1-11
  0f 0f 0f 0f
  $ cat status
  9
  $ "$tools/sweep" sobel.ven --spad 64 > /dev/full
  [9]
  $ "$tools/passes" sobel.ven 64 > /dev/full
  [9]
  $ "$tools/grants" 'random:1*1048576' | "$TESTDIR/../../venice" exec race.image race.arrays 4 16 100 /dev/stdin
  error: machine hazard pc 8 cycle 21
  [7]
