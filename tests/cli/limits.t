The limits of a program, each at its end and one past it: height, brackets and signs, numbers, elements, work, statements,
nodes, bytes.

  $ venice() { "$TESTDIR/../../venice" "$@"; }
  $ echo 'a i8[1,1] 5' > one.arrays
  $ repeat() { local k; for k in $(seq $1); do printf '%s' "$2"; done; }
  $ value() { printf 'input a i8[1,1];let y = %s;output z = y;' "$1" > try.ven; venice eval try.ven one.arrays | tail -n 1; }
  $ fault() { printf 'let y = %s' "$1" > try.ven; venice check try.ven 1; }

At most 64 brackets and prefix signs are open at once.

  $ value "$(repeat 64 '(')a$(repeat 64 ')')"
  5
  $ value "$(repeat 65 '(')a$(repeat 65 ')')"
  error: program too deep at 88
  $ value "$(repeat 64 '(')a + -1$(repeat 64 ')')"
  4
  $ value "$(repeat 32 '-(')a$(repeat 32 ')')"
  5
  $ value "$(repeat 32 '-(')(a)$(repeat 32 ')')"
  error: program too deep at 88
  $ value "$(repeat 63 '(')~a$(repeat 63 ')') + $(repeat 64 '(')a$(repeat 64 ')')"
  -1

A sign is open until its operand is whole. Whether a `-` is a sign shows at the token behind it; the `-` of a literal is none.

  $ fault "$(repeat 64 '(')-1"
  error: program unexpected at 74
  [3]
  $ fault "$(repeat 64 '(')- 1)"
  error: program unexpected at 76
  [3]
  $ fault "$(repeat 64 '(')-a"
  error: program too deep at 72
  [3]
  $ fault "$(repeat 64 '(')-(1)"
  error: program too deep at 72
  [3]
  $ fault "$(repeat 64 '(')-"
  error: program too deep at 72
  [3]
  $ fault "$(repeat 64 '(')$(printf -- '-\303\251')"
  error: program too deep at 72
  [3]
  $ fault "$(repeat 64 '(')~1"
  error: program too deep at 72
  [3]
  $ fault "$(repeat 64 '(')sum(a)"
  error: program too deep at 75
  [3]
  $ fault "$(repeat 64 '(')sum a"
  error: program unexpected at 76
  [3]
  $ fault "$(repeat 64 '(')!"
  error: program unexpected at 72
  [3]
  $ fault "$(repeat 65 '-')1"
  error: program too deep at 74
  [3]
  $ fault "$(repeat 66 '-')1"
  error: program too deep at 72
  [3]

An expression is at most 64 high: 63 signs, calls or sums over a name. Brackets count for nothing there.

  $ value "$(repeat 63 '~')a"
  -6
  $ value "$(repeat 64 '~')a"
  error: program too deep at 89
  $ value "$(repeat 63 'u8(')a$(repeat 63 ')')"
  5
  $ value "$(repeat 64 'u8(')a$(repeat 64 ')')"
  error: program too deep at 281
  $ value "$(repeat 65 'u8(')a$(repeat 65 ')')"
  error: program too deep at 218
  $ value "a$(repeat 63 '+a')"
  64
  $ value "a$(repeat 64 '+a')"
  error: program too deep at 153
  $ value "a$(repeat 63 '+(a)')"
  64
  $ value "a$(repeat 64 '+(a)')"
  error: program too deep at 281
  $ value "$(repeat 62 '(a+')(a + a)$(repeat 62 ')')"
  64
  $ value "$(repeat 63 '(a+')(a + a)$(repeat 63 ')')"
  error: program too deep at 282

A sum too high is one only once no sign that binds tighter stands behind it, since that sign would take its last operand.

  $ value "a$(repeat 64 '+a')+a"
  error: program too deep at 153
  $ value "a$(repeat 64 '+a')-a"
  error: program too deep at 153
  $ value "a$(repeat 64 '+a')*a"
  error: program too deep at 155
  $ value "a$(repeat 64 '+a')<<a"
  error: program too deep at 153
  $ value "a$(repeat 64 '+a') !"
  error: program too deep at 154
  $ value "a$(repeat 64 '+a') 4294967296"
  error: program number too large at 154
  $ value "a == a$(repeat 63 '+a') == a"
  error: program too deep at 157
  $ value "a == a$(repeat 62 '+a') == a"
  error: program unexpected at 155

A number is at most 4,294,967,295, also where none may stand, and a name has at most 31 bytes.

  $ value 'shift(a, 4294967295, -0xffffffff, 9)'
  9
  $ value 'shift(a, 4294967296, 0, 9)'
  error: program number too large at 33
  $ value 'shift(a, 0, -0x100000000, 9)'
  error: program number too large at 37
  $ value 'a 4294967296'
  error: program number too large at 26
  $ value 'a 00000000000000000000000000000000004294967295'
  error: program unexpected at 26
  $ name=n234567890123456789012345678901
  $ echo ${#name}
  31
  $ echo "input $name u8[1,1]; output y = $name;" > name.ven
  $ venice check name.ven 5
  y u8[1,1]
  need 5
  pass 1 map 1 1 tile 1 1 tiles 1
  bound 2816
  $ echo "input ${name}2 u8[1,1];" > name.ven
  $ venice check name.ven 5
  error: program name too long at 6
  [3]
  $ value "a ${name}2"
  error: program name too long at 26

An array has at most 1,048,576 elements.

  $ elements() { echo "input a u8[$1]; output y = sum(a);" > try.ven; venice check try.ven 100 | head -n 1; }
  $ elements 1024,1024
  y u8[1,1]
  $ elements 1048576,1
  y u8[1,1]
  $ elements 1024,1025
  error: program bad shape at 10
  $ elements 1,1048577
  error: program bad shape at 10
  $ elements 4294967295,4294967295
  error: program bad shape at 10
  $ elements 65536,65536
  error: program bad shape at 10
  $ elements 0,1
  error: program bad shape at 10
  $ value 'stretch(stretch(a, 1024, 1024), 0, 1)'
  error: program bad stretch at 24
  $ value 'sum(stretch(a, 1024, 1024))'
  0
  $ value 'stretch(a, 1024, 1025)'
  error: program bad stretch at 24
  $ value 'stretch(a, 65536, 65536)'
  error: program bad stretch at 24
  $ value 'stretch(a, 4294967295, 4294967295)'
  error: program bad stretch at 24

The work is at most 16,777,216: here sixteen times 1,048,576 elements, and one more.

  $ { echo 'input a u8[1024,1024];'; for k in 1 2 3 4 5; do echo "output y$k = a + a;"; done; } > work.ven
  $ venice check work.ven 1048576 | tail -n 1
  bound 14763950336
  $ { cat work.ven; echo 'input b u8[1,1];'; } > more.ven
  $ venice check more.ven 1048576
  error: program too much work 16777217
  [3]
  $ venice eval more.ven one.arrays
  error: program too much work 16777217
  [3]
  $ venice explain more.ven
  error: program too much work 16777217
  [3]

Literals and brackets are no work; a map's work is its result's elements, a reduction's are its rows, or one.

  $ echo 'input a u8[1024,1024]; output y = (((((((a+1)*2)-3)&4)|5)^6)<<7)+min(max(sadd(a,8),9),10);' > literals.ven
  $ venice check literals.ven 100 | tail -n 1
  bound 8321499392
  $ { cat literals.ven; echo 'output z = a;'; } > more.ven
  $ venice check more.ven 100 | tail -n 1
  bound 11005853952
  $ echo 'output s = rowsum(a) + rowmin(a);' >> more.ven
  $ venice check more.ven 100
  error: program too much work 17828864
  [3]
  $ echo 'output t = sum(section(a, 0, 1, 1, 0, 1000, 1));' >> more.ven
  $ venice check more.ven 100
  error: program too much work 18878441
  [3]

The number that is refused may be great, and comes after all other rules.

  $ { echo 'input a u8[1024,1024];'; for k in $(seq 255); do echo "let y$k = -a;"; done; } > great.ven
  $ venice check great.ven 100
  error: program no output
  [3]
  $ sed -i 's/let y9 /output y9 /' great.ven
  $ venice check great.ven 100
  error: program too much work 535822336
  [3]
  $ sed -i 's/y200 = -a/y200 = -b/' great.ven
  $ venice check great.ven 100
  error: program unknown at 2915
  [3]

At most 256 statements and 4,096 nodes; names, literals and calls are nodes.

  $ repeat 256 'output y = 1;' > try.ven
  $ venice check try.ven 1
  error: program literal alone at 11
  [3]
  $ { cat try.ven; echo '# the end'; } > more.ven
  $ venice check more.ven 1
  error: program literal alone at 11
  [3]
  $ for next in 'let' 'output y' 'y' ';' '!'; do { cat try.ven; echo "$next"; } > more.ven; venice check more.ven 1; done
  error: program too many statements at 3328
  error: program too many statements at 3328
  error: program unexpected at 3328
  error: program unexpected at 3328
  error: program unexpected at 3328
  [3]
  $ sum8='let a = 1+1+1+1+1+1+1+1;'
  $ sum9='let a = 1+1+1+1+1+1+1+1+1;'
  $ { repeat 128 "$sum8"; repeat 128 "$sum9"; } > try.ven
  $ venice check try.ven 1
  error: program literal alone at 8
  [3]
  $ { repeat 128 "$sum8"; repeat 127 "$sum9"; echo 'let a = 1+1+1+1+1+1+1+1+-1+1;'; } > more.ven
  $ venice check more.ven 1
  error: program too many nodes at 6400
  [3]
  $ { repeat 128 "$sum8"; repeat 127 "$sum9"; echo 'let a = shift(rotate(1,-1,2),3,4,5)*u8(section(1,2,3,4,5,6,7))+sum(~stretch(1,2,3))+abs(-1)+1;'; } > more.ven
  $ venice check more.ven 1
  error: program literal alone at 8
  [3]
  $ { repeat 128 "$sum8"; repeat 127 "$sum9"; echo 'let a = shift(rotate(1,-1,2),3,4,5)*u8(section(1,2,3,4,5,6,7))+sum(~stretch(1,2,3))+abs(-1)+1+1;'; } > more.ven
  $ venice check more.ven 1
  error: program too many nodes at 6467
  [3]

Where the 4,097th node is also the 65th open sign, it is too deep; a literal's `-` is none.

  $ { repeat 132 'let a = 1+1+1+1+1+1+1+1+1+1+1+1+1+1+1+1;'; printf 'let a = 1+1+'; repeat 64 '('; } > try.ven
  $ { cat try.ven; printf -- '-a'; } > more.ven
  $ venice check more.ven 1
  error: program too deep at 5356
  [3]
  $ { cat try.ven; printf -- '-1'; } > more.ven
  $ venice check more.ven 1
  error: program too many nodes at 5356
  [3]
  $ { cat try.ven; printf 'a'; } > more.ven
  $ venice check more.ven 1
  error: program too many nodes at 5356
  [3]
  $ { cat try.ven; printf ')'; } > more.ven
  $ venice check more.ven 1
  error: program unexpected at 5356
  [3]

At most 65,536 bytes for each command, and the bytes of a longer text aren't looked at.

  $ { echo 'input a i8[1,1]; output y = a;'; head -c 65505 /dev/zero | tr '\0' '#'; } > long.ven
  $ wc -c < long.ven
  65536
  $ venice eval long.ven one.arrays
  y i8[1,1]
  5
  $ venice check long.ven 5
  y i8[1,1]
  need 5
  pass 1 map 1 1 tile 1 1 tiles 1
  bound 2816
  $ venice explain long.ven
  pass 1 map
  order 1
  held 1
  most 1
  least 1
  $ printf '\377' >> long.ven
  $ venice eval long.ven one.arrays
  error: program too long
  [3]
  $ venice check long.ven 4
  error: program too long
  [3]
  $ venice explain long.ven
  error: program too long
  [3]
