The rules of a program in their order: statement by statement, in an expression operands before their node and from left to
right, and at one node rule by rule. The first that is broken is answered.

  $ venice() { "$TESTDIR/../../venice" "$@"; }
  $ inputs='input a u8[1,2]; input b u8[2,1]; input c i8[1,2]; input d i8[2,1];'
  $ echo "$inputs" | wc -c
  68
  $ lines() {
  >   while read -r text; do
  >     echo "$inputs" > try.ven
  >     printf '%s' "$text" >> try.ven
  >     line=$(venice explain try.ven)
  >     echo "$text: $? $line"
  >   done
  > }

The name that a statement declares comes before its shape and its expression, and a statement before the next.

  $ lines <<END
  > input a u8[0,1];
  > let a = z;
  > let a = 1;
  > output b = a + c;
  > let e = z; let a = a;
  > let e = 1; input f u8[0,0];
  > input f u8[0,0]; output y = 1;
  > let e = e;
  > let e = f; let f = a;
  > END
  input a u8[0,1];: 3 error: program twice at 74
  let a = z;: 3 error: program twice at 72
  let a = 1;: 3 error: program twice at 72
  output b = a + c;: 3 error: program twice at 75
  let e = z; let a = a;: 3 error: program unknown at 76
  let e = 1; input f u8[0,0];: 3 error: program literal alone at 76
  input f u8[0,0]; output y = 1;: 3 error: program bad shape at 78
  let e = e;: 3 error: program unknown at 76
  let e = f; let f = a;: 3 error: program unknown at 76

All names share one space, an output's too, which later statements may use.

  $ lines <<END
  > output e = a; let e = a;
  > let e = a; input e u8[1,1];
  > output e = a; output f = e + c;
  > END
  output e = a; let e = a;: 3 error: program twice at 86
  let e = a; input e u8[1,1];: 3 error: program twice at 85
  output e = a; output f = e + c;: 3 error: program type mismatch at 95

Operands come before their node, from left to right; a literal has no rule of its own.

  $ lines <<END
  > let e = y + z;
  > let e = (a + c) + z;
  > let e = z + (a + c);
  > let e = (a + b) + (a + c);
  > let e = select(1, z, a);
  > let e = select(a, z, y);
  > let e = select(1, a + b, a);
  > let e = shift(a + c, 0, 0, 256);
  > let e = sum(sum(1));
  > let e = (1 + 2) + (3 + z);
  > let e = 1 + (2 + z);
  > let e = -(-(1));
  > let e = section(stretch(a, 0, 1), 0, 0, 0, 0, 0, 0);
  > let e = stretch(section(a, 0, 0, 0, 0, 0, 0), 0, 1);
  > END
  let e = y + z;: 3 error: program unknown at 76
  let e = (a + c) + z;: 3 error: program type mismatch at 79
  let e = z + (a + c);: 3 error: program unknown at 76
  let e = (a + b) + (a + c);: 3 error: program shape mismatch at 79
  let e = select(1, z, a);: 3 error: program unknown at 86
  let e = select(a, z, y);: 3 error: program unknown at 86
  let e = select(1, a + b, a);: 3 error: program shape mismatch at 88
  let e = shift(a + c, 0, 0, 256);: 3 error: program type mismatch at 84
  let e = sum(sum(1));: 3 error: program literal alone at 84
  let e = (1 + 2) + (3 + z);: 3 error: program literal alone at 77
  let e = 1 + (2 + z);: 3 error: program unknown at 85
  let e = -(-(1));: 3 error: program literal alone at 80
  let e = section(stretch(a, 0, 1), 0, 0, 0, 0, 0, 0);: 3 error: program bad stretch at 84
  let e = stretch(section(a, 0, 0, 0, 0, 0, 0), 0, 1);: 3 error: program bad section at 84

At a node of two operands: a literal without an operand beside it, the types, the shapes, the literal's range.

  $ lines <<END
  > let e = 1 + 256;
  > let e = min(300, -1);
  > let e = ssub(-1, 1);
  > let e = a + d;
  > let e = a + b;
  > let e = a + c;
  > let e = a == d;
  > let e = a + 256;
  > let e = 256 + a;
  > let e = -1 + a;
  > let e = c * - 129;
  > let e = c * 128;
  > let e = c & 0xff;
  > let e = sadd(300, a);
  > let e = a << 256;
  > let e = c >> -129;
  > END
  let e = 1 + 256;: 3 error: program literal alone at 76
  let e = min(300, -1);: 3 error: program literal alone at 80
  let e = ssub(-1, 1);: 3 error: program literal alone at 81
  let e = a + d;: 3 error: program type mismatch at 78
  let e = a + b;: 3 error: program shape mismatch at 78
  let e = a + c;: 3 error: program type mismatch at 78
  let e = a == d;: 3 error: program type mismatch at 78
  let e = a + 256;: 3 error: program literal range at 80
  let e = 256 + a;: 3 error: program literal range at 76
  let e = -1 + a;: 3 error: program literal range at 76
  let e = c * - 129;: 3 error: program literal range at 80
  let e = c * 128;: 3 error: program literal range at 80
  let e = c & 0xff;: 3 error: program literal range at 80
  let e = sadd(300, a);: 3 error: program literal range at 81
  let e = a << 256;: 3 error: program literal range at 81
  let e = c >> -129;: 3 error: program literal range at 81

At a `select`: its condition that is a literal, the types of all three, their shapes, the range of the first literal that has
none.

  $ lines <<END
  > let e = select(1, a, d);
  > let e = select(1, 2, 3);
  > let e = select(a, d, b);
  > let e = select(a, 256, d);
  > let e = select(a, b, c);
  > let e = select(a, b, 256);
  > let e = select(c, a == a, c);
  > let e = select(a, 256, 257);
  > let e = select(a, 255, -1);
  > let e = select(c, -128, 128);
  > END
  let e = select(1, a, d);: 3 error: program literal alone at 83
  let e = select(1, 2, 3);: 3 error: program literal alone at 83
  let e = select(a, d, b);: 3 error: program type mismatch at 76
  let e = select(a, 256, d);: 3 error: program type mismatch at 76
  let e = select(a, b, c);: 3 error: program type mismatch at 76
  let e = select(a, b, 256);: 3 error: program shape mismatch at 76
  let e = select(c, a == a, c);: 3 error: program type mismatch at 76
  let e = select(a, 256, 257);: 3 error: program literal range at 86
  let e = select(a, 255, -1);: 3 error: program literal range at 91
  let e = select(c, -128, 128);: 3 error: program literal range at 92

At a map: an operand that is a literal, the fill's range, the section, the stretch.

  $ lines <<END
  > let e = shift(1, 0, 0, 256);
  > let e = shift(a, 0, 0, 256);
  > let e = shift(a, 0, 0, - 1);
  > let e = shift(c, 0, 0, -129);
  > let e = rotate(1, 0, 0);
  > let e = transpose(1);
  > let e = transpose(a) + a;
  > let e = section(1, 0, 0, 0, 0, 0, 0);
  > let e = stretch(1, 0, 0);
  > END
  let e = shift(1, 0, 0, 256);: 3 error: program literal alone at 82
  let e = shift(a, 0, 0, 256);: 3 error: program literal range at 91
  let e = shift(a, 0, 0, - 1);: 3 error: program literal range at 91
  let e = shift(c, 0, 0, -129);: 3 error: program literal range at 91
  let e = rotate(1, 0, 0);: 3 error: program literal alone at 83
  let e = transpose(1);: 3 error: program literal alone at 86
  let e = transpose(a) + a;: 3 error: program shape mismatch at 89
  let e = section(1, 0, 0, 0, 0, 0, 0);: 3 error: program literal alone at 84
  let e = stretch(1, 0, 0);: 3 error: program literal alone at 84

A literal that is the whole expression comes last in its statement; brackets around it change nothing.

  $ lines <<END
  > let e = 1;
  > output y = ((- 0x1));
  > let e = u8(1);
  > let e = abs(-1);
  > let e = rowmax(1);
  > let e = ~1;
  > END
  let e = 1;: 3 error: program literal alone at 76
  output y = ((- 0x1));: 3 error: program literal alone at 81
  let e = u8(1);: 3 error: program literal alone at 79
  let e = abs(-1);: 3 error: program literal alone at 80
  let e = rowmax(1);: 3 error: program literal alone at 83
  let e = ~1;: 3 error: program literal alone at 77

After all statements: no output, and then the work.

  $ lines <<END
  > let e = a;
  > let e = stretch(a, 524288, 1) + z;
  > END
  let e = a;: 3 error: program no output
  let e = stretch(a, 524288, 1) + z;: 3 error: program unknown at 100
