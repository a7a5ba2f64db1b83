`asm` reads an assembler text, saves the image that it denotes, and prints nothing.

  $ venice() { "$TESTDIR/../../venice" "$@"; }
  $ printf 'spad 16\nmemory 0\nhalt\n' > halt.asm
  $ venice asm halt.asm halt.image
  $ od -A n -t x1 halt.image
   56 4e 43 31 10 00 00 00 00 00 00 00 00 00 00 00
   01 00 00 00 00 00 00 00 00 00 00 00

A text may be assembled over an earlier image, which is replaced.

  $ head -c 1000 /dev/zero > old.image
  $ venice asm halt.asm old.image
  $ cmp halt.image old.image

Blanks, comments and empty lines may stand anywhere; the last line needs no end. A label stands for the next instruction.

  $ printf '\n# one\n\tspad 16 # two\nmemory   0\n\nend: # three\n  halt' > other.asm
  $ venice asm other.asm other.image
  $ cmp halt.image other.image

A label may be any name of at most 31 bytes, also an instruction's word; it need not be used, and may stand at the end.

  $ printf 'spad 16\nmemory 0\nhalt: jmp halt\na234567890123456789012345678901: jmp a234567890123456789012345678901\nhalt\nend:\n' > labels.asm
  $ venice asm labels.asm labels.image
  $ venice disasm labels.image
  spad 16
  memory 0
  jmp 0
  jmp 1
  halt

In the first line of code `array` may be a label too, before its `:`; it may also be the name of an array.

  $ printf 'spad 16\nmemory 4\narray array in u8[1,4] 0\narray: jmp array\nhalt\n' > array.asm
  $ venice asm array.asm array.image
  $ venice disasm array.image
  spad 16
  memory 4
  array array in u8[1,4] 0
  jmp 0
  halt

A text that is too long, or denotes no image, is refused by one line, and nothing is saved; places count bytes from 0.

  $ try() { printf "$1" > try.asm; venice asm try.asm try.image; }
  $ try 'spad 16\nmemory 0\nli r1 5 5\nhalt\n'
  error: text unexpected at 25
  [6]
  $ try 'spad 16\nmemory 0\nhalt # \303\251\n'
  error: text unexpected at 24
  [6]
  $ try 'spad 16\nmemory 0\nli r01 5\nhalt\n'
  error: text unexpected at 20
  [6]
  $ try 'spad 16\nmemory 0\nli r32 5\nhalt\n'
  error: text range at 20
  [6]
  $ try 'spad 16\nmemory 0\nli r99999999999 5\nhalt\n'
  error: text range at 20
  [6]
  $ try 'spad 16\nmemory 0\na2345678901234567890123456789012: halt\n'
  error: text unexpected at 17
  [6]
  $ try 'spad 16\nmemory 0\nvec add u8 v\nhalt\n'
  error: text unexpected at 28
  [6]
  $ try 'spad 16\nmemory 0\nvec mov u8 vs\nhalt\n'
  error: text unexpected at 28
  [6]
  $ try 'spad 16\nmemory 0\nvec cmov u8 vs\nhalt\n'
  error: text range at 29
  [6]
  $ try 'spad 16\nmemory 0\nvec cmov u8 vv acc\nhalt\n'
  error: text range at 32
  [6]
  $ try 'spad 16\nmemory 0\nli r1 4294967296\nhalt\n'
  error: text range at 23
  [6]
  $ try 'spad 16\nmemory 0\nend: end: halt\n'
  error: text unexpected at 22
  [6]
  $ try 'spad 16\nmemory 0\nend:\nend: halt\n'
  error: text label twice at 22
  [6]
  $ try 'spad 16\nmemory 0\njmp there\nhalt\n'
  error: text label unknown at 21
  [6]
  $ try 'spad 16\nmemory 0\njmp 2\nhalt\n'
  error: text label unknown at 21
  [6]
  $ try 'spad 0\nmemory 0\nhalt\n'
  error: text table at 4
  [6]
  $ try 'spad 16\nmemory 4\narray a in u8[1,4] 1\nhalt\n'
  error: text table at 32
  [6]
  $ try 'spad 16\nmemory 4\narray a in u8[1,4] 0\narray a out u8[1,4] 0\nhalt\n'
  error: text table at 37
  [6]
  $ try 'spad 16\nmemory 4\narray sum in u8[1,4] 0\nhalt\n'
  error: text unexpected at 23
  [6]
  $ try 'spad 16\nmemory 4\narray a in u8[1,4] 0\narray u8 out u8[0,4] 0\nhalt\n'
  error: text unexpected at 44
  [6]
  $ try 'spad 16\nmemory 0\narray: halt\narray: halt\n'
  error: text label twice at 29
  [6]
  $ try 'spad 16\nmemory 0\narray: halt\narray a in u8[1,4] 0\n'
  error: text unexpected at 35
  [6]
  $ try 'spad 16\nmemory 0\nli r1 5\n'
  error: text no halt
  [6]
  $ try ''
  error: text unexpected at 0
  [6]
  $ head -c 67108865 /dev/zero > try.asm
  $ venice asm try.asm try.image
  error: text too long
  [6]
  $ test -e try.image
  [1]

The three that concern the whole text come after all others, in the order label, table, halt.

  $ try 'spad 0\nmemory 0\njmp there\nli r32 0\n'
  error: text range at 29
  [6]
  $ try 'spad 0\nmemory 0\njmp there\n'
  error: text label unknown at 20
  [6]
  $ try 'spad 0\nmemory 0\njmp 0\n'
  error: text table at 4
  [6]

Version 2 has more instructions, and says so in its first line.

  $ try 'spad 16\nmemory 0\ntag r1\nhalt\n'
  error: text unexpected at 21
  [6]
  $ try 'version 3\nspad 16\nmemory 0\nhalt\n'
  error: text range at 8
  [6]
  $ try 'version 2\nspad 16\nmemory 0\ntag r1\ntwait r1\nhalt\n'
  $ head -c 4 try.image
  VNC2 (no-eol)

A file that can't be read is refused, and one that can't be saved.

  $ venice asm no.asm no.image
  error: file
  [8]
  $ venice asm halt.asm no/such/folder
  error: save
  [14]
  $ test -e no.image
  [1]

After a save that failed nothing else is printed; the text's own faults come first.

  $ venice asm halt.asm /dev/full
  error: save
  [14]
  $ printf 'halt' > bad.asm
  $ venice asm bad.asm /dev/full
  error: text unexpected at 0
  [6]
