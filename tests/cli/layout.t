Blanks, line ends and comments may stand between any two tokens of a program and of an array file.
A number may be hexadecimal, and may have leading zeros.

  $ venice() { "$TESTDIR/../../venice" "$@"; }
  $ echo 'input a u8[1,3]; input b u8[1,3]; output y = a + b;' > add.ven
  $ echo 'a u8[1,3] 1 2 3 b u8[1,3] 40 50 60' > add.arrays

Comments: from `#` up to the line end, or to the end of the text.

  $ cat > comments.ven <<END
  > # Three statements # and one comment
  > input a u8[1,3]; # input a u8[1,9];
  > #
  > input b # the name
  > u8[1,3];
  > output y = a + b;
  > END
  $ printf '# no line end' >> comments.ven
  $ cat > comments.arrays <<END
  > a u8[1,3] # 9 9 9
  > 1 2 3#9
  > b u8[1,3] 40 50
  > # 9
  > 60
  > END
  $ venice eval comments.ven comments.arrays
  y u8[1,3]
  41 52 63

Blanks are space, tab and carriage return. Where two tokens can't be read as one, none is needed.

  $ printf 'input\ta\tu8[1,3];\r\n\r\n  input b u8 [ 1 ,\t3 ] ;\routput y=a+b;' > blanks.ven
  $ printf '\r\n\ta\tu8[1,3]\r\n1\t2\t3\r\nb u8[\r1,3]40 50 60' > blanks.arrays
  $ venice eval blanks.ven blanks.arrays
  y u8[1,3]
  41 52 63

Another byte is no blank: a form feed begins no token, but may stand in a comment.

  $ printf 'input a u8[1,3];\f input b u8[1,3]; output y = a + b;' > feed.ven
  $ venice eval feed.ven add.arrays
  error: program unexpected at 16
  [3]
  $ printf 'input a u8[1,3]; # \f\ninput b u8[1,3]; output y = a + b;' > feed.ven
  $ venice eval feed.ven add.arrays
  y u8[1,3]
  41 52 63

A number is any number token of its value.

  $ echo 'input a u8[0x1,0x0003]; input b u8[01,3]; output y = a + b;' > numbers.ven
  $ echo 'a u8[1,0x3] 0x1 0x02 003 b u8[0x01,3] 0x28 0x32 0x3C' > numbers.arrays
  $ venice eval numbers.ven numbers.arrays
  y u8[1,3]
  41 52 63

The longest token is read: `0xg` is the number 0 and the name `xg`, and `0X1` the number 0 and the name `X1`.

  $ echo 'input a u8[1,1]; input xg u8[1,1]; output y = a + xg;' > longest.ven
  $ echo 'a u8[1,1]0xg u8[1,1]7' > longest.arrays
  $ venice eval longest.ven longest.arrays
  y u8[1,1]
  7
  $ echo 'input a u8[1,1]; input X1 u8[1,1]; output y = a + X1;' > longest.ven
  $ echo 'a u8[1,1]0X1 u8[1,1]8' > longest.arrays
  $ venice eval longest.ven longest.arrays
  y u8[1,1]
  8
