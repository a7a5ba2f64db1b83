Index maps at their ends: the greatest amounts, sections up to the last element and one past it, stretches and transpositions.

  $ venice() { "$TESTDIR/../../venice" "$@"; }
  $ cat > grid.arrays <<END
  > a u8[3,4]
  > 1 2 3 4
  > 5 6 7 8
  > 9 10 11 12
  > END
  $ map() { echo "input a u8[3,4]; output y = $1;" > try.ven; venice eval try.ven grid.arrays; }

A shift takes what stands so many rows below and columns to the right, and the fill where nothing does.

  $ map 'shift(a, 1, 1, 0)'
  y u8[3,4]
  6 7 8 0
  10 11 12 0
  0 0 0 0
  $ map 'shift(a, -1, 2, 99)'
  y u8[3,4]
  99 99 99 99
  3 4 99 99
  7 8 99 99
  $ map 'shift(a, 2, -3, 255)'
  y u8[3,4]
  255 255 255 9
  255 255 255 255
  255 255 255 255
  $ map 'shift(a, 3, 0, 7)'
  y u8[3,4]
  7 7 7 7
  7 7 7 7
  7 7 7 7
  $ map 'shift(a, -4294967295, 4294967295, 8)'
  y u8[3,4]
  8 8 8 8
  8 8 8 8
  8 8 8 8
  $ map 'shift(a, 0, 0, 8)'
  y u8[3,4]
  1 2 3 4
  5 6 7 8
  9 10 11 12

A rotation wraps around, by any amount.

  $ map 'rotate(a, 1, -1)'
  y u8[3,4]
  8 5 6 7
  12 9 10 11
  4 1 2 3
  $ map 'rotate(a, -4, 9)'
  y u8[3,4]
  10 11 12 9
  2 3 4 1
  6 7 8 5
  $ map 'rotate(a, 4294967295, -4294967295)'
  y u8[3,4]
  2 3 4 1
  6 7 8 5
  10 11 12 9
  $ map 'rotate(a, 3, -4)'
  y u8[3,4]
  1 2 3 4
  5 6 7 8
  9 10 11 12

A section may end exactly at the last row and column.

  $ map 'section(a, 0, 2, 2, 1, 2, 2)'
  y u8[2,2]
  2 4
  10 12
  $ map 'section(a, 2, 1, 1, 3, 1, 1)'
  y u8[1,1]
  12
  $ map 'section(a, 0, 3, 1, 0, 4, 1)'
  y u8[3,4]
  1 2 3 4
  5 6 7 8
  9 10 11 12
  $ map 'section(a, 1, 1, 4294967295, 2, 1, 4294967295)'
  y u8[1,1]
  7
  $ map 'section(a, 0, 2, 3, 0, 1, 1)'
  error: program bad section at 28
  [3]
  $ map 'section(a, 0, 1, 1, 0, 3, 2)'
  error: program bad section at 28
  [3]
  $ map 'section(a, 3, 1, 1, 0, 1, 1)'
  error: program bad section at 28
  [3]
  $ map 'section(a, 0, 1, 1, 4, 1, 1)'
  error: program bad section at 28
  [3]
  $ map 'section(a, 0, 0, 1, 0, 1, 1)'
  error: program bad section at 28
  [3]
  $ map 'section(a, 0, 1, 0, 0, 1, 1)'
  error: program bad section at 28
  [3]
  $ map 'section(a, 0, 1, 1, 0, 0, 1)'
  error: program bad section at 28
  [3]
  $ map 'section(a, 0, 1, 1, 0, 1, 0)'
  error: program bad section at 28
  [3]
  $ map 'section(a, 0, 4294967295, 4294967295, 0, 1, 1)'
  error: program bad section at 28
  [3]

A stretch repeats rows and columns, up to 1,048,576 elements.

  $ map 'stretch(a, 1, 2)'
  y u8[3,8]
  1 1 2 2 3 3 4 4
  5 5 6 6 7 7 8 8
  9 9 10 10 11 11 12 12
  $ map 'stretch(a, 2, 1)'
  y u8[6,4]
  1 2 3 4
  1 2 3 4
  5 6 7 8
  5 6 7 8
  9 10 11 12
  9 10 11 12
  $ map 'stretch(section(a, 0, 1, 1, 0, 1, 1), 1024, 1024)' | tail -n +2 | tr ' ' '\n' | sort | uniq -c
  1048576 1
  $ map 'stretch(section(a, 0, 1, 1, 0, 2, 1), 1, 524288)' | wc -w
  1048578
  $ map 'stretch(section(a, 0, 1, 1, 0, 2, 1), 1, 524289)'
  error: program bad stretch at 28
  [3]

A row of 100 columns becomes one of 300.

  $ { echo 'a u8[1,100]'; seq 100; } > row.arrays
  $ echo 'input a u8[1,100]; output y = stretch(a, 1, 3);' > row.ven
  $ venice eval row.ven row.arrays | tail -n 1 | tr ' ' '\n' | uniq -c | sed 's/ *\([0-9]*\) .*/\1/' | sort | uniq -c
      100 3
  $ venice check row.ven 100
  y u8[1,300]
  need 5
  pass 1 map 1 300 tile 1 20 tiles 15
  bound 768256

A transposition exchanges rows and columns, and back.

  $ map 'transpose(a)'
  y u8[4,3]
  1 5 9
  2 6 10
  3 7 11
  4 8 12
  $ map 'transpose(rotate(transpose(a), 1, 0)) - rotate(a, 0, 1)'
  y u8[3,4]
  0 0 0 0
  0 0 0 0
  0 0 0 0
  $ map 'transpose(a) + a'
  error: program shape mismatch at 41
  [3]

Maps of maps, of reductions and of computed arrays.

  $ map 'stretch(rowsum(a), 1, 2)'
  y u8[3,2]
  10 10
  26 26
  42 42
  $ map 'section(stretch(transpose(a * 2), 2, 2), 1, 3, 3, 0, 2, 5)'
  y u8[3,2]
  2 18
  6 22
  8 24
  $ map 'shift(rotate(a + 1, 0, 1), 0, -1, 0)'
  y u8[3,4]
  0 3 4 5
  0 7 8 9
  0 11 12 13
