The charts of cycles in the documents are runs: where host, lanes and channels may step in just those cycles in which the chart
has them step, all of these steps are made, and the run ends with the chart.

  $ venice() { "$TESTDIR/../../venice" "$@"; }
  $ cp -r "$TESTDIR/../../README.md" "$TESTDIR/../../docs" "$TESTDIR/../../examples" .

`grants PAGE N K` writes the grants of the N-th chart of a page, of the K-th where charts stand beside each other.

  $ grants() {
  >   awk -v chart="$2" -v column="$3" '
  >     BEGIN { bit["host"] = 1; bit["lanes"] = 2; bit["read"] = 4; bit["write"] = 8 }
  >     /^cycle  1/ { now++ }
  >     now == chart && $1 in bit {
  >       steps = $(column + 1)
  >       for (at = 1; at <= length(steps); at++) sum[at] += bit[$1] * (substr(steps, at, 1) == "#")
  >       if ($1 == "write") { for (at = 1; at <= length(steps); at++) printf "%02x ", sum[at]; exit }
  >     }' "$1"
  > }
  $ check() {
  >   grants "$1" "$2" "$3" > chart.grants
  >   shift 3
  >   venice exec "$@" chart.grants | tail -n 2 > ran
  >   ones=$(tr -d ' ' < chart.grants | fold -w 1 | sed 's/[1248]/1/; s/[3569ac]/11/; s/[7bde]/111/; s/f/1111/; s/0//' | tr -d '\n')
  >   printf 'steps %s\ncycles %s\n' ${#ones} $(wc -w < chart.grants) | diff - ran
  > }
  $ venice asm examples/add.asm add.image
  $ venice asm examples/race.asm race.image
  $ check README.md 1 1 add.image examples/add.arrays 4 12 100
  $ check README.md 1 2 add.image examples/add.arrays 4 12 100
  $ check docs/tutorial/4-machine.md 1 1 add.image examples/add.arrays 4 12 100
  $ check docs/tutorial/4-machine.md 2 1 add.image examples/add.arrays 4 12 100
  $ check docs/tutorial/6-races.md 1 1 race.image examples/race.arrays 4 16 100
  $ check docs/MACHINE.md 1 1 race.image examples/race.arrays 4 16 100
  $ cat README.md docs/*.md docs/tutorial/*.md | grep -c '^cycle  1'
  5
