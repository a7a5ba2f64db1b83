What the documents show of the program is what it prints.

  $ venice() { "$TESTDIR/../../venice" "$@"; }
  $ cp -r "$TESTDIR/../../README.md" "$TESTDIR/../../docs" "$TESTDIR/../../examples" .
  $ blocks() { awk '/^```/ { inside = !inside; if (!inside) print "```"; next } inside' "$1"; }

README shows a file as it is. Its picture has a square for each value of the inputs, and then for each value of what is printed.

  $ blocks README.md | awk -v RS='```\n' '/^# A 3 by 3 blur/' | grep . | cmp - examples/blur.ven
  $ { sed '1,2d' examples/blur.arrays; venice eval examples/blur.ven examples/blur.arrays | sed 1d; } | xargs -n 1 > values
  $ awk '/<g>/ { print "" } /<rect x/' docs/blur.svg | sed 's/.*rgb(\([0-9]*\),.*/\1/' | sed '/^$/d' > greys
  $ cmp values greys

Each link of a page leads to a file, and each definition that the glossary names is in its crate.

  $ top=$TESTDIR/../..
  $ for page in README.md docs/*.md docs/tutorial/*.md; do
  >   grep -o '](\([^):#]*\)' $page | cut -c 3- | while read -r link; do
  >     [ -e "$top/$(dirname $page)/$link" ] || echo "$page: $link"
  >   done
  > done
  $ sed -n '/^## Words to avoid/q; s/^|.*| \([a-z].*`.*\) |$/\1/p' docs/GLOSSARY.md | grep -v '](' | tr -d ',`' |
  >   awk '{ for (k = 1; k <= NF; k++) if ($k ~ /^[a-z]/) crate = $k; else print crate "/specs/" $k ".antt" }' > named
  $ wc -l < named | awk '{ print ($1 > 60) }'
  1
  $ while read -r file; do [ -e "$top/crates/$file" ] || echo $file; done < named

The pages that show commands with what they print. Each is made a transcript of its own, in a folder that stands for the top of the
repository, out of its blocks that begin with a command. A page that draws pictures wants Debian's numpy and pil.

  $ transcript() {
  >   grep -q '^\$ \./tools/[pf]i' "$1" && echo "  \$ /usr/bin/python3 -c 'import numpy, PIL' 2>/dev/null || exit 80"
  >   printf '  $ cp -r "%s"/* .\n  $ PATH=/usr/bin:$PATH\n' "$PWD/top"
  >   awk '/^```/ { inside = !inside; shown = 0; next } inside && /^\$ / { shown = 1 } shown { print "  " $0 }' "$1"
  > }
  $ mkdir top pages
  $ cp -r examples top
  $ ln -s "$TESTDIR/../../venice" "$TESTDIR/../../tools" top
  $ for page in README.md docs/COOKBOOK.md docs/tutorial/*.md; do transcript $page > pages/$(basename $page .md).t; done
  $ grep -c '^  \$' pages/*.t | grep -c ':[0-3]$'
  0
  [1]
  $ cram3 --shell=/bin/bash pages/*.t > said 2>&1 || cat said

Each rule of a program that docs/LANGUAGE.md lists has an example and its line.

  $ sed -n 's/^| .* | `\([^`]*;\)` | `\(error: [^`]*\)` |$/\1\n\2/p' docs/LANGUAGE.md > rules
  $ grep -c error rules
  11
  $ while read -r text && read -r want; do
  >   printf '%s' "$text" > try.ven
  >   line=$(venice check try.ven 1000)
  >   [ "$line" = "$want" ] || echo "$text: $want, but it is $line"
  > done < rules

So has each fault of a program's text that is short enough, with its place.

  $ sed -n 's/^| \([a-z ]*\) | .* | `\(let [^`]*\)` | \([0-9]*\) |$/\1 at \3\n\2/p' docs/LANGUAGE.md > faults
  $ grep -c ' at ' faults
  4
  $ while read -r want && read -r text; do
  >   printf '%s' "$text" > try.ven
  >   line=$(venice check try.ven 1000)
  >   [ "$line" = "error: program $want" ] || echo "$text: $want, but it is $line"
  > done < faults

docs/FORMATS.md lists the faults of an array file with an example each.

  $ echo 'input a u8[1,1]; output y = a;' > one.ven
  $ sed '/^## Grants/,$d' docs/FORMATS.md | sed -n 's/^| .* | `\([^`]*\)`: \([a-z ]*[0-9]*\)[^|]* |$/\1\n\2/p' > faults
  $ grep -c '^[a-z]* u8' faults
  7
  $ while read -r text && read -r want; do
  >   printf '%s' "$text" > try.arrays
  >   echo "$want: $(venice eval one.ven try.arrays)"
  > done < faults
  unexpected at 14: error: inputs unexpected at 14
  unexpected at 0: error: inputs unexpected at 0
  unexpected at 11: error: inputs unexpected at 11
  unexpected at 4: error: inputs unexpected at 4
  twice: error: inputs twice a
  out of type at 10: error: inputs out of type at 10
  count: error: inputs count a need 2 have 1

Its worked assembler text is canonical, and is the example's.

  $ awk '/^## Assembler texts/ { here = 1 } /^## Grants/ { here = 0 } here' docs/FORMATS.md | blocks - | sed '/^```/,$d' > worked.asm
  $ venice asm worked.asm worked.image
  $ venice disasm worked.image | cmp - worked.asm
  $ venice asm examples/race.asm race.image
  $ cmp worked.image race.image

So have the faults of a grant list an example each.

  $ printf 'spad 1\nmemory 0\nhalt\n' > halt.asm
  $ venice asm halt.asm halt.image
  $ awk '/^## Grants/ { here = 1 } /^## Statuses/ { here = 0 } here' docs/FORMATS.md | grep -o '`[^`]*`: bad at [0-9]*' | tr -d '`' > faults
  $ while IFS=: read -r text want; do
  >   printf '%s' "$text" > try.grants
  >   echo "$want: $(venice exec halt.image /dev/null 1 1 1 try.grants)"
  > done < faults
   bad at 2: error: grants bad at 2
   bad at 1: error: grants bad at 1
   bad at 4: error: grants bad at 4
