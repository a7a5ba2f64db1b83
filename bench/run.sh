#!/usr/bin/env bash
# How long the parts of `run` take: reading, checking and splitting a program (`check`); making the code and saving the image (`build`
# less `check`); loading the image, the inputs and the machine's cycles, with the outputs printed (`exec`); all of it (`run`); and beside
# it the plain evaluator (`eval`). Two programs: a blur of 240 by 320 pixels with their sum, least and greatest, in 16,384 bytes of
# scratchpad; and a blur of the rows of 900 by 1,000 pixels in 65,536 bytes, since the first would be too much work there. 4 lanes.
# Each time is the least of so many runs (5, or the number given), from the start of the process to its end. What is run is the
# program itself, and not the launcher; PROGRAM in the environment names another one.
set -eu
unset CDPATH
runs=${1:-5}
if ! [[ $runs =~ ^[1-9][0-9]*$ ]]; then
    echo "usage: $0 [RUNS]" >&2
    exit 2
fi
top=$(cd -- "$(dirname -- "$0")/.." && pwd)
room=$(mktemp -d)
trap 'rm -r -- "$room"' EXIT
cd -- "$room"
if [ -z "${PROGRAM:-}" ]; then
    VENICE_BUILD=proved "$top/venice" > words || true
    PROGRAM=$top/crates/venice/out/venice
fi

# A blur with the sum, the least and the greatest of its pixels, for so many rows and columns.
picture() {
    cat <<END
input a u8[$1,$2];
let w = u16(a);
let y = u8((shift(w,-1,-1,0) + shift(w,-1,0,0)*2 + shift(w,-1,1,0) + shift(w,0,-1,0)*2 + w*4 + shift(w,0,1,0)*2 + shift(w,1,-1,0) + shift(w,1,0,0)*2 + shift(w,1,1,0)) >> 4);
output total = sum(u32(y));
output low = minval(y);
output high = maxval(y);
END
}

# A blur of each row.
rows() {
    cat <<END
input a u8[$1,$2];
let w = u16(a);
output y = u8((shift(w,0,-1,0) + w*2 + shift(w,0,1,0)) >> 2);
END
}

# Pixels in no order, for so many rows and columns.
pixels() {
    echo "a u8[$1,$2]"
    awk -v n=$(($1 * $2)) 'BEGIN { x = 1; while (n--) { x = (1664525 * x + 1013904223) % 4294967296; print int(x / 16777216) } }'
}

# The least time of so many runs of these words, in microseconds.
least_of() {
    for _ in $(seq "$runs"); do
        local from=${EPOCHREALTIME/[.,]/}
        $PROGRAM "$@" > printed
        echo $((${EPOCHREALTIME/[.,]/} - from))
    done | sort -n | head -n 1
}

ms() { awk -v time="$1" 'BEGIN { printf "%.1f ms", time / 1000 }'; }

# The figures of a program of so many rows and columns, in so many bytes of scratchpad.
figures() {
    local check build exec run eval
    "$1" "$2" "$3" > program
    pixels "$2" "$3" > inputs
    $PROGRAM run program inputs image 4 "$4" > said
    check=$(least_of check program "$4")
    build=$(least_of build program image "$4")
    exec=$(least_of exec image inputs 4 "$4" 1099511627776)
    cmp said printed
    run=$(least_of run program inputs image 4 "$4")
    cmp said printed
    eval=$(least_of eval program inputs)
    sed '/^steps /,$d' said | cmp - printed
    echo "$1 $2 $3, $4 bytes: $(tail -n 2 said | paste -s -d ' '), an image of $(wc -c < image) bytes"
    echo "  parse and split $(ms "$check"), code and save $(ms $((build > check ? build - check : 0))), exec $(ms "$exec"), run $(ms "$run"), eval $(ms "$eval")"
}

picture 900 1000 > program
$PROGRAM check program 65536 > printed || echo "picture 900 1000: $(cat printed)"
figures picture 240 320 16384
figures rows 900 1000 65536
