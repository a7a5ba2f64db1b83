#!/usr/bin/env bash
# How many steps a second the machine of `exec` makes: a copy of 64 MiB by the channels, 1 lane; an addition of large arrays in tiles,
# 4 lanes; a loop of host instructions alone; and the copy's first 1,900,000 steps under a list of a million grants, all 0f, whose cycles
# are made one by one. The texts are copy.asm, add.asm and host.asm in this folder. A figure is the
# steps of a run over its time, less that of a run of an image of the same memory that only halts; each time is the least of so many
# runs (5, or the number given), from the start of the process to its end. What is run is the program itself, and not the launcher;
# PROGRAM in the environment names another one.
set -eu
unset CDPATH
runs=${1:-5}
if ! [[ $runs =~ ^[1-9][0-9]*$ ]]; then
    echo "usage: $0 [RUNS]" >&2
    exit 2
fi
top=$(cd -- "$(dirname -- "$0")/.." && pwd)
room=$(mktemp -d)
trap 'rm -r -- "$room"' EXIT
cd -- "$room"
if [ -z "${PROGRAM:-}" ]; then
    VENICE_BUILD=proved "$top/venice" > words || true
    PROGRAM=$top/crates/venice/out/venice
fi
: > inputs

# The least time of so many runs of an image, in microseconds: on so many lanes, with so many steps at the most, and under grants if a
# file of them is given. What the last of them printed stands in `printed`.
least_of() {
    for _ in $(seq "$runs"); do
        local from=${EPOCHREALTIME/[.,]/}
        $PROGRAM exec "$1" inputs "$2" 1048576 "${@:3}" > printed 2>&1 || true
        echo $((${EPOCHREALTIME/[.,]/} - from))
    done | sort -n | head -n 1
}

# The image of a text, and one of the same memory that only halts.
images() {
    $PROGRAM asm "$top/bench/$1.asm" image
    { grep -E '^(spad|memory) ' "$top/bench/$1.asm"; echo halt; } > start.asm
    $PROGRAM asm start.asm start
}

# The figures of a text.
figure() {
    images "$1"
    local start all steps cycles
    start=$(least_of start "$2" 1099511627776)
    all=$(least_of image "$2" 1099511627776)
    steps=$(sed -n 's/^steps //p' printed)
    cycles=$(sed -n 's/^cycles //p' printed)
    awk -v name="$1" -v lanes="$2" -v steps="$steps" -v cycles="$cycles" -v all="$all" -v start="$start" 'BEGIN {
        printf "%s, lanes %d: %d steps, %d cycles, %.1f ms, of which %.1f ms start: %.1f million steps a second\n",
            name, lanes, steps, cycles, all / 1000, start / 1000, steps / (all - start)
    }'
}

# The figure of the copy's first steps under grants.
granted_figure() {
    images copy
    yes 0f | head -n 1000000 > grants || true
    local start all steps=1900000
    start=$(least_of start 1 $steps grants)
    all=$(least_of image 1 $steps grants)
    grep -qx "error: machine budget $steps" printed
    awk -v steps="$steps" -v all="$all" -v start="$start" 'BEGIN {
        printf "copy under grants, lanes 1: %d steps, %.1f ms, of which %.1f ms start: %.1f million steps a second\n",
            steps, all / 1000, start / 1000, steps / (all - start)
    }'
}

figure copy 1
figure add 4
figure host 1
granted_figure
