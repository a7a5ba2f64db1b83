#!/usr/bin/env bash
# How fast a text of 64 MiB with a million labels, each of which a jump names, is assembled, and how fast an image of 8,000,000
# instructions is written as its text, in megabytes of text a second. Each figure is the best of 3 rounds: first of the commands `asm` and
# `disasm`, from the start of the process to its end, with the loads, the save and the puts; then of the functions alone. For these the
# script makes a program of its own in a copy of the crates, which the toolchain proves before it runs: that takes minutes where nothing
# has been proved yet. PROGRAM in the environment names another program than the launcher's.
set -eu
unset CDPATH
top=$(cd -- "$(dirname -- "$0")/.." && pwd)
room=$(mktemp -d)
trap 'rm -r -- "$room"' EXIT

if [ -z "${PROGRAM:-}" ]; then
    VENICE_BUILD=proved "$top/venice" > "$room/words" || true
    PROGRAM=$top/crates/venice/out/venice
fi

# The best rate of 3 rounds, where so many bytes are read or written.
rate_of() {
    local bytes=$1 name=$2
    shift 2
    for _ in 1 2 3; do
        local from=${EPOCHREALTIME/[.,]/}
        "$@"
        echo $((${EPOCHREALTIME/[.,]/} - from))
    done | sort -n | head -n 1 | awk -v bytes="$bytes" -v name="$name" '{ printf "%s: %d MB/s\n", name, bytes / $1 }'
}

awk 'BEGIN {
    print "spad 1\nmemory 0"
    for (k = 0; k < 1000000; k++)
        printf "l%d: jmp l%d\naddi r31 r30 4294967295\nset mbytes r31\nvwait\n", k, 999999 - k
    print "halt"
}' > "$room/labels.asm"
length=$(stat -c %s "$room/labels.asm")
rate_of "$length" "asm, $length bytes with a million labels" $PROGRAM asm "$room/labels.asm" "$room/labels.image"

# An image that counts up and halts.
printf '\2\1\1\0\1\0\0\0' > "$room/counts"
for _ in $(seq 23); do
    cat "$room/counts" "$room/counts" > "$room/more"
    mv "$room/more" "$room/counts"
done
{
    printf 'VNC1\1\0\0\0\0\0\0\0\0\0\0\0\0\22\172\0'
    head -c $((8 * 7999999)) "$room/counts"
    printf '\0\0\0\0\0\0\0\0'
} > "$room/long.image"
rm -- "$room/counts"
length=$($PROGRAM disasm "$room/long.image" | wc -c)
print_text() { $PROGRAM disasm "$room/long.image" > "$1"; }
rate_of "$length" "disasm to a device, $length bytes of 8000000 instructions" print_text /dev/null
rate_of "$length" "disasm to a file" print_text "$room/long.asm"
rm -- "$room"/*.asm "$room"/*.image

mkdir -- "$room/crates"
cp -r -- "$top/HANDLES" "$room"
for crate in ven_base ven_io venice_isa image_loader venice_asm; do
    cp -r -- "$top/crates/$crate" "$room/crates"
done
cd -- "$room"
git init -q .
grep -E '^(ven_base|ven_io|venice_isa|image_loader|venice_asm):' "$top/crates.txt" > crates.txt
echo 'assembler: image_loader itoa venice_asm' >> crates.txt
mkdir -p crates/assembler/src
cat > crates/assembler/src/main.rt << 'PROGRAM'
//! Prints how fast texts are assembled and images written as texts.
#![tactic(auto)]

use image_loader::{BYTE_LIMIT, Image, read_image};
use itoa::Buffer;
use std::alloc::{AllocError, Global};
use std::io;
use std::time::Instant;
use venice_asm::{assemble, disassemble};

const ROUNDS: u32 = 3;
const LABELS: u32 = 1_000_000;
const COUNT: u32 = 8_000_000;

/// The bytes of an image that counts up and halts.
fn image_bytes(alloc: Global) -> Result<Vec<u8>, AllocError> {
    let mut bytes = Vec::new(alloc);
    bytes.extend_from_slice(b"VNC1")?;
    for number in [1, 0, 0, COUNT] {
        bytes.extend_from_slice(&u32::to_le_bytes(number))?;
    }
    for _ in 1..COUNT {
        bytes.extend_from_slice(&[2, 1, 1, 0, 1, 0, 0, 0])?;
    }
    bytes.extend_from_slice(&[0; 8])?;
    Ok(bytes)
}

/// A text of jumps, each with a label of its own, to another's label, with other instructions between them.
fn text_of_labels(alloc: Global) -> Result<Vec<u8>, AllocError> {
    let mut text = Vec::new(alloc);
    text.extend_from_slice(b"spad 1\nmemory 0\n")?;
    for number in 0..LABELS {
        text.push(b'l')?;
        text.extend_from_slice(Buffer::new().format(number).as_bytes())?;
        text.extend_from_slice(b": jmp l")?;
        text.extend_from_slice(Buffer::new().format(LABELS - 1 - number).as_bytes())?;
        text.extend_from_slice(b"\naddi r31 r30 4294967295\nset mbytes r31\nvwait\n")?;
    }
    text.extend_from_slice(b"halt\n")?;
    Ok(text)
}

/// Megabytes a second, where so many bytes took so many nanoseconds.
fn rate(bytes: usize, took: u128) -> u128 {
    bytes as u128 * 1000 / took.max(1)
}

fn assembling(rt: &HostRuntime, text: &[u8]) -> io::Result<()> {
    let mut best = 0;
    for _ in 0..ROUNDS {
        if text.len() > BYTE_LIMIT as usize {
            return Ok(());
        }
        let start = Instant::now(rt)?;
        let found = assemble(rt.alloc(), text).is_ok();
        if found {
            best = rate(text.len(), start.elapsed(rt)?.as_nanos()).max(best);
        }
    }
    println!(rt; "assemble: {best} MB/s")
}

fn writing(rt: &HostRuntime, image: &Image) -> io::Result<()> {
    let mut best = 0;
    for _ in 0..ROUNDS {
        let start = Instant::now(rt)?;
        let text = disassemble(rt.alloc(), image)?;
        best = rate(text.len(), start.elapsed(rt)?.as_nanos()).max(best);
    }
    println!(rt; "disassemble: {best} MB/s")
}

fn main(rt: HostRuntime) -> io::Result<()> {
    let text = text_of_labels(rt.alloc())?;
    assembling(&rt, &text)?;
    let bytes = image_bytes(rt.alloc())?;
    if bytes.len() <= BYTE_LIMIT as usize {
        if let Ok(image) = read_image(rt.alloc(), &bytes) {
            writing(&rt, &image)?;
        }
    }
    Ok(())
}
PROGRAM
cd crates/assembler
rt "${RUN:-run}" | grep '/s'
