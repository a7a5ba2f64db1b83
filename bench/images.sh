#!/usr/bin/env bash
# How fast an image of 8,000,000 instructions (64 MB) is read and written, in megabytes a second, and how many host steps `issues` makes
# a second on its code. Each figure is the best of 5 rounds. The script makes a program of its own in a copy of the crates, which the
# toolchain proves before it runs: that takes minutes where nothing has been proved yet.
set -eu
unset CDPATH
top=$(cd -- "$(dirname -- "$0")/.." && pwd)
room=$(mktemp -d)
trap 'rm -r -- "$room"' EXIT
mkdir -- "$room/crates"
cp -r -- "$top/HANDLES" "$room"
for crate in ven_base venice_isa image_loader; do
    cp -r -- "$top/crates/$crate" "$room/crates"
done
cd -- "$room"
git init -q .
grep -E '^(ven_base|venice_isa|image_loader):' "$top/crates.txt" > crates.txt
echo 'images: ven_base venice_isa image_loader' >> crates.txt
mkdir -p crates/images/src
cat > crates/images/src/main.rt << 'PROGRAM'
//! Prints how fast images are read, written and run.
#![tactic(auto)]

use image_loader::{BYTE_LIMIT, Image, read_image, write_image};
use std::alloc::{AllocError, Global};
use std::io;
use std::time::Instant;
use venice_isa::issues;

const ROUNDS: u32 = 5;
const COUNT: u32 = 8_000_000;

/// The bytes of an image that counts up and halts.
fn image_bytes(alloc: Global) -> Result<Vec<u8>, AllocError> {
    let mut bytes = Vec::new(alloc);
    bytes.extend_from_slice(b"VNC1")?;
    for number in [1, 0, 0, COUNT] {
        bytes.extend_from_slice(&u32::to_le_bytes(number))?;
    }
    for _ in 1..COUNT {
        bytes.extend_from_slice(&[2, 1, 1, 0, 1, 0, 0, 0])?;
    }
    bytes.extend_from_slice(&[0; 8])?;
    Ok(bytes)
}

/// Tenths of a unit a second, where so many units took so many nanoseconds.
fn rate(units: u32, took: u128) -> u128 {
    u128::from(units) * 10_000_000_000 / took.max(1)
}

fn read(rt: &HostRuntime, bytes: &[u8]) -> io::Result<Option<Image>> {
    let mut best = 0;
    let mut last = None;
    for _ in 0..ROUNDS {
        if bytes.len() > BYTE_LIMIT as usize {
            return Ok(None);
        }
        let start = Instant::now(rt)?;
        last = read_image(rt.alloc(), bytes).ok();
        best = rate(64, start.elapsed(rt)?.as_nanos()).max(best);
    }
    println!(rt; "read: {} MB/s", best / 10)?;
    Ok(last)
}

fn write(rt: &HostRuntime, image: &Image) -> io::Result<()> {
    let mut best = 0;
    for _ in 0..ROUNDS {
        let start = Instant::now(rt)?;
        let _bytes = write_image(rt.alloc(), image)?;
        best = rate(64, start.elapsed(rt)?.as_nanos()).max(best);
    }
    println!(rt; "write: {} MB/s", best / 10)
}

fn run(rt: &HostRuntime, image: &Image) -> io::Result<()> {
    let mut best = 0;
    for _ in 0..ROUNDS {
        let start = Instant::now(rt)?;
        let _list = issues(rt.alloc(), &image.code, 10_000_000).ok();
        best = rate(8, start.elapsed(rt)?.as_nanos()).max(best);
    }
    let (whole, tenth) = (best / 10, best % 10);
    println!(rt; "host steps: {whole}.{tenth} million/s")
}

fn main(rt: HostRuntime) -> io::Result<()> {
    let bytes = image_bytes(rt.alloc())?;
    if let Some(image) = read(&rt, &bytes)? {
        write(&rt, &image)?;
        run(&rt, &image)?;
    }
    Ok(())
}
PROGRAM
cd crates/images
rt "${RUN:-run}" | grep '/s'
