#!/usr/bin/env bash
# How fast array files of 64 MiB are read and written, in megabytes a second: one of arrays of 1,024 by 1,024 values of one to three
# digits, one of values of one digit, and one of small arrays. Each figure is the best of 3 rounds. The script makes a program of its own
# in a copy of the crates, which the toolchain proves before it runs: that takes minutes where nothing has been proved yet.
set -eu
unset CDPATH
top=$(cd -- "$(dirname -- "$0")/.." && pwd)
room=$(mktemp -d)
trap 'rm -r -- "$room"' EXIT
mkdir -- "$room/crates"
cp -r -- "$top/HANDLES" "$room"
for crate in ven_base ven_io array_file; do
    cp -r -- "$top/crates/$crate" "$room/crates"
done
cd -- "$room"
git init -q .
grep -E '^(ven_base|ven_io|array_file):' "$top/crates.txt" > crates.txt
echo 'array_files: array_file itoa ven_base' >> crates.txt
mkdir -p crates/array_files/src
cat > crates/array_files/src/main.rt << 'PROGRAM'
//! Prints how fast array files are read and written.
#![tactic(auto)]

use array_file::{read_arrays, write_arrays};
use itoa::Buffer;
use std::alloc::{AllocError, Global};
use std::io;
use std::time::Instant;
use ven_base::Arrays;

const ROUNDS: u32 = 3;
const LIMIT: usize = 67_108_864;

/// An array's name, `a` and its number, and its heading.
fn push_heading(text: &mut Vec<u8>, number: u32, heading: &[u8]) -> Result<(), AllocError> {
    text.push(b'a')?;
    text.extend_from_slice(Buffer::new().format(number).as_bytes())?;
    text.extend_from_slice(heading)
}

/// An array of so many rows of so many columns, with values below a modulus.
fn push_array(text: &mut Vec<u8>, number: u32, heading: &[u8], rows: u32, cols: u32, modulus: u32) -> Result<(), AllocError> {
    push_heading(text, number, heading)?;
    let mut value = number;
    for _row in 0..rows {
        for _col in 0..cols {
            text.extend_from_slice(Buffer::new().format(value.checked_rem(modulus).unwrap_or(0)).as_bytes())?;
            text.push(b' ')?;
            value = value.wrapping_add(37);
        }
        text.push(b'\n')?;
    }
    Ok(())
}

/// A file of arrays of one kind, as long as may be.
fn file_of(alloc: Global, heading: &[u8], rows: u32, cols: u32, modulus: u32) -> Result<Vec<u8>, AllocError> {
    let mut text = Vec::new(alloc);
    for number in 0..100_000_000 {
        let before = text.len();
        push_array(&mut text, number, heading, rows, cols, modulus)?;
        if text.len() > LIMIT {
            text.truncate(before);
            break;
        }
    }
    Ok(text)
}

/// Tenths of a megabyte a second, where so many bytes took so many nanoseconds.
fn rate(bytes: usize, took: u128) -> u128 {
    bytes as u128 * 10_000 / took.max(1)
}

fn read(rt: &HostRuntime, what: &str, text: &[u8]) -> io::Result<Option<Arrays>> {
    let mut best = 0;
    let mut last = None;
    for _ in 0..ROUNDS {
        if text.len() > LIMIT {
            return Ok(None);
        }
        let start = Instant::now(rt)?;
        last = read_arrays(rt.alloc(), text).ok();
        best = rate(text.len(), start.elapsed(rt)?.as_nanos()).max(best);
    }
    let count = last.as_ref().map_or(0, |arrays| arrays.len());
    println!(rt; "{what}: {} bytes, {count} arrays, read {} MB/s", text.len(), best / 10)?;
    Ok(last)
}

fn write(rt: &HostRuntime, what: &str, arrays: &Arrays) -> io::Result<()> {
    let mut best = 0;
    for _ in 0..ROUNDS {
        let start = Instant::now(rt)?;
        let text = write_arrays(rt.alloc(), arrays)?;
        best = rate(text.len(), start.elapsed(rt)?.as_nanos()).max(best);
    }
    println!(rt; "{what}: written {} MB/s", best / 10)
}

fn measure(rt: &HostRuntime, what: &str, text: &[u8]) -> io::Result<()> {
    if let Some(arrays) = read(rt, what, text)? {
        write(rt, what, &arrays)?;
    }
    Ok(())
}

fn main(rt: HostRuntime) -> io::Result<()> {
    measure(&rt, "large arrays", &file_of(rt.alloc(), b" u8[1024,1024]\n", 1024, 1024, 256)?)?;
    measure(&rt, "one digit", &file_of(rt.alloc(), b" u8[1024,1024]\n", 1024, 1024, 10)?)?;
    measure(&rt, "small arrays", &file_of(rt.alloc(), b" i16[1,2]\n", 1, 2, 256)?)
}
PROGRAM
cd crates/array_files
rt "${RUN:-run}" | grep '/s'
