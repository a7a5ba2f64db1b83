#!/usr/bin/env bash
# How long the evaluator takes for a node, in microseconds: for kinds of node on arrays of 1,048,576 elements, once in 1,024 rows
# of type `u8` and once in rows of one element of type `i32`. A program of the greatest work has 16 such arrays, its inputs and
# names among them. Each figure is the least of 30 rounds; that the memory of a result is taken and given back is among it. The
# script makes a program of its own in a copy of the crates, in which it makes the evaluator's loops public, and which the
# toolchain proves before it runs: that takes minutes where nothing has been proved yet.
set -eu
unset CDPATH
top=$(cd -- "$(dirname -- "$0")/.." && pwd)
room=$(mktemp -d)
trap 'rm -r -- "$room"' EXIT
mkdir -- "$room/crates"
cp -r -- "$top/HANDLES" "$room"
for crate in ven_base ven_io array_syntax shape_check array_meaning; do
    cp -r -- "$top/crates/$crate" "$room/crates"
done
cd -- "$room"
git init -q .
grep -E '^(ven_base|ven_io|array_syntax|shape_check|array_meaning):' "$top/crates.txt" > crates.txt
echo 'meanings: ven_base array_meaning' >> crates.txt
cat >> crates/array_meaning/src/lib.rt << 'PART'

mod alone;

pub use alone::{run_all, run_cast, run_map, run_one, run_rows, run_select, run_two};
PART
cat > crates/array_meaning/src/alone.rt << 'PART'
//! Kinds of node, each alone.
use crate::kernel;
use crate::maps::mapped;
use crate::operand::View;
use crate::reduce::{reduced, reduced_rows};
use std::alloc::{AllocError, Global};
use ven_base::{Array, Elem, Fold, Mapping, Op1, Op2};

pub fn run_one(alloc: Global, op: Op1, a: &Array) -> Result<Vec<i64>, AllocError> {
    let count = a.shape.elements() as usize;
    let values = a.values.as_slice();
    kernel::one(alloc, op, a.elem, count, View { values, step: 1 })
}

pub fn run_two(alloc: Global, op: Op2, a: &Array) -> Result<Vec<i64>, AllocError> {
    let count = a.shape.elements() as usize;
    let values = a.values.as_slice();
    kernel::two(alloc, op, a.elem, count, View { values, step: 1 }, View { values, step: 1 })
}

pub fn run_cast(alloc: Global, elem: Elem, a: &Array) -> Result<Vec<i64>, AllocError> {
    let count = a.shape.elements() as usize;
    let values = a.values.as_slice();
    kernel::cast(alloc, elem, count, View { values, step: 1 })
}

pub fn run_select(alloc: Global, a: &Array) -> Result<Vec<i64>, AllocError> {
    let count = a.shape.elements() as usize;
    let values = a.values.as_slice();
    kernel::select(alloc, count, View { values, step: 1 }, View { values, step: 1 }, View { values, step: 1 })
}

pub fn run_map(alloc: Global, mapping: Mapping, a: &Array) -> Result<Vec<i64>, AllocError> {
    if !mapping.fits(a.shape) {
        return Ok(Vec::new(alloc));
    }
    mapped(alloc, mapping, a.shape, a.values.as_slice())
}

pub fn run_rows(alloc: Global, fold: Fold, a: &Array) -> Result<Vec<i64>, AllocError> {
    reduced_rows(alloc, fold, a.elem, a.shape, a.values.as_slice())
}

pub fn run_all(fold: Fold, a: &Array) -> i64 {
    let _count = a.shape.elements();
    reduced(fold, a.elem, a.values.as_slice())
}
PART
mkdir -p crates/meanings/src
cat > crates/meanings/src/main.rt << 'PROGRAM'
//! Prints how long nodes take.
#![tactic(auto)]

use array_meaning::{run_all, run_cast, run_map, run_one, run_rows, run_select, run_two};
use std::alloc::Global;
use std::io;
use std::time::Instant;
use ven_base::{Array, Elem, Fold, Mapping, Op1, Op2, Shape};

const ROUNDS: u32 = 30;

#[derive(Clone, Copy, Debug)]
enum Kind {
    One(Op1),
    Two(Op2),
    Cast(Elem),
    Select,
    Map(Mapping),
    Rows(Fold),
    All(Fold),
}

const KINDS: [Kind; 26] = [
    Kind::One(Op1::Neg),
    Kind::One(Op1::Abs),
    Kind::Two(Op2::Add),
    Kind::Two(Op2::Mul),
    Kind::Two(Op2::Xor),
    Kind::Two(Op2::Shl),
    Kind::Two(Op2::Shr),
    Kind::Two(Op2::Min),
    Kind::Two(Op2::Le),
    Kind::Two(Op2::SatAdd),
    Kind::Two(Op2::SatSub),
    Kind::Cast(Elem::U8),
    Kind::Cast(Elem::I16),
    Kind::Select,
    Kind::Map(Mapping::Shift { dr: 1, dc: 0, fill: 7 }),
    Kind::Map(Mapping::Rotate { dr: 1, dc: 0 }),
    Kind::Map(Mapping::Section { r0: 0, nr: 1024, sr: 1, c0: 0, nc: 1024, sc: 1 }),
    Kind::Map(Mapping::Section { r0: 0, nr: 1_048_576, sr: 1, c0: 0, nc: 1, sc: 1 }),
    Kind::Map(Mapping::Stretch { kr: 1, kc: 1 }),
    Kind::Map(Mapping::Transpose),
    Kind::Rows(Fold::Sum),
    Kind::Rows(Fold::Min),
    Kind::Rows(Fold::Max),
    Kind::All(Fold::Sum),
    Kind::All(Fold::Min),
    Kind::All(Fold::Max),
];

/// Works out a node, and gives the last of its values, so that none is left out.
fn run(alloc: Global, kind: Kind, a: &Array) -> Option<i64> {
    let values = match kind {
        Kind::One(op) => run_one(alloc, op, a),
        Kind::Two(op) => run_two(alloc, op, a),
        Kind::Cast(elem) => run_cast(alloc, elem, a),
        Kind::Select => run_select(alloc, a),
        Kind::Map(mapping) => run_map(alloc, mapping, a),
        Kind::Rows(fold) => run_rows(alloc, fold, a),
        Kind::All(fold) => {
            return Some(run_all(fold, a));
        }
    };
    values.ok()?.last().copied()
}

/// Numbers from 0 to 127.
fn numbers(alloc: Global) -> Option<Vec<i64>> {
    let mut values = Vec::new(alloc);
    let mut state = 1u32;
    for _k in 0..1_048_576u32 {
        state = state.wrapping_mul(1_664_525).wrapping_add(1_013_904_223);
        values.push(i64::from(state / 0x200_0000)).ok()?;
    }
    Some(values)
}

fn array(alloc: Global, elem: Elem, rows: u32, cols: u32) -> Option<Array> {
    Array::new(elem, Shape::new(rows, cols)?, numbers(alloc)?)
}

/// The figures of one array. A map that can't be taken of its shape has none.
fn figures(rt: &HostRuntime, a: &Array) -> io::Result<()> {
    for kind in &KINDS {
        let mut least = None;
        for _round in 0..ROUNDS {
            let start = Instant::now(rt)?;
            if run(rt.alloc(), *kind, a).is_some() {
                let took = start.elapsed(rt)?.as_micros();
                least = Some(took.min(least.unwrap_or(took)));
            }
        }
        if let Some(least) = least {
            println!(rt; "{:?}: {least} us", *kind)?;
        }
    }
    Ok(())
}

fn main(rt: HostRuntime) -> io::Result<()> {
    if let Some(a) = array(rt.alloc(), Elem::U8, 1024, 1024) {
        println!(rt; "u8, 1024 rows of 1024:")?;
        figures(&rt, &a)?;
    }
    if let Some(a) = array(rt.alloc(), Elem::I32, 1_048_576, 1) {
        println!(rt; "i32, 1048576 rows of 1:")?;
        figures(&rt, &a)?;
    }
    Ok(())
}
PROGRAM
cd crates/meanings
rt run | grep ' us$\|:$'
