#!/usr/bin/env bash
# How long a beat of the lanes takes, in nanoseconds: for 4 lanes and for 1, each operation and type, on rows of 1,024
# elements; besides, an addition of a scalar, sums, casts from `u8` and `i32`, and rows of 3 elements, which are no whole
# group. Each figure is the least of 500 rounds of a thousand beats or more, so short that a busy machine lets some of them
# run undisturbed; the making of the lanes and the loop over the beats are among it. The script makes a program of its
# own in a copy of the crates, which the toolchain proves
# before it runs: that takes minutes where nothing has been proved yet.
set -eu
unset CDPATH
top=$(cd -- "$(dirname -- "$0")/.." && pwd)
room=$(mktemp -d)
trap 'rm -r -- "$room"' EXIT
mkdir -- "$room/crates"
cp -r -- "$top/HANDLES" "$top/crates.txt" "$room"
for crate in ven_base venice_isa spad_store lane_machine; do
    cp -r -- "$top/crates/$crate" "$room/crates"
done
cd -- "$room"
git init -q .
grep -E '^(ven_base|venice_isa|spad_store|lane_machine):' "$top/crates.txt" > crates.txt
echo 'beats: ven_base venice_isa spad_store lane_machine' >> crates.txt
mkdir -p crates/beats/src
cat > crates/beats/src/main.rt << 'PROGRAM'
//! Prints how long a beat of the lanes takes.
#![tactic(auto)]

ghost use Rattle.std.specs.Prelude.{◌≡◌, ◌<◌, ◌≤◌, IsTrue, length};
ghost use Rattle.venice_isa.specs.Whole.{HasCounts};
ghost use Rattle.ven_base.specs.Store.{cells_alone};
ghost use Rattle.venice_isa.specs.Footprint.{HasFootprint};
ghost use Rattle.venice_isa.specs.declared.issue.Issue.TheVariants.{Vector};

use lane_machine::Lanes;
use spad_store::{MainMem, Spad, Unit};
use std::alloc::{AllocError, Global};
use std::io;
use std::time::Instant;
use ven_base::Elem;
use venice_isa::{VecKind, VecOp, VecWork};

const ROUNDS: u32 = 500;
const TURNS: u32 = 4;

const ELEMS: [Elem; 6] = [Elem::U8, Elem::I8, Elem::U16, Elem::I16, Elem::U32, Elem::I32];

const OPS: [VecOp; 19] = [
    VecOp::Mov,
    VecOp::Add,
    VecOp::Sub,
    VecOp::Mul,
    VecOp::And,
    VecOp::Or,
    VecOp::Xor,
    VecOp::Shl,
    VecOp::Shr,
    VecOp::Min,
    VecOp::Max,
    VecOp::Abs,
    VecOp::Eq,
    VecOp::Ne,
    VecOp::Lt,
    VecOp::Le,
    VecOp::Cmov,
    VecOp::Sadd,
    VecOp::Ssub,
];

/// Whether every cell that the instruction reads or writes lies below the end.
fn lies_below(work: &VecWork, end: u32) -> bool
    ensures { IsTrue result → HasFootprint (cells_alone end) (Vector work.now) }
{
    work.is_in_range(end)
}

/// Does a work by beats, and gives their number.
fn run(alloc: Global, lanes: u32, work: VecWork, cells: &mut Spad) -> Result<u64, AllocError>
    requires some_lanes { 0 < lanes }
    requires few_lanes { lanes ≤ 4 }
    requires counts { HasCounts work }
    requires inside { HasFootprint (cells_alone (length cells.old)) (Vector work) }
    ensures { length cells.new ≡ length cells.old }
{
    let mut memory = MainMem::new(alloc, 0)?;
    let mut unit = Lanes::new(alloc, lanes)?;
    let _ = unit.offer(work);
    Ok(unit.finish(cells, &mut memory))
}

/// Tenths of a nanosecond a beat.
fn time(rt: &HostRuntime, lanes: u32, work: VecWork) -> io::Result<u128>
    requires some_lanes { 0 < lanes }
    requires few_lanes { lanes ≤ 4 }
    requires counts { HasCounts work }
{
    let alloc = rt.alloc();
    let mut spad = Spad::new(alloc, 65_536)?;
    let mut state = 1u32;
    for at in 0..65_536 {
        state = state.wrapping_mul(1_664_525).wrapping_add(1_013_904_223);
        if at < spad.len() {
            spad.put(at, state.to_le_bytes()[3], state % 0x2_0000 < 0x1_0000);
        }
    }
    let mut least = 1_000_000_000;
    for _round in 0..ROUNDS {
        let mut beats = 0u64;
        let start = Instant::now(rt)?;
        for _turn in 0..TURNS {
            if lies_below(&work, spad.len()) {
                beats = beats.wrapping_add(run(alloc, lanes, work, &mut spad)?);
            }
        }
        let took = start.elapsed(rt)?.as_nanos();
        least = least.min(took.wrapping_mul(10) / u128::from(beats.max(1)));
    }
    Ok(least)
}

/// Prints the figure of one kind of instruction, where the operation allows it.
fn figure(rt: &HostRuntime, lanes: u32, vl: u32, rows: u32, kind: Option<VecKind>) -> io::Result<()>
    requires some_lanes { 0 < lanes }
    requires few_lanes { lanes ≤ 4 }
    requires vl { 0 < vl }
    requires rows { 0 < rows }
{
    let Some(kind) = kind else {
        return Ok(());
    };
    let work = VecWork {
        kind,
        vl,
        rows,
        dst: 32_768,
        a: 0,
        b: if kind.b_scalar { 5 } else { 16_384 },
        dst_step: 16,
        a_step: 16,
        b_step: 16,
    };
    let took = time(rt, lanes, work)?;
    let (whole, tenth) = (took / 10, took % 10);
    print!(rt; " {:?} {whole}.{tenth}", kind.elem)
}

/// Prints the figures of one line for all types.
fn line(rt: &HostRuntime, lanes: u32, vl: u32, rows: u32, op: VecOp, from: Option<Elem>, scalar: bool, acc: bool) -> io::Result<()>
    requires some_lanes { 0 < lanes }
    requires few_lanes { lanes ≤ 4 }
    requires vl { 0 < vl }
    requires rows { 0 < rows }
{
    print!(rt; "{lanes} lanes, rows of {vl}, {op:?}")?;
    if let Some(from) = from {
        print!(rt; " from {from:?}")?;
    }
    if scalar {
        print!(rt; " of a scalar")?;
    }
    if acc {
        print!(rt; " summed")?;
    }
    print!(rt; ":")?;
    for elem in ELEMS {
        let kind = VecKind::new(op, elem, from.unwrap_or(elem), false, scalar, acc);
        figure(rt, lanes, vl, rows, kind)?;
    }
    println!(rt; "")
}

fn lines(rt: &HostRuntime, lanes: u32) -> io::Result<()>
    requires some_lanes { 0 < lanes }
    requires few_lanes { lanes ≤ 4 }
{
    for op in OPS {
        line(rt, lanes, 1024, 4, op, None, false, false)?;
    }
    line(rt, lanes, 1024, 4, VecOp::Add, None, true, false)?;
    line(rt, lanes, 1024, 4, VecOp::Mov, None, false, true)?;
    line(rt, lanes, 1024, 4, VecOp::Add, None, false, true)?;
    line(rt, lanes, 1024, 4, VecOp::Cast, Some(Elem::U8), false, false)?;
    line(rt, lanes, 1024, 4, VecOp::Cast, Some(Elem::I32), false, false)?;
    line(rt, lanes, 3, 500, VecOp::Add, None, false, false)?;
    line(rt, lanes, 3, 500, VecOp::Mov, None, false, true)
}

fn main(rt: HostRuntime) -> io::Result<()> {
    lines(&rt, 4)?;
    lines(&rt, 1)
}
PROGRAM
cd crates/beats
rt run | grep '^[14] lanes'
