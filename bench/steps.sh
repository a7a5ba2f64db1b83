#!/usr/bin/env bash
# How long a beat of a channel and a step of the host take, in nanoseconds. Beats: of both channels, of the first transfer and of
# the second, in rows of 40,000, 16, 3 and 33 bytes; the question how many transfers are unfinished is among them. Steps: of
# loops that are mostly one instruction, with nothing unfinished. Each figure is the least of 500 rounds of a thousand beats
# or ten thousand steps, so short that a busy machine lets some of them run undisturbed. The script makes a program of its own
# in a copy of the crates, which the toolchain proves before it runs: that takes minutes where nothing has been proved yet. Its
# loops are those of the tests of dma_engine, with their proofs.
set -eu
unset CDPATH
top=$(cd -- "$(dirname -- "$0")/.." && pwd)
room=$(mktemp -d)
trap 'rm -r -- "$room"' EXIT
mkdir -- "$room/crates"
cp -r -- "$top/HANDLES" "$room"
for crate in ven_base venice_isa spad_store dma_engine host_core; do
    cp -r -- "$top/crates/$crate" "$room/crates"
done
cd -- "$room"
git init -q .
grep -E '^(ven_base|venice_isa|spad_store|dma_engine|host_core):' "$top/crates.txt" > crates.txt
echo 'steps: ven_base venice_isa spad_store dma_engine host_core' >> crates.txt
mkdir -p crates/steps/src crates/steps/proofs
for proof in beat_of beats_of offer; do
    cp -r -- "$top/crates/dma_engine/proofs/tests/$proof" crates/steps/proofs
    sed -i 's/dma_engine\.proofs\.tests/steps.proofs/' "crates/steps/proofs/$proof"/*.antt
done
: > crates/steps/proofs/Lib.antt
cat > crates/steps/src/main.rt << 'PROGRAM'
//! Prints how long a beat of a channel and a step of the host take.
#![tactic(auto)]

ghost use Rattle.std.specs.Prelude.{◌≡◌, IfOk, IsTrue, All, length};
ghost use Rattle.ven_base.specs.Store.{store_of, store_size, IsInRange};
ghost use Rattle.venice_isa.specs.Footprint.{HasFootprint};
ghost use Rattle.dma_engine.specs.Direction.{HasBytes, issue_of};

use dma_engine::{Channel, Directed, Reads, Writes};
use host_core::{Host, Step, Waiting};
use spad_store::{MainMem, Overtaking, Spad, Unit};
use std::io;
use std::time::Instant;
use ven_base::Elem;
use venice_isa::{Code, DmaWork, Instr, VecKind, VecOp, Version};

const ROUNDS: u32 = 500;
const BEATS: u32 = 1000;
const PLACES: u32 = 65_536;

/// Makes a beat of the unit's first or second work.
fn beat_of<U: Overtaking>(unit: &mut U, second: bool, cells: &mut Spad, memory: &mut MainMem)
    requires inside { All (λ job. IsInRange (U.reads job.work) (U.writes job.work)
        (store_size (store_of cells.old memory.old))) (U.jobs unit.old) }
    ensures inside { All (λ job. IsInRange (U.reads job.work) (U.writes job.work)
        (store_size (store_of cells.new memory.new))) (U.jobs unit.new) }
    ensures size { store_size (store_of cells.new memory.new) ≡ store_size (store_of cells.old memory.old) }
{
    let _count = unit.unfinished();
    if second {
        unit.beat_second(cells, memory);
    } else {
        unit.beat(cells, memory);
    }
}

/// Makes a thousand beats.
fn beats_of<U: Overtaking>(unit: &mut U, second: bool, cells: &mut Spad, memory: &mut MainMem)
    requires inside { All (λ job. IsInRange (U.reads job.work) (U.writes job.work)
        (store_size (store_of cells.old memory.old))) (U.jobs unit.old) }
    ensures inside { All (λ job. IsInRange (U.reads job.work) (U.writes job.work)
        (store_size (store_of cells.new memory.new))) (U.jobs unit.new) }
    ensures size { store_size (store_of cells.new memory.new) ≡ store_size (store_of cells.old memory.old) }
{
    for _made in 0..BEATS {
        beat_of(unit, second, cells, memory);
    }
}

/// Whether a transfer has bytes, all of which lie in the stores.
fn fits<D: Directed>(work: DmaWork, cells: &Spad, memory: &MainMem) -> bool
    ensures bytes { IsTrue result → HasBytes work }
    ensures inside { IsTrue result → HasFootprint (store_size (store_of cells.now memory.now)) (issue_of D.DIRECTION work) }
{
    0 < work.rows && 0 < work.bytes && work.is_in_range(cells.len(), memory.len())
}

/// Offers a transfer that fits to a channel, all whose transfers do.
fn offer<D: Directed>(channel: &mut Channel<D>, work: DmaWork, cells: &Spad, memory: &MainMem)
    requires inside { All (λ job. HasFootprint (store_size (store_of cells.now memory.now)) (issue_of D.DIRECTION job.work)) channel.old }
    ensures inside { All (λ job. HasFootprint (store_size (store_of cells.now memory.now)) (issue_of D.DIRECTION job.work)) channel.new }
{
    if !fits::<D>(work, cells, memory) {
        return;
    }
    let _ = channel.offer(work);
}

/// Prints tenths of a nanosecond a beat of a transfer, behind another one where the second is to be measured.
fn figure<D: Directed>(rt: &HostRuntime, name: &str, rows: u32, bytes: u32, second: bool) -> io::Result<()> {
    let alloc = rt.alloc();
    let mut cells = Spad::new(alloc, PLACES)?;
    let mut memory = MainMem::new(alloc, PLACES)?;
    let work = DmaWork { mem: 64, spad: 128, rows, bytes, mem_step: 48, spad_step: 48, tag: 0 };
    let mut least = 1_000_000_000;
    for _round in 0..ROUNDS {
        let mut channel: Channel<D> = Channel::new(alloc)?;
        offer(&mut channel, work, &cells, &memory);
        offer(&mut channel, work, &cells, &memory);
        let start = Instant::now(rt)?;
        beats_of(&mut channel, second, &mut cells, &mut memory);
        let took = start.elapsed(rt)?.as_nanos();
        least = least.min(took.wrapping_mul(10) / u128::from(BEATS));
    }
    let which = if second { "second" } else { "first" };
    println!(rt; "beat: {name}, the {which}, rows of {bytes}: {}.{} ns", least / 10, least % 10)
}

fn figures(rt: &HostRuntime, rows: u32, bytes: u32) -> io::Result<()> {
    figure::<Reads>(rt, "read", rows, bytes, false)?;
    figure::<Reads>(rt, "read", rows, bytes, true)?;
    figure::<Writes>(rt, "write", rows, bytes, false)?;
    figure::<Writes>(rt, "write", rows, bytes, true)
}

/// Makes up to ten thousand steps, and counts them.
fn steps(host: &mut Host, code: &Code) -> u32 {
    let waiting = Waiting { vector: 0, read: 0, write: 0, tagged: 0 };
    for made in 0..10_000 {
        if host.pc() >= code.len() || host.step(code, waiting) == Step::Halted {
            return made;
        }
    }
    10_000
}

/// Prints tenths of a nanosecond a step of a loop with eight times this instruction.
fn host_figure(rt: &HostRuntime, instr: Instr) -> io::Result<()> {
    let alloc = rt.alloc();
    let mut instrs = Vec::new(alloc);
    instrs.push(Instr::Li { d: 1, n: 5_000 })?;
    for _ in 0..8 {
        instrs.push(instr)?;
    }
    instrs.push(Instr::Addi { d: 1, a: 1, n: u32::MAX })?;
    instrs.push(Instr::Bnz { a: 1, to: 1 })?;
    instrs.push(Instr::Halt)?;
    let Some(code) = Code::new(Version::Two, instrs) else {
        return Ok(());
    };
    let mut least = 1_000_000_000;
    for _round in 0..ROUNDS {
        let mut host = Host::new();
        let start = Instant::now(rt)?;
        let made = steps(&mut host, &code);
        let took = start.elapsed(rt)?.as_nanos();
        least = least.min(took.wrapping_mul(10) / u128::from(made.max(1)));
    }
    println!(rt; "step: {instr:?}: {}.{} ns", least / 10, least % 10)
}

fn main(rt: HostRuntime) -> io::Result<()> {
    figures(&rt, 1, 40_000)?;
    figures(&rt, 1_300, 16)?;
    figures(&rt, 1_300, 3)?;
    figures(&rt, 1_300, 33)?;
    for instr in [
        Instr::Addi { d: 2, a: 2, n: 1 },
        Instr::Mul { d: 2, a: 2, b: 3 },
        Instr::Div { d: 2, a: 2, b: 3 },
        Instr::Set { field: 3, a: 1 },
        Instr::Dma { write: true },
        Instr::Rwait { a: 0 },
        Instr::Twait { a: 0 },
    ] {
        host_figure(&rt, instr)?;
    }
    let Some(kind) = VecKind::new(VecOp::Add, Elem::U8, Elem::U8, false, true, false) else {
        return Ok(());
    };
    host_figure(&rt, Instr::Vec(kind))
}
PROGRAM
cd crates/steps
rt run | grep -E '^(beat|step):'
