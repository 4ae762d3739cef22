#!/bin/sh
# Times `Leaders::of`, in processor time, the look-ups of all numbers and, where there is one function, the probes at all
# leaders: jumps of 2 bytes, each to the next, in one function, and functions of one `ret` each; each at several sizes. Run by
# hand, at the top of the repository:
#
#     bench/probe.sh
#
# It proves, builds and runs a program in a temporary workspace, and needs rt on the path.
crates='rw_base rw_elf rw_make rw_reloc x86_insn x86_bytes x86_decode x86_meaning rw_words rw_domain rw_machine rw_runs rw_funcs rw_refs rw_tables rw_live rw_probe'
. "$(dirname "$0")/workspace.sh"
echo 'probe_bench: rw_base rw_elf rw_make rw_reloc rw_funcs rw_tables rw_live rw_probe' >> "$work/crates.txt"

bench="$work/crates/probe_bench"
mkdir -p "$bench/src"
: > "$bench/stdin"
cat > "$bench/src/main.rt" <<'PROGRAM'
//! Makes files with many leaders in memory, and times the search for them.
#![tactic(auto)]

use rw_base::Refusal;
use rw_elf::Elf;
use rw_funcs::Functions;
use rw_live::Live;
use rw_make::{PartSection, PartSymbol, Parts, make};
use rw_probe::{Leaders, Mode, Probe, probe};
use rw_reloc::Relocs;
use rw_tables::Tables;
use std::alloc::{AllocError, AllocFailed, Global};
use std::io;
use std::time::CpuClock;

#[derive(Debug, Drop)]
enum Fail {
    Memory,
    Print(io::Error),
}

impl From<AllocError> for Fail {
    fn from(_: AllocError) -> Self {
        Fail::Memory
    }
}

impl<T: Drop> From<AllocFailed<T>> for Fail {
    fn from(_: AllocFailed<T>) -> Self {
        Fail::Memory
    }
}

impl From<io::Error> for Fail {
    fn from(error: io::Error) -> Self {
        Fail::Print(error)
    }
}

const TEXT: u64 = 0x1000;

fn section(
    alloc: Global,
    name: &[u8],
    flags: u64,
    addr: u64,
    bytes: Vec<u8>,
) -> Result<PartSection, AllocError> {
    Ok(PartSection {
        name: name.to_vec(alloc)?,
        kind: 1,
        flags,
        addr,
        bytes,
        size: 0,
    })
}

/// A file with this code, of `count` functions of `size` bytes.
fn file(
    alloc: Global,
    code: Vec<u8>,
    count: u64,
    size: u64,
) -> Result<Vec<u8>, AllocError> {
    let mut sections = Vec::new(alloc);
    sections.push(section(alloc, b".text", 6, TEXT, code)?)?;
    let mut symbols = Vec::new(alloc);
    for number in 0..count {
        symbols.push(PartSymbol {
            name: b"f".to_vec(alloc)?,
            bind: 1,
            sort: 2,
            section: 1,
            value: TEXT.wrapping_add(number.wrapping_mul(size)),
            size,
        })?;
    }
    let parts = Parts {
        sections,
        symbols,
        dynamic: Vec::new(alloc),
        relas: Vec::new(alloc),
        entry: TEXT,
    };
    make(alloc, &parts)
}

/// Jumps, each to the next, and a `ret`.
fn jumps(alloc: Global, count: u64) -> Result<Vec<u8>, AllocError> {
    let mut code = Vec::new(alloc);
    for _ in 0..count {
        code.extend_from_slice(&[0xeb, 0x00])?;
    }
    code.push(0xc3)?;
    let size = code.len() as u64;
    file(alloc, code, 1, size)
}

/// Functions of one `ret` each.
fn returns(alloc: Global, count: u64) -> Result<Vec<u8>, AllocError> {
    let mut code = Vec::new(alloc);
    for _ in 0..count {
        code.push(0xc3)?;
    }
    file(alloc, code, count, 1)
}

/// How many leaders have their number.
fn count_numbers(leaders: &Leaders) -> u64 {
    let mut count = 0u64;
    for c in leaders.list() {
        if leaders.number_of(*c).is_some() {
            count = count.wrapping_add(1);
        }
    }
    count
}

/// How many leaders get an `incq`.
fn count_incs(live: &Live, leaders: &Leaders) -> u64 {
    let mut count = 0u64;
    for c in leaders.list() {
        if let Probe::Inc = probe(live, *c) {
            count = count.wrapping_add(1);
        }
    }
    count
}

fn search<R: CpuClock + Print>(
    rt: &R,
    alloc: Global,
    what: &str,
    count: u64,
    bytes: Vec<u8>,
) -> Result<Option<Refusal>, Fail> {
    let elf = match Elf::read(alloc, bytes) {
        Ok(elf) => elf,
        Err(refusal) => return Ok(Some(refusal)),
    };
    let relocs = match Relocs::read(alloc, &elf) {
        Ok(relocs) => relocs,
        Err(refusal) => return Ok(Some(refusal)),
    };
    let functions = match Functions::find(alloc, &elf, &relocs) {
        Ok(functions) => functions,
        Err(refusal) => return Ok(Some(refusal)),
    };
    let tables = match Tables::find(alloc, &elf, &relocs, &functions) {
        Ok(tables) => tables,
        Err(refusal) => return Ok(Some(refusal)),
    };
    let first = rt.thread_cpu_time()?;
    let leaders = Leaders::of(alloc, &elf, &relocs, &functions, &tables, Mode::Blocks)?;
    let second = rt.thread_cpu_time()?;
    let numbers = count_numbers(&leaders);
    let third = rt.thread_cpu_time()?;
    let taken = second.as_millis().saturating_sub(first.as_millis());
    let looked = third.as_millis().saturating_sub(second.as_millis());
    let found = leaders.list().len();
    println!(rt; "{what} {count}: {found} leaders in {taken} ms, {numbers} numbers in {looked} ms")?;
    if functions.list().len() == 1 {
        let live = Live::of(alloc, &functions, 0)?;
        let start = rt.thread_cpu_time()?;
        let incs = count_incs(&live, &leaders);
        let end = rt.thread_cpu_time()?;
        let chosen = end.as_millis().saturating_sub(start.as_millis());
        println!(rt; "{what} {count}: the probes in {chosen} ms, {incs} by incq")?;
    }
    Ok(None)
}

fn time<R: CpuClock + Print>(
    rt: &R,
    alloc: Global,
    what: &str,
    count: u64,
    bytes: Vec<u8>,
) -> Result<(), Fail> {
    if let Some(refusal) = search(rt, alloc, what, count, bytes)? {
        println!(rt; "{what} {count}: {refusal:?}")?;
    }
    Ok(())
}

fn main(rt: HostRuntime) -> Result<(), Fail> {
    let alloc = rt.alloc();
    for count in [500_000, 1_000_000, 2_000_000] {
        time(&rt, alloc, "jumps,", count, jumps(alloc, count)?)?;
    }
    for count in [250_000, 500_000] {
        time(&rt, alloc, "functions,", count, returns(alloc, count)?)?;
    }
    Ok(())
}
PROGRAM
cd "$bench"
rt run
