#!/bin/sh
# Times the search for jump tables, in processor time: many dispatches in one function, with a table each or one for all, with
# a section for each table, and one dispatch behind many instructions; each at two sizes.
# It proves, builds and runs a program in a temporary workspace, and needs rt on the path.
crates='rw_base rw_elf rw_make rw_reloc x86_insn x86_bytes x86_decode x86_meaning rw_funcs rw_tables'
. "$(dirname "$0")/workspace.sh"
echo 'tables_bench: rw_base rw_elf rw_make rw_reloc rw_funcs rw_tables' >> "$work/crates.txt"

bench="$work/crates/tables_bench"
mkdir -p "$bench/src"
: > "$bench/stdin"
cat > "$bench/src/main.rt" <<'END'
//! Makes files with dispatches in memory, and times the search for their jump tables.
#![tactic(auto)]

use rw_base::Refusal;
use rw_elf::Elf;
use rw_funcs::Functions;
use rw_make::{PartSection, PartSymbol, Parts, make};
use rw_reloc::Relocs;
use rw_tables::Tables;
use std::alloc::{AllocError, AllocFailed, Global};
use std::io;
use std::time::CpuClock;

#[derive(Debug, Drop)]
enum Fail {
    Memory,
    Print(io::Error),
}

impl From<AllocError> for Fail {
    fn from(_: AllocError) -> Self {
        Fail::Memory
    }
}

impl<T: Drop> From<AllocFailed<T>> for Fail {
    fn from(_: AllocFailed<T>) -> Self {
        Fail::Memory
    }
}

impl From<io::Error> for Fail {
    fn from(error: io::Error) -> Self {
        Fail::Print(error)
    }
}

const TEXT: u64 = 0x1000;

const DATA: u64 = 0x400_0000;

/// A distance in 32 bits.
fn distance(to: u64, from: u64) -> [u8; 4] {
    let [a, b, c, d, ..] = to.wrapping_sub(from).to_le_bytes();
    [a, b, c, d]
}

/// `cmpl $bound, %edi`, `ja` to the end of the dispatch, `leaq base(%rip), %rdx`: 12 bytes.
fn put_head(code: &mut Vec<u8>, bound: u8, base: u64) -> Result<(), AllocError> {
    let end = TEXT.wrapping_add(code.len() as u64).wrapping_add(12);
    code.extend_from_slice(&[0x83, 0xff, bound, 0x77, 17, 0x48, 0x8d, 0x15])?;
    code.extend_from_slice(&distance(base, end))?;
    Ok(())
}

/// `movslq (%rdx,%rdi,4), %rax`, `addq %rdx, %rax`, `notrack jmp *%rax`: 10 bytes.
fn put_tail(code: &mut Vec<u8>) -> Result<(), AllocError> {
    code.extend_from_slice(&[0x48, 0x63, 0x04, 0xba, 0x48, 0x01, 0xd0, 0x3e, 0xff, 0xe0])?;
    Ok(())
}

/// A table of words that lead to the first instruction.
fn put_table(words: &mut Vec<u8>, base: u64, count: u64) -> Result<(), AllocError> {
    for _ in 0..count {
        words.extend_from_slice(&distance(TEXT, base))?;
    }
    Ok(())
}

fn section(
    alloc: Global,
    name: &[u8],
    flags: u64,
    addr: u64,
    bytes: Vec<u8>,
) -> Result<PartSection, AllocError> {
    Ok(PartSection {
        name: name.to_vec(alloc)?,
        kind: 1,
        flags,
        addr,
        bytes,
        size: 0,
    })
}

/// A file whose one function is this code, with these sections behind it.
fn file(
    alloc: Global,
    code: Vec<u8>,
    data: Vec<PartSection>,
) -> Result<Vec<u8>, AllocError> {
    let size = code.len() as u64;
    let mut sections = Vec::new(alloc);
    sections.push(section(alloc, b".text", 6, TEXT, code)?)?;
    for part in data {
        sections.push(part)?;
    }
    let start = PartSymbol {
        name: b"_start".to_vec(alloc)?,
        bind: 1,
        sort: 2,
        section: 1,
        value: TEXT,
        size,
    };
    let mut symbols = Vec::new(alloc);
    symbols.push(start)?;
    let parts = Parts {
        sections,
        symbols,
        dynamic: Vec::new(alloc),
        relas: Vec::new(alloc),
        entry: TEXT,
    };
    make(alloc, &parts)
}

/// Dispatches with a table of two words each, `step` addresses from one to the next.
fn own_tables(alloc: Global, count: u64) -> Result<Vec<u8>, AllocError> {
    let mut code = Vec::new(alloc);
    let mut words = Vec::new(alloc);
    for k in 0..count {
        let base = DATA.wrapping_add(k.wrapping_mul(8));
        put_head(&mut code, 1, base)?;
        put_tail(&mut code)?;
        put_table(&mut words, base, 2)?;
    }
    let mut data = Vec::new(alloc);
    data.push(section(alloc, b".rodata", 2, DATA, words)?)?;
    file(alloc, code, data)
}

/// Dispatches through one table of 100 words.
fn one_table(alloc: Global, count: u64) -> Result<Vec<u8>, AllocError> {
    let mut code = Vec::new(alloc);
    let mut words = Vec::new(alloc);
    put_table(&mut words, DATA, 100)?;
    for _ in 0..count {
        put_head(&mut code, 99, DATA)?;
        put_tail(&mut code)?;
    }
    let mut data = Vec::new(alloc);
    data.push(section(alloc, b".rodata", 2, DATA, words)?)?;
    file(alloc, code, data)
}

/// Dispatches with a table and a section each.
fn own_sections(alloc: Global, count: u64) -> Result<Vec<u8>, AllocError> {
    let mut code = Vec::new(alloc);
    let mut data = Vec::new(alloc);
    for k in 0..count {
        let base = DATA.wrapping_add(k.wrapping_mul(16));
        put_head(&mut code, 1, base)?;
        put_tail(&mut code)?;
        let mut words = Vec::new(alloc);
        put_table(&mut words, base, 2)?;
        data.push(section(alloc, b".rodata", 2, base, words)?)?;
    }
    file(alloc, code, data)
}

/// One dispatch with many instructions before its sum.
fn far(alloc: Global, count: u64) -> Result<Vec<u8>, AllocError> {
    let mut code = Vec::new(alloc);
    let mut words = Vec::new(alloc);
    put_head(&mut code, 1, DATA)?;
    for _ in 0..count {
        code.push(0x90)?;
    }
    put_tail(&mut code)?;
    put_table(&mut words, DATA, 2)?;
    let mut data = Vec::new(alloc);
    data.push(section(alloc, b".rodata", 2, DATA, words)?)?;
    file(alloc, code, data)
}

fn search<R: CpuClock + Print>(
    rt: &R,
    alloc: Global,
    what: &str,
    count: u64,
    bytes: Vec<u8>,
) -> Result<Option<Refusal>, Fail> {
    let size = bytes.len();
    let elf = match Elf::read(alloc, bytes) {
        Ok(elf) => elf,
        Err(refusal) => return Ok(Some(refusal)),
    };
    let relocs = match Relocs::read(alloc, &elf) {
        Ok(relocs) => relocs,
        Err(refusal) => return Ok(Some(refusal)),
    };
    let first = rt.thread_cpu_time()?;
    let functions = match Functions::find(alloc, &elf, &relocs) {
        Ok(functions) => functions,
        Err(refusal) => return Ok(Some(refusal)),
    };
    let start = rt.thread_cpu_time()?;
    let tables = match Tables::find(alloc, &elf, &relocs, &functions) {
        Ok(tables) => tables,
        Err(refusal) => return Ok(Some(refusal)),
    };
    let end = rt.thread_cpu_time()?;
    let before = start.as_millis().saturating_sub(first.as_millis());
    let taken = end.as_millis().saturating_sub(start.as_millis());
    let found = tables.list().len();
    println!(rt; "{what} {count}: {size} bytes, functions {before} ms, tables {taken} ms, {found} tables")?;
    Ok(None)
}

fn time<R: CpuClock + Print>(
    rt: &R,
    alloc: Global,
    what: &str,
    count: u64,
    bytes: Vec<u8>,
) -> Result<(), Fail> {
    if let Some(refusal) = search(rt, alloc, what, count, bytes)? {
        println!(rt; "{what} {count}: {refusal:?}")?;
    }
    Ok(())
}

fn main(rt: HostRuntime) -> Result<(), Fail> {
    let alloc = rt.alloc();
    for count in [100_000, 200_000] {
        time(&rt, alloc, "a table each,", count, own_tables(alloc, count)?)?;
    }
    for count in [100_000, 200_000] {
        time(&rt, alloc, "one table,", count, one_table(alloc, count)?)?;
    }
    for count in [15_000, 30_000] {
        time(&rt, alloc, "a section each,", count, own_sections(alloc, count)?)?;
    }
    for count in [4_000_000, 8_000_000] {
        time(&rt, alloc, "instructions before one,", count, far(alloc, count)?)?;
    }
    Ok(())
}
END
cd "$bench"
rt run
if command -v python3 >/dev/null; then
    python3 -c 'import resource, subprocess
subprocess.run(["out/tables_bench"], stdout=subprocess.DEVNULL, check=True)
peak = resource.getrusage(resource.RUSAGE_CHILDREN).ru_maxrss
print("peak of memory over all files, with their making:", peak // 1024, "MiB")'
fi
