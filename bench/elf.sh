#!/bin/sh
# Times Elf::read on large and hostile files: processor time, and the peak of memory.
# Run it at the top of the repository. It works in a copy of its own, and changes nothing here.
set -eu
top=$(pwd)
work=$(mktemp -d)
trap 'rm -rf "$work"' EXIT
mkdir -p "$work/crates/elf_bench/src"
cp -r "$top/crates/rw_base" "$top/crates/rw_elf" "$work/crates/"
printf 'rw_base:\nrw_elf: rw_base byteorder\nelf_bench: rw_base rw_elf\n' > "$work/crates.txt"
cat > "$work/crates/elf_bench/src/main.rt" <<'PROGRAM'
//! Makes large and hostile files in memory, and times the reading of each.
#![tactic(auto)]

use rw_base::Refusal;
use rw_elf::Elf;
use std::alloc::{AllocError, AllocFailed, Global};
use std::io;
use std::time::CpuClock;

#[derive(Debug, Drop)]
enum Fail {
    Memory,
    Print(io::Error),
}

impl From<AllocError> for Fail {
    fn from(_: AllocError) -> Self {
        Fail::Memory
    }
}

impl<T: Drop> From<AllocFailed<T>> for Fail {
    fn from(_: AllocFailed<T>) -> Self {
        Fail::Memory
    }
}

impl From<io::Error> for Fail {
    fn from(error: io::Error) -> Self {
        Fail::Print(error)
    }
}

/// The file header, with the section headers at a place.
fn put_file_header(out: &mut Vec<u8>, table: u64, count: u16) -> Result<(), AllocError> {
    out.extend_from_slice(&[0x7f, 0x45, 0x4c, 0x46, 2, 1, 1, 0, 0, 0, 0, 0, 0, 0, 0, 0])?;
    out.extend_from_slice(&[3, 0, 62, 0, 1, 0, 0, 0])?;
    out.extend_from_slice(&0u64.to_le_bytes())?;
    out.extend_from_slice(&0u64.to_le_bytes())?;
    out.extend_from_slice(&table.to_le_bytes())?;
    out.extend_from_slice(&[0, 0, 0, 0, 64, 0, 0, 0, 0, 0, 64, 0])?;
    out.extend_from_slice(&count.to_le_bytes())?;
    out.extend_from_slice(&[1, 0])?;
    Ok(())
}

#[derive(Drop)]
struct Header {
    name: u32,
    kind: u32,
    flags: u64,
    addr: u64,
    offset: u64,
    size: u64,
    link: u32,
    entry_size: u64,
}

fn put_header(out: &mut Vec<u8>, header: &Header) -> Result<(), AllocError> {
    out.extend_from_slice(&header.name.to_le_bytes())?;
    out.extend_from_slice(&header.kind.to_le_bytes())?;
    out.extend_from_slice(&header.flags.to_le_bytes())?;
    out.extend_from_slice(&header.addr.to_le_bytes())?;
    out.extend_from_slice(&header.offset.to_le_bytes())?;
    out.extend_from_slice(&header.size.to_le_bytes())?;
    out.extend_from_slice(&header.link.to_le_bytes())?;
    out.extend_from_slice(&[0, 0, 0, 0])?;
    out.extend_from_slice(&0u64.to_le_bytes())?;
    out.extend_from_slice(&header.entry_size.to_le_bytes())?;
    Ok(())
}

fn put_letters(out: &mut Vec<u8>, byte: u8, count: u32) -> Result<(), AllocError> {
    for _ in 0..count {
        out.push(byte)?;
    }
    Ok(())
}

fn null_header() -> Header {
    Header { name: 0, kind: 0, flags: 0, addr: 0, offset: 0, size: 0, link: 0, entry_size: 0 }
}

fn string_table(offset: u64, size: u64) -> Header {
    Header { name: 0, kind: 3, flags: 0, addr: 0, offset, size, link: 0, entry_size: 0 }
}

/// Allocated sections whose names end together, each `step` addresses behind the one before it.
fn with_sections(
    alloc: Global,
    count: u16,
    step: u16,
    letters: u32,
) -> Result<Vec<u8>, AllocError> {
    let mut out = Vec::new(alloc);
    let size = u64::from(letters) + 1;
    put_file_header(&mut out, 64 + size, count)?;
    put_letters(&mut out, b'a', letters)?;
    out.extend_from_slice(&[0])?;
    put_header(&mut out, &null_header())?;
    put_header(&mut out, &string_table(64, size))?;
    for index in 2..count {
        let addr = 4096 + u64::from(step) * u64::from(index);
        let name = u32::from(index);
        put_header(&mut out, &Header { name, kind: 1, flags: 2, addr, offset: 0, size: 16, link: 0, entry_size: 0 })?;
    }
    Ok(out)
}

/// Functions whose names end together, each of up to 4,096 bytes.
fn with_symbols(alloc: Global, count: u32, byte: u8) -> Result<Vec<u8>, AllocError> {
    let mut out = Vec::new(alloc);
    let size = 24 * u64::from(count);
    put_file_header(&mut out, 64 + 4097 + size, 3)?;
    put_letters(&mut out, byte, 4096)?;
    out.extend_from_slice(&[0])?;
    for index in 0..count {
        let name = index % 4096;
        out.extend_from_slice(&name.to_le_bytes())?;
        out.extend_from_slice(&[0x12, 0, 2, 0])?;
        out.extend_from_slice(&0u64.to_le_bytes())?;
        out.extend_from_slice(&0u64.to_le_bytes())?;
    }
    put_header(&mut out, &null_header())?;
    put_header(&mut out, &string_table(64, 4097))?;
    put_header(&mut out, &Header { name: 4095, kind: 2, flags: 0, addr: 0, offset: 64 + 4097, size, link: 1, entry_size: 24 })?;
    Ok(out)
}

fn time<R: CpuClock + Print>(
    rt: &R,
    alloc: Global,
    what: &str,
    count: u32,
    bytes: Vec<u8>,
) -> Result<(), Fail> {
    let size = bytes.len();
    let start = rt.thread_cpu_time()?;
    let read = Elf::read(alloc, bytes);
    let end = rt.thread_cpu_time()?;
    let taken = end.as_millis().saturating_sub(start.as_millis());
    match read {
        Ok(elf) => {
            let sections = elf.sections().len();
            let symbols = elf.symbols().len();
            println!(rt; "{what} {count}: {size} bytes, {taken} ms, {sections} sections, {symbols} symbols")?;
        }
        Err(Refusal::Memory) => println!(rt; "{what} {count}: {size} bytes, {taken} ms, want of memory")?,
        Err(Refusal::Fault(fault)) => println!(rt; "{what} {count}: {size} bytes, {taken} ms, {fault:?}")?,
    }
    Ok(())
}

fn main(rt: HostRuntime) -> Result<(), Fail> {
    let alloc = rt.alloc();
    for count in [16320u16, 32640, 65279] {
        let bytes = with_sections(alloc, count, 0, 180 * u32::from(count))?;
        time(&rt, alloc, "overlapping sections", u32::from(count), bytes)?;
    }
    for count in [16320u16, 32640, 65279] {
        let bytes = with_sections(alloc, count, 16, 180 * u32::from(count))?;
        time(&rt, alloc, "sections apart", u32::from(count), bytes)?;
    }
    for count in [100000u32, 200000, 400000, 690000] {
        let bytes = with_symbols(alloc, count, b'a')?;
        time(&rt, alloc, "symbols", count, bytes)?;
    }
    let bytes = with_symbols(alloc, 690000, 0)?;
    time(&rt, alloc, "symbols without a name", 690000, bytes)?;
    Ok(())
}
PROGRAM
cd "$work/crates/elf_bench"
rt run
if command -v python3 >/dev/null; then
    python3 -c 'import resource, subprocess
subprocess.run(["out/elf_bench"], stdout=subprocess.DEVNULL, check=True)
peak = resource.getrusage(resource.RUSAGE_CHILDREN).ru_maxrss
print("peak of memory over all files, with their making:", peak // 1024, "MiB")'
fi
