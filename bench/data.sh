#!/bin/sh
# Times the reading of a whole file and the walk through its data, on large files. Run by hand, at the top of the repository:
#
#     bench/data.sh
#
# It proves the crates in a workspace of its own, makes files at two sizes each, and prints for each the processor time of
# `Picture::of`, of a walk by `piece_at` and of `first_cell` at each byte, with the peak of memory.
crates="rw_base rw_io rw_words rw_elf rw_make rw_reloc x86_insn x86_bytes x86_decode x86_meaning rw_funcs rw_tables rw_refs rw_data"
. "$(dirname "$0")/workspace.sh"

echo "data_bench: rw_base rw_io rw_words rw_elf rw_data" >> "$work/crates.txt"
mkdir -p "$work/crates/data_bench/src"
cat > "$work/crates/data_bench/src/main.rt" <<'PROGRAM'
//! Reads a file whole, goes through its data, and prints how long each takes.
#![tactic(auto)]

ghost use Rattle.std.specs.Prelude.{Contains};
ghost use Rattle.rw_elf.specs.Tables.{kept_sections};

use rw_base::Refusal;
use rw_data::Picture;
use rw_elf::Section;
use rw_io::{FileError, Files, OsFiles};
use rw_words::Cell;
use std::alloc::{AllocError, Global};
use std::time::CpuClock;
use std::{env, io};

#[derive(Debug, Drop)]
enum Fail {
    Refused(Refusal),
    File(FileError),
    Memory,
    System(io::Error),
}

impl From<Refusal> for Fail {
    fn from(refusal: Refusal) -> Self {
        Fail::Refused(refusal)
    }
}

impl From<AllocError> for Fail {
    fn from(_: AllocError) -> Self {
        Fail::Memory
    }
}

impl From<FileError> for Fail {
    fn from(error: FileError) -> Self {
        Fail::File(error)
    }
}

impl From<io::Error> for Fail {
    fn from(error: io::Error) -> Self {
        Fail::System(error)
    }
}

fn millis<R: CpuClock>(rt: &R) -> Result<u128, Fail> {
    Ok(rt.thread_cpu_time()?.as_millis())
}

// How many pieces a kept section has.
fn pieces_of(picture: &Picture, section: &Section) -> u64
    requires { Contains (kept_sections picture.now) section.now }
{
    let mut count: u64 = 0;
    let mut at = section.addr;
    while let Some(piece) = picture.piece_at(section, at) {
        count = count.wrapping_add(1);
        at = piece.end();
    }
    count
}

fn pieces(picture: &Picture) -> u64 {
    let mut count: u64 = 0;
    for section in picture.elf().kept() {
        count = count.wrapping_add(pieces_of(picture, section));
    }
    count
}

fn cell_of(picture: &Picture, region: u32, offset: u64) -> Option<Cell> {
    let kept = picture.elf().kept();
    if region as usize >= kept.len() || offset >= kept[region as usize].size {
        return None;
    }
    Some(picture.first_cell(region, offset))
}

// How many first contents are parts of addresses.
fn parts(picture: &Picture) -> u64 {
    let mut count: u64 = 0;
    for region in 0..u32::MAX {
        let Some(section) = picture.elf().kept().get(region as usize) else {
            break;
        };
        for offset in 0..section.size {
            if let Some(Cell::Part(_, _)) = cell_of(picture, region, offset) {
                count = count.wrapping_add(1);
            }
        }
    }
    count
}

fn read<R: CpuClock + Print>(rt: &R, alloc: Global, bytes: Vec<u8>) -> Result<(), Fail> {
    let start = millis(rt)?;
    let picture = Picture::of(alloc, bytes)?;
    let made = millis(rt)?;
    println!(rt; "  Picture::of: {} ms, {} sections, {} slots, {} tables", made.saturating_sub(start), picture.elf().kept().len(), picture.relocs().slots().len(), picture.tables().list().len())?;
    let pieces = pieces(&picture);
    let walked = millis(rt)?;
    println!(rt; "  piece_at: {} ms, {pieces} pieces", walked.saturating_sub(made))?;
    let parts = parts(&picture);
    let end = millis(rt)?;
    println!(rt; "  first_cell: {} ms, {parts} parts of addresses", end.saturating_sub(walked))?;
    Ok(())
}

fn main(rt: HostRuntime) -> Result<(), Fail> {
    let words: Vec<String> = env::args(&rt)?.collect(rt.alloc())?;
    let Some(name) = words.get(1) else {
        return Ok(());
    };
    let mut files = OsFiles::new(&rt);
    let bytes = files.read_all(rt.alloc(), name, 1 << 24)?;
    let begin = millis(&rt)?;
    let answer = read(&rt, rt.alloc(), bytes);
    if let Err(fail) = answer {
        println!(rt; "  {fail:?} after {} ms", millis(&rt)?.saturating_sub(begin))?;
    }
    Ok(())
}
PROGRAM
mkdir -p "$work/crates/data_bench/proofs/pieces_of"
cat > "$work/crates/data_bench/proofs/pieces_of/Invariants.antt" <<'PROOF'
use Rattle.std.proofs.Common.{ℕ, ◌+◌, ◌-◌, ◌≤◌}
use Rattle.data_bench.proofs.pieces_of.Given as goal

abbrev pub invariant-loop-piece : goal.invariant-loop-piece
invariant-loop-piece l = l.section.addr ≤ l.at

abbrev pub decreases-loop-piece : goal.decreases-loop-piece
decreases-loop-piece l = l.section.addr + l.section.size - l.at
PROOF
(cd "$work/crates/data_bench" && rt run -- "$top/crates/retro/data/exit.elf" >/dev/null)

cat > "$work/files.py" <<'PYTHON'
import functools, struct, sys

sys.path.insert(0, sys.argv[3])
import elf_files
from elf_files import elf

time = functools.partial(elf_files.time, sys.argv[1], sys.argv[2])

def text(count):
    """So many instructions of one byte, and ud2."""
    return (b".text", 1, 6, 0x1000, b"\x90" * count + b"\x0f\x0b"), [(b"_start", 0x1000, count + 2)]

def compact(start, count):
    """A table in compact form of so many words, one behind the other."""
    left = (count - 1) % 63
    numbers = [start] + [2**64 - 1] * ((count - 1) // 63) + ([2 ** (left + 1) - 1] if left else [])
    return (b".relr.dyn", 19, 2, 0x4000_0000, b"".join(struct.pack("<Q", n) for n in numbers))

def slots(count):
    """Words of data that hold addresses of instructions."""
    return (b".data", 1, 3, 0x1000_0000, b"".join(struct.pack("<Q", 0x1000 + 7 * k % 4000) for k in range(count)))

def small(count):
    return [(b".r", 1, 2, 0x2000_0000 + 16 * k, b"\x07") for k in range(count)]

for count in (300_000, 600_000):
    code, functions = text(20 * count // 3)
    time("slots, with 6.7 instructions each and a section for each 10,", count, elf([code, slots(count), compact(0x1000_0000, count)] + small(count // 10), functions))
for count in (1_000_000, 2_000_000):
    code, functions = text(4_000)
    time("slots alone,", count, elf([code, slots(count), compact(0x1000_0000, count)], functions))
for count in (4_000_000, 8_000_000):
    code, functions = text(count)
    time("instructions alone,", count, elf([code], functions))
for count in (32_000, 64_000):
    code, functions = text(4_000)
    time("sections alone,", count, elf([code] + small(count), functions))
for count in (100_000, 200_000):
    dispatch = bytes.fromhex("83ff01" "7711")
    data, code = b"", b""
    for k in range(count):
        base, at = 0x1000_0000 + 8 * k, 0x1000 + 22 * k
        code += dispatch + bytes.fromhex("488d15") + struct.pack("<i", base - (at + 12)) + bytes.fromhex("486304ba4801d03effe0")
        data += struct.pack("<i", 0x1000 - base) * 2
    code += b"\x0f\x0b"
    time("jump tables alone,", count, elf([(b".text", 1, 6, 0x1000, code), (b".rodata", 1, 2, 0x1000_0000, data)], [(b"_start", 0x1000, len(code))]))
PYTHON
python3 "$work/files.py" "$work/crates/data_bench/out/data_bench" "$work" "$top/bench"
