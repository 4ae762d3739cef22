#!/bin/sh
# Times the reading of a file up to its functions, on large and hostile files. Run by hand, at the top of the repository:
#
#     bench/read_file.sh
#
# It proves the crates in a workspace of its own, makes files at two sizes each, and prints for each file the processor time
# of `Elf::read`, `Relocs::read` and `Functions::find`, what they found, and the peak of memory. The last file names 132
# million words in one relocation table, and is read with 4 GiB of addresses.
crates="rw_base rw_io rw_elf rw_make rw_reloc x86_insn x86_bytes x86_decode rw_funcs"
. "$(dirname "$0")/workspace.sh"

echo "reader_bench: rw_base rw_io rw_elf rw_reloc rw_funcs" >> "$work/crates.txt"
mkdir -p "$work/crates/reader_bench/src"
cat > "$work/crates/reader_bench/src/main.rt" <<'PROGRAM'
//! Reads a file up to its functions, and prints how long each part takes.
#![tactic(auto)]

use rw_base::Refusal;
use rw_elf::Elf;
use rw_funcs::Functions;
use rw_io::{FileError, Files, OsFiles};
use rw_reloc::Relocs;
use std::alloc::{AllocError, Global};
use std::time::CpuClock;
use std::{env, io};

#[derive(Debug, Drop)]
enum Fail {
    Refused(Refusal),
    File(FileError),
    Memory,
    System(io::Error),
}

impl From<Refusal> for Fail {
    fn from(refusal: Refusal) -> Self {
        Fail::Refused(refusal)
    }
}

impl From<AllocError> for Fail {
    fn from(_: AllocError) -> Self {
        Fail::Memory
    }
}

impl From<FileError> for Fail {
    fn from(error: FileError) -> Self {
        Fail::File(error)
    }
}

impl From<io::Error> for Fail {
    fn from(error: io::Error) -> Self {
        Fail::System(error)
    }
}

fn millis<R: CpuClock>(rt: &R) -> Result<u128, Fail> {
    Ok(rt.thread_cpu_time()?.as_millis())
}

fn read<R: CpuClock + Print>(rt: &R, alloc: Global, bytes: Vec<u8>) -> Result<(), Fail> {
    let start = millis(rt)?;
    let elf = Elf::read(alloc, bytes)?;
    let tables = millis(rt)?;
    println!(rt; "  tables: {} ms, {} symbols", tables.saturating_sub(start), elf.symbols().len())?;
    let relocs = Relocs::read(alloc, &elf)?;
    let slots = millis(rt)?;
    println!(rt; "  relocations: {} ms, {} slots", slots.saturating_sub(tables), relocs.slots().len())?;
    let functions = Functions::find(alloc, &elf, &relocs)?;
    let end = millis(rt)?;
    println!(rt; "  functions: {} ms, {} functions", end.saturating_sub(slots), functions.list().len())?;
    Ok(())
}

fn main(rt: HostRuntime) -> Result<(), Fail> {
    let words: Vec<String> = env::args(&rt)?.collect(rt.alloc())?;
    let Some(name) = words.get(1) else {
        return Ok(());
    };
    let mut files = OsFiles::new(&rt);
    let bytes = files.read_all(rt.alloc(), name, 1 << 24)?;
    let begin = millis(&rt)?;
    let answer = read(&rt, rt.alloc(), bytes);
    if let Err(fail) = answer {
        println!(rt; "  {fail:?} after {} ms", millis(&rt)?.saturating_sub(begin))?;
    }
    Ok(())
}
PROGRAM
(cd "$work/crates/reader_bench" && rt run -- "$top/crates/retro/data/exit.elf" >/dev/null)

cat > "$work/files.py" <<'PYTHON'
import functools, struct, sys

sys.path.insert(0, sys.argv[3])
import elf_files
from elf_files import elf

time = functools.partial(elf_files.time, sys.argv[1], sys.argv[2])

exit = bytes.fromhex("b83c000000 31ff 0f05")
text = (b".text", 1, 6, 0x1000, exit.ljust(16, b"\xcc"))
for count in (345_000, 690_000):
    time("functions of one range", count, elf([text], [(b"f", 0x1000, 9)] * count))
for count in (345_000, 690_000):
    nested = [(b"f", 0x1000 + k, 2 * (count - k)) for k in range(count)]
    time("nested ranges", count, elf([text], nested))
turn = bytes.fromhex("b83c000000" "31ff" "89fe" "01c1" "0f05")
for count in (8_000_000, 16_000_000):
    code = turn * (count // len(turn))
    time("bytes of code", len(code), elf([(b".text", 1, 6, 0x1000, code)], [(b"f", 0x1000, len(code))]))
hosted = (b".text", 1, 6, 0x1000, exit + b"\xc3")
for count in (990_000, 1_980_000):
    start = 0x1000_0000
    left = (count - 1) % 63
    numbers = [start] + [2**64 - 1] * ((count - 1) // 63) + ([2 ** (left + 1) - 1] if left else [])
    array = (b".init_array", 14, 3, start, struct.pack("<Q", 0x1009) * count)
    relr = (b".relr.dyn", 19, 2, 0x2000_0000, b"".join(struct.pack("<Q", n) for n in numbers))
    time("words of an array", count, elf([hosted, array, relr], [(b"main", 0x1000, 9), (b"_start", 0x1009, 1)], [b"__libc_start_main"]))
for count in (1_000, 2_096_000):
    relr = (b".relr.dyn", 19, 2, 0x2000_0000, struct.pack("<Q", 0x1_0000_0000) + b"\xff" * 8 * count)
    time("words of one compact table", 63 * count + 1, elf([text, relr], [(b"f", 0x1000, 9)]), 4 << 30)
PYTHON
python3 "$work/files.py" "$work/crates/reader_bench/out/reader_bench" "$work" "$top/bench"
