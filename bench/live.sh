#!/bin/sh
# Times `Live::of`, in processor time, and its memory. Run by hand, at the top of the repository:
#
#     bench/live.sh
#
# It proves, builds and runs a program in a temporary workspace, and needs rt on the path. One kind of function is made of
# jumps of 2 bytes, each to the jump before it and the first to a system call; the other of usual instructions with a branch
# forward and one backward in each 34 bytes. The memory is the greatest of a run, less that of a run that only finds the
# functions; 256 MiB are held in both, so that what it takes to find them, which is freed before, isn't the greatest.
crates='rw_base rw_elf rw_make rw_reloc x86_insn x86_bytes x86_decode x86_meaning rw_words rw_domain rw_machine rw_funcs rw_live'
. "$(dirname "$0")/workspace.sh"
echo 'live_bench: rw_base rw_elf rw_reloc rw_funcs rw_live' >> "$work/crates.txt"

bench="$work/crates/live_bench"
mkdir -p "$bench/src"
: > "$bench/stdin"
cat > "$bench/src/main.rt" <<'PROGRAM'
//! Times `Live::of` over the first function of the file on the standard input. With a word it leaves that out.
#![tactic(auto)]

use rw_base::Refusal;
use rw_elf::Elf;
use rw_funcs::Functions;
use rw_live::Live;
use rw_reloc::Relocs;
use std::alloc::{AllocError, Global};
use std::env;
use std::io::{self, Read};
use std::time::CpuClock;

/// What is held beside, in bytes.
const HELD: usize = 268_435_456;

fn functions_of(alloc: Global, bytes: Vec<u8>) -> Result<Functions, Refusal> {
    let elf = Elf::read(alloc, bytes)?;
    let relocs = Relocs::read(alloc, &elf)?;
    Functions::find(alloc, &elf, &relocs)
}

/// Finds what is live in the first function, and tells whether there is one.
fn find(alloc: Global, functions: &Functions) -> Result<bool, AllocError> {
    if functions.list().is_empty() {
        return Ok(false);
    }
    let _live = Live::of(alloc, functions, 0)?;
    Ok(true)
}

fn main(rt: HostRuntime) -> io::Result<()> {
    let alloc = rt.alloc();
    let words = env::args(&rt)?.count();
    let mut bytes = Vec::new(alloc);
    let _size = rt.stdin().read_to_end(&mut bytes)?;
    let Ok(functions) = functions_of(alloc, bytes) else {
        println!(rt; "no functions")?;
        return Ok(());
    };
    let held = vec![in alloc; 1u8; HELD]?;
    let start = rt.thread_cpu_time()?;
    let found = words == 1 && find(alloc, &functions)?;
    let millis = rt.thread_cpu_time()?.saturating_sub(start).as_millis();
    println!(rt; "{found} {millis} {:?}", held.get(words))?;
    Ok(())
}
PROGRAM

cd "$bench"
rt run > "$work/log" 2>&1 || {
    cat "$work/log"
    exit 1
}

python3 - "$work" <<'PYTHON'
import struct, sys

def padded(data):
    return data + bytes(-len(data) % 8)

def elf(code):
    symbols = bytes(24) + struct.pack("<IBBHQQ", 1, 0x12, 0, 1, 0x1000, len(code))
    strings = b"\0f\0"
    names = b"\0.text\0.symtab\0.strtab\0.shstrtab\0"
    places, body = [], bytes(64)
    for part in (code, symbols, strings, names):
        body = padded(body)
        places.append(len(body))
        body += part
    body = padded(body)
    def section(name, kind, flags, address, place, size, link, align, entry):
        return struct.pack("<IIQQQQIIQQ", name, kind, flags, address, place, size, link, 0, align, entry)
    table = bytes(64)
    table += section(1, 1, 6, 0x1000, places[0], len(code), 0, 16, 0)
    table += section(7, 2, 0, 0, places[1], len(symbols), 3, 8, 24)
    table += section(15, 3, 0, 0, places[2], len(strings), 0, 8, 0)
    table += section(23, 3, 0, 0, places[3], len(names), 0, 8, 0)
    header = b"\x7fELF\x02\x01\x01" + bytes(9)
    header += struct.pack("<HHIQQQIHHHHHH", 3, 62, 1, 0x1000, 0, len(body), 0, 64, 0, 0, 64, 5, 4)
    return header + body[64:] + table

# syscall; jmp to the point before, again and again
def back(points):
    return bytes.fromhex("0f05") + bytes.fromhex("ebfc") * (points - 1)

# add %ecx, %eax; mov %rdx, %rbx; cmp $5, %edi; je over the next; xor %esi, %esi; mov 8(%rsp), %ecx; movl $5, 16(%rsp);
# mov $5, %edx; dec %edi; jne to the start; nop: 34 bytes and 11 points
turn = bytes.fromhex("01c8 4889d3 83ff05 7402 31f6 8b4c2408 c744241005000000 ba05000000 ffcf 75df 90")
def usual(points):
    return turn * (points // 11) + bytes.fromhex("c3")

for name, code, points in (
    ("back-1", back(4_194_000), 4_194_000), ("back-2", back(8_388_000), 8_388_000),
    ("usual-1", usual(1_000_000), 1_000_000), ("usual-2", usual(2_000_000), 2_000_000),
):
    with open(f"{sys.argv[1]}/{name}", "wb") as file:
        file.write(elf(code))
    with open(f"{sys.argv[1]}/{name}.points", "w") as file:
        file.write(f"{len(code)} {points}")
PYTHON

for name in back-1 back-2 usual-1 usual-2; do
    /usr/bin/time -f "%M" -o "$work/least" out/live_bench functions < "$work/$name" > "$work/none"
    /usr/bin/time -f "%M" -o "$work/most" out/live_bench < "$work/$name" > "$work/some"
    echo "$name $(cat "$work/$name.points") $(cat "$work/least") $(cat "$work/most") $(cat "$work/some")" \
        | awk '{ printf "%s: %d bytes, %d points: %.2f s, %.1f bytes of memory a point\n", $1, $2, $3, $7 / 1000, ($5 - $4) * 1024 / $3 }'
done
