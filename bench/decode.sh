#!/bin/sh
# Times decode_one over a million random accepted instructions, on one core, in processor time.
# It proves, builds and runs a program in a temporary workspace, and needs rt on the path.
crates='rw_base x86_insn x86_bytes x86_decode'
. "$(dirname "$0")/workspace.sh"
echo 'decode_bench: x86_decode x86_insn' >> "$work/crates.txt"

bench="$work/crates/decode_bench"
mkdir -p "$bench/src"
: > "$bench/stdin"
cat > "$bench/src/main.rt" <<'END'
//! Times the decoder over random accepted bytes.
#![tactic(auto)]

use std::io;
use std::time::CpuClock;
use x86_decode::decode_one;
use x86_insn::Insn;

const INSTRUCTIONS: u64 = 1000000;

/// The next state of a linear congruential generator.
fn next(state: u64) -> u64 {
    state
        .wrapping_mul(6364136223846793005)
        .wrapping_add(1442695040888963407)
}

/// 16 random bytes.
fn window(state: u64) -> [u8; 16] {
    let a = (next(state) >> 32).to_le_bytes();
    let b = (next(next(state)) >> 32).to_le_bytes();
    let c = (next(next(next(state))) >> 32).to_le_bytes();
    let d = (next(next(next(next(state)))) >> 32).to_le_bytes();
    [
        a[0], a[1], a[2], a[3], b[0], b[1], b[2], b[3], c[0], c[1], c[2], c[3], d[0], d[1], d[2],
        d[3],
    ]
}

/// A number that depends on the instruction, so that it is made.
fn weight(insn: &Insn<u64>) -> u64 {
    match insn {
        Insn::Jcc { to, .. } | Insn::Jmp { to } | Insn::Call { to } => *to,
        Insn::Alu { .. } => 1,
        _ => 2,
    }
}

/// How many instructions the bytes have, one after another, and the sum of their weights.
fn pass(bytes: &[u8]) -> (u64, u64) {
    let mut at = 0;
    let mut count: u64 = 0;
    let mut sum: u64 = 0;
    for _ in 0..bytes.len() {
        if at >= bytes.len() {
            break;
        }
        if let Some((insn, length)) = decode_one(&bytes[at..], at as u64) {
            sum = sum.wrapping_add(weight(&insn));
            count = count.wrapping_add(1);
            at = at.wrapping_add(length as usize);
        } else {
            break;
        }
    }
    (count, sum)
}

fn main(rt: HostRuntime) -> io::Result<()> {
    let mut bytes: Vec<u8> = Vec::new(rt.alloc());
    let mut state: u64 = 1;
    let mut made: u64 = 0;
    for _ in 0..16 * INSTRUCTIONS {
        if made == INSTRUCTIONS {
            break;
        }
        state = next(next(next(next(state))));
        let window = window(state);
        if let Some((_, length)) = decode_one(&window, 0) {
            for byte in window.iter().take(length as usize) {
                bytes.push(*byte)?;
            }
            made = made.wrapping_add(1);
        }
    }
    for _ in 0..20 {
        let start = rt.thread_cpu_time()?;
        let (count, sum) = pass(&bytes);
        let nanos = rt.thread_cpu_time()?.saturating_sub(start).as_nanos();
        println!(rt; "{count} {nanos} {sum}")?;
    }
    Ok(())
}
END

cd "$bench"
rt run > "$work/log" 2>&1 || {
    cat "$work/log"
    exit 1
}
out/decode_bench | awk '
    least == 0 || $2 / $1 < least { least = $2 / $1 }
    { total += $2 / $1 }
    END {
        printf "least of %d passes: %.1f ns an instruction, %.1f million a second\n", NR, least, 1000 / least
        printf "mean: %.1f ns an instruction, %.1f million a second\n", total / NR, 1000 * NR / total
    }'
