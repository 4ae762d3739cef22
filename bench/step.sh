#!/bin/sh
# Times steps of the machine over words with a stack of 1 MiB, on one core, in processor time.
# It proves, builds and runs a program in a temporary workspace, and needs rt on the path.
crates='rw_base x86_insn x86_meaning rw_words rw_domain rw_machine'
. "$(dirname "$0")/workspace.sh"
echo 'step_bench: rw_base x86_insn rw_words rw_domain rw_machine' >> "$work/crates.txt"

# the code that is a list of instructions is that of the tests
bench="$work/crates/step_bench"
mkdir -p "$bench/src" "$bench/specs"
: > "$bench/stdin"
sed 's/rw_machine_tests/step_bench/' "$top/crates/rw_machine_tests/src/listing.rt" > "$bench/src/listing.rt"
cp "$top/crates/rw_machine_tests/specs/Lib.antt" "$top/crates/rw_machine_tests/specs/Listed.antt" "$bench/specs/"
cat > "$bench/src/main.rt" <<'END'
//! Times steps over words with a stack of 1 MiB.
#![tactic(auto)]

mod listing;

use crate::listing::Listing;
use rw_base::Width::Q;
use rw_domain::{Domain, Region, Symbols};
use rw_machine::{Answer, Code, State, step};
use rw_words::{Atom, Word};
use std::alloc::{AllocError, Global};
use std::io;
use std::time::CpuClock;
use x86_insn::Insn::{self, Jmp, Mov, Pop, Push};
use x86_insn::Mem::At;
use x86_insn::Operand::{Mem, Reg as R};
use x86_insn::Reg::{Rax, Rcx, Rsp};

const STEPS: u64 = 4000;

const STACK: u64 = 1048576;

/// A push, a pop, a store far below the stack pointer, and back.
static INSNS: [Insn<u64>; 4] = [
    Push { from: R(Rcx) },
    Pop { to: R(Rax) },
    Mov {
        w: Q,
        to: Mem(At {
            base: Some(Rsp),
            index: None,
            disp: -1024,
        }),
        from: R(Rcx),
    },
    Jmp { to: 0 },
];

const fn region(size: u64) -> Region {
    Region {
        size,
        align: 16,
        writable: true,
        zero: false,
    }
}

/// One step, and whether it moves.
fn moves<D: Domain, C: Code<D>>(
    alloc: Global,
    code: &C,
    state: &mut State<D, C::Point>,
) -> Result<bool, AllocError> {
    match step(alloc, code, state)? {
        Answer::Moved => Ok(true),
        _ => Ok(false),
    }
}

/// How many of the steps move.
fn run(
    alloc: Global,
    code: &Listing,
    state: &mut State<Symbols, u64>,
) -> Result<u64, AllocError> {
    let mut moved: u64 = 0;
    for _ in 0..STEPS {
        if moves(alloc, code, state)? {
            moved = moved.wrapping_add(1);
        }
    }
    Ok(moved)
}

/// A machine whose stack pointer is near the end of its stack.
fn machine(alloc: Global) -> Result<State<Symbols, u64>, AllocError> {
    let regions = vec![in alloc; region(STACK), region(64), region(64)]?;
    let mut state = State::new(alloc, Symbols::new(regions, Vec::new(alloc)), 0)?;
    state.set_reg(Rsp, Word::atom(Atom::Ptr(0, STACK - 64)));
    Ok(state)
}

fn main(rt: HostRuntime) -> io::Result<()> {
    let alloc = rt.alloc();
    let mut state = machine(alloc)?;
    let code = Listing { insns: &INSNS };
    let start = rt.thread_cpu_time()?;
    let moved = run(alloc, &code, &mut state)?;
    let nanos = rt.thread_cpu_time()?.saturating_sub(start).as_nanos();
    println!(rt; "{moved} {nanos}")?;
    Ok(())
}
END

cd "$bench"
rt run > "$work/log" 2>&1 || {
    cat "$work/log"
    exit 1
}
out/step_bench | awk '{ printf "%d steps: %.3f us a step\n", $1, $2 / $1 / 1000 }'
