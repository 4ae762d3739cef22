#!/bin/sh
# Times the maker of test files: N sections and 4 N symbols, for N = 15000, 30000 and 60000, and 200000 symbols
# beside 60000 sections. It writes a workspace of its own beside a copy of the crate, in a temporary folder.
set -eu
top=$(cd "$(dirname "$0")/.." && pwd)
work=$(mktemp -d)
trap 'rm -rf "$work"' EXIT
mkdir -p "$work/crates/bench/src" "$work/crates/bench/specs" "$work/crates/bench/proofs"
cp -r "$top/crates/rw_make" "$work/crates/rw_make"
rm -rf "$work/crates/rw_make/must-fail"
printf 'rw_make:\nbench: rw_make\n' > "$work/crates.txt"
cat > "$work/crates/bench/src/main.rt" <<'PROGRAM'
//! Times `rw_make::make`.
#![tactic(auto)]

use rw_make::{PartSection, PartSymbol, Parts, make};
use std::alloc::{AllocError, Global};
use std::io;
use std::time::Instant;

fn parts(alloc: Global, sections: u64, symbols: u64) -> Result<Parts, AllocError> {
    let mut parts = Parts {
        sections: Vec::new(alloc),
        symbols: Vec::new(alloc),
        dynamic: Vec::new(alloc),
        relas: Vec::new(alloc),
        entry: 0x1000,
    };
    for _ in 0..sections {
        parts.sections.push(PartSection {
            name: b".data".to_vec(alloc)?,
            kind: 1,
            flags: 3,
            addr: 0x1000,
            bytes: b"0123456789abcdef".to_vec(alloc)?,
            size: 0,
        })?;
    }
    for value in 0..symbols {
        parts.symbols.push(PartSymbol {
            name: b"function".to_vec(alloc)?,
            bind: 1,
            sort: 2,
            section: 1,
            value,
            size: 1,
        })?;
    }
    Ok(parts)
}

fn main(rt: HostRuntime) -> io::Result<()> {
    for (sections, symbols) in [(15_000, 60_000), (30_000, 120_000), (60_000, 240_000), (60_000, 200_000)] {
        let parts = parts(rt.alloc(), sections, symbols)?;
        for _ in 0..3 {
            let start = Instant::now(&rt)?;
            let file = make(rt.alloc(), &parts)?;
            let spent = start.elapsed(&rt)?.as_micros();
            println!(rt; "{sections} sections, {symbols} symbols: {} bytes in {spent} us", file.len())?;
        }
    }
    Ok(())
}
PROGRAM
cd "$work/crates/bench"
rt run
