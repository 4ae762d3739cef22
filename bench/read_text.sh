#!/bin/sh
# Times the reading of texts of 3, 6 and 16.8 million lines, the last of near 268,435,456 bytes, beside the writing of the same
# texts, on one core, in processor time; and shows the memory that is taken beside that of the items.
# It proves, builds and runs a program in a temporary workspace, and needs rt and python3 on the path.
crates='rw_base rw_io x86_insn asm_items asm_print asm_read'
. "$(dirname "$0")/workspace.sh"
echo 'read_bench: rw_base rw_io x86_insn asm_items asm_print asm_read' >> "$work/crates.txt"

bench="$work/crates/read_bench"
mkdir -p "$bench/src" "$bench/proofs/time_writing"
: > "$bench/stdin"
cat > "$bench/src/main.rt" <<'END'
//! Times the reading of a text, and the writing of what was read.
#![tactic(auto)]

ghost use Rattle.std.specs.Prelude.{◌≡◌, map, true};
ghost use Rattle.std.specs.List.{All};
ghost use Rattle.asm_items.specs.Formed.{AreItems, is_item};
ghost use Rattle.asm_items.specs.Named.{named};

use asm_items::{Item, NameId, Names};
use asm_print::{Line, print_item};
use asm_read::{Text, read_text};
use rw_base::Refusal;
use rw_io::{NullSink, OsSink, Sink};
use std::mem::size_of;
use std::time::{CpuClock, Duration};
use std::{env, fs, io};

/// Writes the items, and says how many were written.
fn write<S: Sink>(names: &Names, items: &[Item<NameId>], sink: &mut S) -> usize
    requires { All (λ item. is_item (named names.now item) ≡ true) items.now }
{
    let mut line = Line::new();
    let mut written: usize = 0;
    for item in items {
        if print_item(item, names, &mut line, sink).is_ok() {
            written = written.wrapping_add(1);
        }
    }
    written
}

/// The milliseconds of the processor since a time.
fn since<R: CpuClock>(rt: &R, start: Duration) -> io::Result<u128> {
    Ok(rt.thread_cpu_time()?.saturating_sub(start).as_millis())
}

/// How many lines of a text are written, and in how many milliseconds.
fn time_writing<R: CpuClock, S: Sink>(
    rt: &R,
    text: &Text,
    sink: &mut S,
) -> io::Result<(usize, u128)>
    requires { AreItems (map (named text.now.names) text.now.items.items) }
{
    let start = rt.thread_cpu_time()?;
    let written = write(&text.names, &text.items, sink);
    Ok((written, since(rt, start)?))
}

#[tactic(auto, using(asm_read::proofs::Progress::feeds))]
fn main(rt: HostRuntime) -> io::Result<()> {
    let words: Vec<String> = env::args(&rt)?.collect(rt.alloc())?;
    let path = match words.as_slice() {
        [_, path] => path.as_str(),
        _ => return Ok(()),
    };
    let bytes = fs::read(&rt, path)?;
    if bytes.len() > 1_000_000_000 {
        return Ok(());
    }
    let start = rt.thread_cpu_time()?;
    let read = read_text(rt.alloc(), &bytes);
    let reading = since(&rt, start)?;
    match read {
        Ok(text) => {
            let (lines, printing) = time_writing(&rt, &text, &mut NullSink::new())?;
            let (_, writing) = time_writing(&rt, &text, &mut OsSink::new(rt.stdout()))?;
            let names = text.names.len();
            let size = size_of::<Item<NameId>>();
            eprintln!(rt;
                "{} {lines} {names} {size} {reading} {printing} {writing}",
                bytes.len()
            )?;
        }
        Err(Refusal::Memory) => eprintln!(rt; "want of memory")?,
        Err(Refusal::Fault(fault)) => eprintln!(rt; "{fault:?}")?,
    }
    Ok(())
}
END
cat > "$bench/proofs/time_writing/Answers.antt" <<'END'
use Rattle.std.proofs.Common.{◌≡◌, ◌∙◌, ◌<◌, List, true, All, ap, subst, sym}
use Rattle.std.proofs.lemmas.List.{get_or-map, length-map}
use Rattle.asm_items.specs.declared.item.Item.{Item}
use Rattle.asm_items.specs.declared.item.NameId.{NameId}
use Rattle.asm_items.specs.Formed.{is_item}
use Rattle.asm_items.specs.Named.{named}
use Rattle.read_bench.proofs.time_writing.Goals as goal

pub write-written-requires : goal.write-written-requires
write-written-requires g c =
    let names = c.args.text.now.names in
    let items = c.args.text.now.items.items in
    let each : All (λ item. is_item (named names item) ≡ true) items =
    λ k d many. ap is_item (sym (get_or-map (named names) items k d (named names d) many)) ∙ c.requires k (named names d) (subst (λ n. k < n) (sym (length-map items (named names))) many) in
    subst (λ (l : List (Item NameId)). All (λ item. is_item (named names item) ≡ true) l) (sym c.deref.ensures.value) each
END

# a text of some lines: labels and instructions, and after each 18,000 lines of them 2,000 lines of data
cat > "$work/text.py" <<'END'
import sys

INSTRUCTIONS = [
    "movl $60, %eax", "xorl %edi, %edi", "movq -24(%rbp), %rax", "leaq 8(%rdi,%rcx,8), %r10", "testl %r9d, %r9d",
    "jne .L{0:x}", "call .L{0:x}", "pushq %rbx", "addq $4096, %rsp", "movq .Ls3+{1}(%rip), %rdx", "call name{2}",
    "movzbl (%rsi,%rax,1), %ecx", "cmpb $10, 1(%rdx)", "cmovne %r8, %rax", "shlq $3, %rcx", "ret",
]
DATA = [
    "\t.byte 0, 1, 2, 3, 4, 5, 6, 7, 8, 9, 10, 200, 201, 202, 203, 255", "\t.quad .L{0:x}", "\t.quad name{2}+8",
    "\t.long .L{0:x}-.Lt2000",
]

wanted, path = int(sys.argv[1]), sys.argv[2]
with open(path, "w") as out:
    lines, point, address = 0, 0, 0x1000
    while lines < wanted:
        name = point * 13 % 20000
        if lines % 20000 < 18000:
            insn = INSTRUCTIONS[point * 7 % 16].format(address ^ 0x5a5a, 8 * (address % 1000), name)
            out.write(".L%x:\n\t%s\n" % (address, insn))
            lines += 2
        else:
            out.write(DATA[point * 3 % 4].format(address, 0, name) + "\n")
            lines += 1
        address += 3 + point % 3
        point += 1
END

cd "$bench"
python3 "$work/text.py" 1000 "$work/text"
rt run -- "$work/text" > "$work/log" 2>&1 || {
    cat "$work/log"
    exit 1
}
for lines in 3000000 6000000 16800000; do
    python3 "$work/text.py" "$lines" "$work/text"
    /usr/bin/time -a -o "$work/said" -f %M out/read_bench "$work/text" > "$work/written" 2> "$work/said"
    cmp "$work/text" "$work/written"
    tr '\n' ' ' < "$work/said" | awk '{
        memory = $8 * 1024 - $1
        printf "%d lines, %d bytes, %d names: read in %d ms; printed in %d ms, written to a file in %d ms; ", $2, $1, $3, $5, $6, $7
        printf "memory %.2f times the items\n", memory / ($2 * $4)
    }'
done
