#!/bin/sh
# Compiles each program of this directory, rewrites it without probes, with probes at functions and with probes at blocks,
# assembles and links the texts, and runs them beside the original: they have to write the same and end alike, and functions
# have to be counted alike by both kinds of probes. Programs in refused/ have to be refused, with the fault that stands below.
# For one program the counts of blocks are compared with those of breakpoints (count.sh --check), where gdb is there. Prints a
# line for each case, a table by compiler and level, and `N passed, M failed`.
#
#     examples/run.sh                       # everything
#     examples/run.sh sort refused/vectors  # these programs alone
#
# It needs GNU binutils and gcc, which links; programs are compiled with gcc and with clang, where they are there.
# RETRO is the path of a built retro; where it isn't set, `rt run` proves and builds one first.
# CFLAGS are further flags for each compilation. The directory for temporary files is that of mktemp.
here=$(cd "$(dirname "$0")" && pwd)

# The fault with which a program has to be refused, or nothing. (docs/FAULTS.md explains them.)
fault_of() { # program
    case $1 in
    refused/vectors) echo F16 ;;
    refused/constructor) echo F22 ;;
    refused/thread_local) echo F10 ;;
    esac
}

# Where a fault is explained.
fault_line() { # fault
    echo "docs/FAULTS.md:$(grep -n "^- \*\*$1 " "$here/../docs/FAULTS.md" | cut -d : -f 1)"
}

# The fault with which a program that has to be the same may be refused instead, or nothing.
allowed_fault_of() { # program, compiler, level, further flag
    case "$*" in
    # clang 14 sees that a word without a command would be an access through NULL: its jump table has no check of the index
    'commands clang -O2') echo F20 ;;
    esac
}

compile_flags_of() { # program
    case $1 in
    freestanding) echo -fPIE -static-pie -mgeneral-regs-only -ffreestanding -nostdlib -fno-stack-protector ;;
    refused/vectors) echo -fPIE -pie ;;
    *) echo -fPIE -pie -mgeneral-regs-only ;;
    esac
}

link_flags_of() { # program
    case $1 in
    freestanding) echo -static-pie -nostdlib ;;
    *) echo -pie ;;
    esac
}

# Runs a program of the current directory, and keeps what it writes and its status.
run_one() { # executable
    status=0
    timeout 20 "./$1" > "$1.out" 2> "$1.err" < /dev/null || status=$?
    echo "status $status" >> "$1.out"
}

# Assembles and links a text, and runs it. What it says has to be that of the original. Prints what is wrong, if anything is.
# shellcheck disable=SC2046 # the flags are words
difference() { # program, name of the text, further objects
    name=$2
    as --fatal-warnings -o "$name.o" "$name.s" 2> said || { echo "FAILED to assemble: $(sed -n 2p said)"; return; }
    gcc $(link_flags_of "$1") -o "$name" "$name.o" $3 2> said || { echo "FAILED to link: $(head -n 1 said)"; return; }
    run_one "$name"
    cmp -s original.out "$name.out" || { echo "FAILED: another output or status ($name)"; return; }
    cmp -s original.err "$name.err" || echo "FAILED: another error output ($name)"
}

# The same with probes, whose counters a file holds at the end; a program without a C library leaves none.
difference_with_probes() { # program, mode, number of counters
    "$RETRO" rewrite --probes="$2" original > "$2.s" 2> said || { echo "FAILED, refused with probes: $(cat said)"; return; }
    object=
    if [ "$1" != freestanding ]; then
        object=$2.counts.o
        gcc -c -DCOUNTERS="$3" -o "$object" "$here/linked/counts.c" || { echo 'FAILED to compile counts.c'; return; }
    fi
    COUNTS=$2.counts
    export COUNTS
    difference "$1" "$2" "$object"
}

# Each function is counted alike by the probes of both modes: a line of `blocks` has the name of its function in the third
# column, and the first block of a function is its start.
count_difference() { # blocks
    paste blocks.counts "$1" | awk -F '\t' '!seen[$4]++ { print $1 }' > starts.counts
    cmp -s starts.counts functions.counts || echo 'FAILED: the counts of functions and of blocks differ'
}

# Prints what came of a case: `same ...`, `refused ...` or `FAILED ...`.
# shellcheck disable=SC2046,SC2086 # the flags are words
outcome() { # program, compiler, level, further flag
    $2 $3 $4 $CFLAGS $(compile_flags_of "$1") -o original "$here/$1.c" 2> said \
        || { echo "FAILED to compile: $(head -n 1 said)"; return; }
    if ! "$RETRO" rewrite original > text.s 2> said; then
        fault=$(sed 's/^retro: //' said)
        expected=$(fault_of "$1")
        case ${fault%% *} in
        "${expected:-none}") echo "refused, as it has to be: $fault ($(fault_line "${fault%% *}"))" ;;
        "$(allowed_fault_of $1 $2 $3 $4)") echo "refused, as the rules ask: $fault ($(fault_line "${fault%% *}"))" ;;
        *) echo "FAILED, refused: $fault ($(fault_line "${fault%% *}"))" ;;
        esac
        return
    fi
    [ -z "$(fault_of "$1")" ] || { echo 'FAILED: accepted'; return; }
    run_one original
    grep -q "^$1: ok\$" original.out || { echo "FAILED: the original doesn't say that it is right"; return; }
    "$RETRO" blocks original > blocks.list 2> said || { echo "FAILED: no blocks: $(cat said)"; return; }
    failed=$(
        difference "$1" text
        difference_with_probes "$1" functions "$(grep -c '^# function' text.s)"
        difference_with_probes "$1" blocks "$(wc -l < blocks.list)"
        [ "$1" = freestanding ] || count_difference blocks.list
    )
    [ -z "$failed" ] || { echo "$failed" | head -n 1; return; }
    echo "same ($(wc -l < text.s) lines, $(grep -c '\.long .*-' text.s) words of jump tables, $(wc -l < blocks.list) blocks)"
}

if [ "$1" = --case ]; then
    directory=$(mktemp -d -p "$WORK") && cd "$directory" || exit 1
    printf '%-21s %-5s %s %-17s %s\n' "$2" "$3" "$4" "$5" "$(outcome "$2" "$3" "$4" "$5")"
    exit
fi

cases_of() { # program
    for compiler in gcc clang; do
        command -v "$compiler" > /dev/null || continue
        for level in -O0 -O1 -O2; do
            echo "$1 $compiler $level"
            echo "$1 $compiler $level -fno-jump-tables"
        done
    done
}

if [ -z "$RETRO" ]; then
    (cd "$here/../crates/retro" && rt run -- rewrite data/exit.elf) > /dev/null || exit 1
    RETRO=$here/../crates/retro/out/retro
fi
RETRO=$(realpath "$RETRO")
WORK=$(mktemp -d)
export RETRO WORK CFLAGS
trap 'rm -rf "$WORK"' EXIT

[ $# -gt 0 ] || set -- "$here"/*.c "$here"/refused/*.c
for program; do
    program=${program#"$here/"}
    cases_of "${program%.c}" | xargs -P "$(nproc)" -L 1 "$0" --case | LC_ALL=C sort
done | tee "$WORK/lines"

if [ $# -gt 1 ] && command -v gdb > /dev/null; then
    said=$("$here/count.sh" --check recursion 2>&1) && said="same ($said)" || said="FAILED: $said"
    printf '%-21s %-5s %s %-17s %s\n' count gcc -O1 '' "$said" | tee -a "$WORK/lines"
fi

awk '
    {
        row = $2 " " $3 ($4 == "-fno-jump-tables" ? " " $4 : "")
        rows[row]
        outcome = / same \(/ ? "same" : / refused, as / ? "refused" : "failed"
        count[row, outcome]++
        total[outcome]++
    }
    END {
        printf "\n%-26s %5s %8s %7s\n", "", "same", "refused", "failed"
        for (row in rows)
            printf "%-26s %5d %8d %7d\n", row, count[row, "same"], count[row, "refused"], count[row, "failed"] | "LC_ALL=C sort"
        close("LC_ALL=C sort")
        printf "%d passed, %d failed\n", total["same"] + total["refused"], total["failed"]
        exit total["failed"] > 0 || NR == 0
    }' "$WORK/lines"
