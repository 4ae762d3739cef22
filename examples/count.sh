#!/bin/sh
# Counts how often each function and each block of a program of this directory is entered: compiles it, rewrites it with
# probes, assembles and links the text with linked/counts.c, runs it, and joins the counters with what `retro blocks` says of them.
#
#     examples/count.sh sort            # a table of functions, and one of blocks, by how often they ran
#     examples/count.sh --check sort    # whether breakpoints of gdb at the blocks of the original were hit as often
#
# It needs gcc, GNU binutils and, for the check, gdb. RETRO is the path of a built retro; where it isn't set, `rt run` proves and
# builds one first. CFLAGS are the flags for the compilation (else -O1).
set -e
here=$(cd "$(dirname "$0")" && pwd)
check=
[ "$1" != --check ] || { check=yes; shift; }
program=${1:?program}
if [ -z "$RETRO" ]; then
    (cd "$here/../crates/retro" && rt run -- rewrite data/exit.elf) > /dev/null
    RETRO=$here/../crates/retro/out/retro
fi
RETRO=$(realpath "$RETRO")
work=$(mktemp -d)
trap 'rm -rf "$work"' EXIT
cd "$work"

# How often each block of the original is entered, one number a line: gdb counts the hits of a breakpoint at each.
breakpoint_hits() { # original, blocks
    main=$(nm "$1" | awk '$3 == "main" { print $1 }')
    {
        printf 'set pagination off\nset confirm off\nset startup-with-shell off\nstarti\n'
        while read -r number address _; do
            printf 'break *((long) &main - 0x%s + 0x%s)\nignore %d 1000000000\n' "$main" "$address" $((number + 1))
        done < "$2"
        printf 'continue\ninfo breakpoints\n'
    } > commands.gdb
    gdb -q -batch -nx -x commands.gdb "$1" < /dev/null 2> gdb.err | awk '
        $2 == "breakpoint" { last = $1; hits[last] = 0 }
        /breakpoint already hit/ { hits[last] = $4 }
        END { for (k = 1; k in hits; k++) print hits[k] }'
}

# shellcheck disable=SC2086 # the flags are words
gcc -fPIE -pie -mgeneral-regs-only ${CFLAGS:--O1} -o original "$here/$program.c"
"$RETRO" blocks original > blocks
"$RETRO" rewrite --probes=blocks original > probed.s
as --fatal-warnings -o probed.o probed.s
gcc -c -DCOUNTERS="$(wc -l < blocks)" -o counts.o "$here/linked/counts.c"
gcc -pie -o probed probed.o counts.o
COUNTS=counts ./probed > probed.out

if [ -n "$check" ]; then
    breakpoint_hits ./original blocks > hits
    cmp counts hits
    echo "$program: $(wc -l < blocks) blocks, entered $(paste -sd+ counts | bc) times, as gdb counts"
    exit
fi

# A line of `retro blocks` has the number of a counter, an address, the name of its function and the form of the probe. The first
# block of a function is its start.
paste counts blocks > table
tab=$(printf '\t')
printf '%12s  %s\n' entered function
awk -F '\t' '!seen[$4]++ { printf "%12d  %s\n", $1, $4 }' table | LC_ALL=C sort -k 1,1nr -k 2
printf '\n%12s  %-10s %s\n' entered block function
LC_ALL=C sort -t "$tab" -k 1,1nr -k 2,2n table | awk -F '\t' '{ printf "%12d  %-10s %s\n", $1, $3, $4 }'
