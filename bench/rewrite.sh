#!/bin/sh
# Times `retro rewrite` of large files, each at two sizes. Run by hand, at the top of the repository:
#
#     bench/rewrite.sh
#
# It builds the program, makes files of code (one function, functions that call each other, and the same with long functions)
# and of data, and prints for each the seconds in the process, the greatest memory in bytes a byte of the file, the size of the
# text, how the seconds grew from the smaller size, and for files of code the share of what `objdump -d` takes, and how many
# times as long the text with probes at blocks takes.
set -eu

top=$(cd "$(dirname "$0")/.." && pwd)
(cd "$top/crates/retro" && rt run -- rewrite data/exit.elf >/dev/null)
folder=$(mktemp -d)
trap 'rm -rf "$folder"' EXIT

cat > "$folder/files.py" <<'PYTHON'
import os, resource, struct, subprocess, sys

folder, program = sys.argv[1:3]
sys.path.insert(0, sys.argv[3])
from elf_files import elf

# mov $60, %eax; xor %edi, %edi; mov %edi, %esi; add %eax, %ecx; syscall: 13 bytes
turn = bytes.fromhex("b83c000000 31ff 89fe 01c1 0f05")
first = bytes.fromhex("31ff b83c000000 0f05 90909090 0f0b")

def calling(size):
    """test %edi, %edi; je to the ret; push %rdi; dec %edi; call of the function before; pop %rdi; ret, behind turns."""
    tail = bytes.fromhex("85ff 740a 57 ffcf e8") + struct.pack("<i", 3 - 2 * size) + bytes.fromhex("5f 90 c3")
    return turn * ((size - 15) // 13) + tail

def functions(size, count):
    """So many functions of the same size, each but the first calling the one before."""
    start = (turn * (size // 13))[: (size - 15) // 13 * 13] + first
    body = calling(size)
    assert len(start) == len(body) == size, (len(start), len(body), size)
    return elf([(b".text", 1, 6, 0x1000, start + body * (count - 1))], [(b"f%d" % k, 0x1000 + k * size, size) for k in range(count)])

def compact(start, count):
    """A table in compact form of so many words, one behind the other."""
    left = (count - 1) % 63
    numbers = [start] + [2**64 - 1] * ((count - 1) // 63) + ([2 ** (left + 1) - 1] if left else [])
    return (b".relr.dyn", 19, 2, 0x4000_0000, b"".join(struct.pack("<Q", n) for n in numbers))

small = (b".text", 1, 6, 0x1000, first)
start = [(b"_start", 0x1000, 15)]

def words(count):
    """Words of data that hold the address of the first instruction."""
    return (b".data", 1, 3, 0x1000_0000, struct.pack("<Q", 0x1000) * count)

def used(args, where):
    """The seconds and the peak of memory of a process, in a small process of its own."""
    child = os.fork()
    if child == 0:
        with open(where, "wb") as out:
            process = subprocess.Popen(args, stdout=out)
            _, status, told = os.wait4(process.pid, 0)
        with open(f"{folder}/told", "w") as file:
            file.write(f"{told.ru_utime} {told.ru_maxrss * 1024} {status}")
        os._exit(0)
    os.waitpid(child, 0)
    seconds, peak, status = open(f"{folder}/told").read().split()
    return float(seconds), int(peak), int(status)

def time(what, counts, make, disassembled=False):
    before = 0
    for count in counts:
        data = make(count)
        assert len(data) <= 1 << 24, (what, count, len(data))
        size = len(data)
        with open(f"{folder}/file", "wb") as file:
            file.write(data)
        del data
        seconds, peak, status = used([program, "rewrite", f"{folder}/file"], f"{folder}/text")
        line = f"{what} {count}: {size} bytes, {seconds:.2f} s, {peak / size:.1f} bytes of memory a byte, text {os.path.getsize(f'{folder}/text')} bytes"
        if status:
            line += f", status {status >> 8}"
        if before:
            line += f", grew {seconds / before:.2f} times"
        if disassembled:
            other = used(["objdump", "-d", f"{folder}/file"], "/dev/null")[0]
            line += f", {seconds / other:.2f} of objdump's {other:.2f} s"
            probed, peak, _ = used([program, "rewrite", "--probes=blocks", f"{folder}/file"], f"{folder}/text")
            line += f"; with probes {probed:.2f} s, {probed / seconds:.2f} times, {peak / size:.1f} bytes of memory a byte, text {os.path.getsize(f'{folder}/text')} bytes"
        print(line, flush=True)
        before = seconds

time("bytes of one function", (8_000_000, 16_000_000), lambda n: elf([(b".text", 1, 6, 0x1000, turn * (n // 13))], [(b"f", 0x1000, n // 13 * 13)]), True)
time("functions of 15 bytes", (100_000, 200_000), lambda n: functions(15, n), True)
time("functions of 171 bytes", (22_500, 45_000), lambda n: functions(171, n), True)
time("words of data that are slots", (800_000, 1_600_000), lambda n: elf([small, words(n), compact(0x1000_0000, n)], start))
time("slots, and 16 bytes of data each,", (300_000, 600_000), lambda n: elf([small, words(n), compact(0x1000_0000, n), (b".rodata", 1, 2, 0x2000_0000, bytes(range(256)) * (n // 16))], start))
time("bytes of data", (8_000_000, 16_000_000), lambda n: elf([small, (b".rodata", 1, 2, 0x2000_0000, bytes(range(250)) * (n // 250))], start))
time("kept sections of one byte", (32_500, 65_000), lambda n: elf([small] + [(b".r", 1, 2, 0x2000_0000 + 16 * k, b"\x07") for k in range(n)], start))

def imports(count):
    """Slots with addresses of imports."""
    relas = b"".join(struct.pack("<QQq", 0x1000_0000 + 8 * k, (k + 1) << 32 | 6, 0) for k in range(count))
    hosted = (b".text", 1, 6, 0x1000, first + b"\x06")
    names = [b"__libc_start_main"] + [b"i%d" % k for k in range(1, count)]
    return elf([hosted, (b".got", 1, 3, 0x1000_0000, bytes(8 * count)), (b".rela.dyn", 4, 2, 0x4000_0000, relas)], [(b"main", 0x1000, 15), (b"_start", 0x100f, 1)], names)

time("imports", (50_000, 100_000), imports)
PYTHON
python3 "$folder/files.py" "$folder" "$top/crates/retro/out/retro" "$top/bench"
