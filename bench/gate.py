#!/usr/bin/env python3
"""Runs the gate and tells its processor time by crate: the crate itself, its tests, its wrong bodies, and the rest (runs, compilers).

It needs rt on the path, reads /proc once a second, and prints a table for docs/GATE.md after the gate's own output. The time of a process
is its last reading, so a process that ends between two readings lacks up to a second of its time. Nothing else should be running."""
import os
import subprocess
import sys
import threading
import time

TOP = os.path.dirname(os.path.dirname(os.path.abspath(__file__)))
TICK = os.sysconf("SC_CLK_TCK")
KINDS = ["crate", "tests", "edits"]


def reading(pid):
    """Returns a prover's crate, kind and processor seconds, or None for any other process."""
    with open(f"/proc/{pid}/cmdline", "rb") as it:
        words = it.read().decode(errors="replace").split("\0")
    if not words[0].endswith("/rattle") or "--crate-name" not in words:
        return None
    crate = words[words.index("--crate-name") + 1]
    inside = os.readlink(f"/proc/{pid}/cwd").startswith(TOP + "/")
    kind = "tests" if "--test" in words else "crate" if inside else "edits"
    with open(f"/proc/{pid}/stat") as it:
        fields = it.read().rpartition(")")[2].split()
    # (fields 14 to 17 of the man page proc(5): the process and the children that it has waited for)
    return crate, kind, sum(map(int, fields[11:15])) / TICK, fields[19]


def watch(seen, ended):
    """Keeps the last reading of each prover, by its number and its start."""
    while not ended.is_set():
        for pid in filter(str.isdigit, os.listdir("/proc")):
            try:
                found = reading(pid)
            except (OSError, ValueError, IndexError):
                continue
            if found:
                crate, kind, seconds, begun = found
                seen[pid, begun] = crate, kind, seconds
        time.sleep(1)


def main():
    seen, ended = {}, threading.Event()
    watcher = threading.Thread(target=watch, args=(seen, ended))
    watcher.start()
    begun = time.monotonic()
    status = subprocess.call(["rt", "ci"], cwd=TOP)
    ended.set()
    watcher.join()
    used = os.times()
    table = {}
    for crate, kind, seconds in seen.values():
        row = table.setdefault(crate, dict.fromkeys(KINDS, 0.0))
        row[kind] += seconds
    print("\n| crate | itself | tests | wrong bodies | minutes |\n|---|---|---|---|---|")
    for crate, row in sorted(table.items(), key=lambda it: -sum(it[1].values())):
        print(f"| {crate} | " + " | ".join(f"{row[kind]:.0f} s" for kind in KINDS) + f" | {sum(row.values()) / 60:.1f} |")
    print(f"\nall: {(used.children_user + used.children_system) / 60:.0f} processor minutes in {(time.monotonic() - begun) / 60:.0f} minutes")
    return status


if __name__ == "__main__":
    sys.exit(main())
