#!/usr/bin/env python3
"""Numbers that follow from the order of the decoder's rows, written where they stand.

After a row has been added to, moved in or taken from specs/Rows.antt and src/table.rt of crates/x86_decode, this writes
the two arrays of first rows and the count of rows in src/table.rt, and the place of each row in proofs/CanonicalRows.antt.
It decides nothing: the check proves that the arrays and the places are right."""

import re
from pathlib import Path

CRATE = Path(__file__).resolve().parent.parent / "crates/x86_decode"
TABLE = CRATE / "src/table.rt"
ROWS = CRATE / "specs/Rows.antt"
PLACES = CRATE / "proofs/CanonicalRows.antt"


def opcodes(row):
    """The opcodes of a line of the table in code."""
    run = re.match(r"Run\((\w+), (\w+)\)", row)
    if run:
        return range(int(run[1], 0), int(run[2], 0) + 1)
    eighth = int(re.match(r"EveryEighth\((\w+)\)", row)[1], 0)
    return range(eighth, 0x40, 8)


def index(rows, first):
    """For 256 opcodes from `first` on, how many rows stand before the first one of each, 16 on a line."""
    before = [
        next((k for k, row in enumerate(rows) if opcode in opcodes(row)), len(rows))
        for opcode in range(first, first + 256)
    ]
    return "".join("    " + " ".join(map(str, before[k : k + 16])) + "\n" for k in range(0, 256, 16))


def main():
    table = TABLE.read_text()
    rows = re.findall(r"^    row!\((.*)\),$", table, re.M)
    lines = re.findall(r"^    (row \(opcodes.*) ∷$", ROWS.read_text(), re.M)
    if len(rows) != len(lines):
        raise SystemExit(f"src/table.rt has {len(rows)} rows, specs/Rows.antt has {len(lines)}")
    table = re.sub(r"\[Row; \d+\]", f"[Row; {len(rows)}]", table)
    for name, first in (("ONE_BYTE", 0), ("TWO_BYTES", 0x0F00)):
        table = re.sub(
            rf"(static {name}: .* = index! {{\n)[\d\s]*(}};)", rf"\g<1>{index(rows, first)}\g<2>", table
        )
    TABLE.write_text(table)

    def place(found):
        row = found[2].removeprefix("row_" + found[1] + " = ")
        if row not in lines:
            raise SystemExit(f"row_{found[1]} of proofs/CanonicalRows.antt isn't in specs/Rows.antt")
        return f"{found[0].rsplit('(', 1)[0]}({lines.index(row)}, lit< tt, refl)"

    rule = r"row_(\w+) = (row .*)\n\npub has_\1 : .*\nhas_\1 = \(\d+, lit< tt, refl\)"
    places = re.sub(rule, place, PLACES.read_text())
    PLACES.write_text(places)
    print(f"{len(rows)} rows")


if __name__ == "__main__":
    main()
