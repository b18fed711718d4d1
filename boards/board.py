#!/usr/bin/env python3
"""Boards as text and as files for ./board.

    board.py make TEXT > FILE     the file of a text
    board.py show FILE            the text of a file

The text form, a line each; '#' starts a comment, blank lines are skipped:

    flow F              0 row, 1 column, 2 row dense, 3 column dense
    cols N E P          columns: negative, explicit, positive
    rows N E P          rows: negative, explicit, positive
    COLUMNS / ROWS      a tile, in document order; what stands on either side of the '/' is 'A..B' for fixed lines or 'span A'

so that

    flow 0
    cols 0 2 0
    rows 0 2 0
    0..1 / 0..1         # fixed in both axes
    span 2 / span 1     # two columns wide, one row high

A number that a text cannot say (an unknown kind, a span with a second number) is shown as 'raw KIND A B' and made from that again.
The file: 4 bytes, big-endian, with the length of all that follows; version 1; flow; six unsigned 16-bit counts, columns first; an unsigned
16-bit item count; six signed 16-bit numbers an item. All big-endian.
"""
import re
import struct
import sys


def half(text):
    text = text.strip()
    lines = re.fullmatch(r"(-?\d+)\.\.(-?\d+)", text)
    if lines:
        return 0, int(lines[1]), int(lines[2])
    span = re.fullmatch(r"span (-?\d+)", text)
    if span:
        return 1, int(span[1]), 0
    raw = re.fullmatch(r"raw (-?\d+) (-?\d+) (-?\d+)", text)
    if raw:
        return int(raw[1]), int(raw[2]), int(raw[3])
    raise ValueError(f"neither 'A..B' nor 'span A': {text!r}")


def made(text):
    told, items = {}, []
    for number, line in enumerate(text.splitlines(), 1):
        line = line.split("#")[0].strip()
        if not line:
            continue
        try:
            word = line.split()[0]
            if word in ("flow", "cols", "rows"):
                told[word] = [int(n) for n in line.split()[1:]]
                if len(told[word]) != (1 if word == "flow" else 3):
                    raise ValueError("flow has one number, cols and rows have three")
            else:
                columns, rows = line.split("/")
                items.append(struct.pack(">6h", *half(columns), *half(rows)))
        except (ValueError, struct.error) as wrong:
            sys.exit(f"line {number}: {wrong}")
    for word in ("flow", "cols", "rows"):
        if word not in told:
            sys.exit(f"no line '{word}'")
    n = len(items)
    try:
        head = struct.pack(">IBB6HH", 16 + 12 * n, 1, told["flow"][0], *told["cols"], *told["rows"], n)
    except struct.error as wrong:
        sys.exit(f"a number of the head does not fit: {wrong}")
    return head + b"".join(items)


def said(kind, a, b):
    if kind == 0:
        return f"{a}..{b}"
    if kind == 1 and b == 0:
        return f"span {a}"
    return f"raw {kind} {a} {b}"


def shown(data):
    if len(data) < 20:
        sys.exit("shorter than a head")
    length, version, flow, *counts, n = struct.unpack(">IBB6HH", data[:20])
    if version != 1 or length != len(data) - 4 or length != 16 + 12 * n:
        sys.exit("at odds with itself (refusal 12)")
    lines = [f"flow {flow}", "cols {} {} {}".format(*counts[:3]), "rows {} {} {}".format(*counts[3:])]
    for i in range(n):
        item = struct.unpack(">6h", data[20 + 12 * i : 32 + 12 * i])
        lines.append(f"{said(*item[:3])} / {said(*item[3:])}")
    return "\n".join(lines) + "\n"


def main():
    if len(sys.argv) == 3 and sys.argv[1] == "make":
        with open(sys.argv[2], encoding="utf-8") as source:
            sys.stdout.buffer.write(made(source.read()))
    elif len(sys.argv) == 3 and sys.argv[1] == "show":
        with open(sys.argv[2], "rb") as source:
            sys.stdout.write(shown(source.read()))
    else:
        sys.exit(__doc__)


if __name__ == "__main__":
    main()
