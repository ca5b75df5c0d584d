#!/usr/bin/env python3
"""Writes a case of gguf_fetches: the files header and trace here, and ../args and ../stdout.

    crates/gguf_fetches/data/make.py

The case is told by its contents: tensors, and what was fetched in which order. Both files are
written from them, and so are the lines, by going through the fetches byte by byte. No file is read
here, and no reader is asked.
"""

from pathlib import Path

# Each tensor: its name, its offset from the start of the data, and how many 4-byte floats it has.
TENSORS = [
    (b"whole", 0, 4),
    (b"backwards", 32, 2),
    (b"with a hole", 64, 3),
    (b"hole filled", 96, 3),
    (b"of no bytes", 96, 0),
    (b"twice", 128, 1),
    (b"never fetched", 160, 1),
    (b"ends with the file", 192, 4),
    (b"one byte more", 192, 5),
]
ALIGNMENT = 32

# What was fetched, from the start of the data on: an offset and a count.
FETCHES = [
    (128, 4),
    (-64, 80),
    *((32 + byte, 1) for byte in reversed(range(8))),
    (64, 5),
    (70, 6),
    (96, 5),
    (102, 6),
    (128, 4),
    (101, 1),
    (160, 0),
    (192, 2**40),
]  # fmt: skip


def little(width, number):
    return number.to_bytes(width, "little")


def text(string):
    return little(8, len(string)) + string


def header():
    """A header of version 3 with these tensors and no entries."""
    out = b"GGUF" + little(4, 3) + little(8, len(TENSORS)) + little(8, 0)
    for name, offset, floats in TENSORS:
        out += text(name) + little(4, 1) + little(8, floats) + little(4, 0) + little(8, offset)
    return out


def trace(start):
    """The byte 1, and a record for each fetch."""
    out = bytes([1])
    for offset, count in FETCHES:
        out += b"".join(n.to_bytes(w, "big") for w, n in [(4, 16), (8, start + offset), (8, count)])
    return out


def line(start, length, name, offset, floats):
    """A tensor's line: its bytes are taken out as they come, until none is left."""
    missing = set(range(start + offset, start + offset + 4 * floats))
    answer = b"never" if missing else b"0"
    for number, (first, count) in enumerate(FETCHES, 1):
        low, high = start + first, min(start + first + count, length)
        some = {byte for byte in missing if low <= byte < high}
        missing -= some
        if some and not missing:
            answer = b"%d" % number
    return b"%b %b\n" % (name, answer)


def main():
    here = Path(__file__).resolve().parent
    start = -(-len(header()) // ALIGNMENT) * ALIGNMENT
    length = start + 208
    (here / "header").write_bytes(header())
    (here / "trace").write_bytes(trace(start))
    (here.parent / "args").write_text(f"header\ntrace\n{length}\n")
    first = b"trace v1 records %d tensors %d\n" % (len(FETCHES), len(TENSORS))
    lines = [line(start, length, *tensor) for tensor in TENSORS]
    (here.parent / "stdout").write_bytes(first + b"".join(lines))


if __name__ == "__main__":
    main()
