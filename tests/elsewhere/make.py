#!/usr/bin/env python3
"""Writes a big-endian model file as other tools do, and what a listing of it must be.

    tests/elsewhere/make.py FILE TEXT

The public GGUF document gives the magic as four bytes in their order, 47 47 55 46, whatever the
byte order of the file; a tool that packs each number after it big-endian makes a file of version 3
that begins 47 47 55 46 00 00 00 03. This is such a tool, in the document's order: magic, version,
counts, metadata, tensors, padding, data. It is of its own: it takes nothing from this project.

TEXT gets the lines of `./gguf-list FILE`, worked out from the contents alone.
"""

import struct
import sys

UINT32, FLOAT32, STRING, ARRAY = 4, 6, 8, 9
F32, F16 = 0, 1
ALIGNMENT = 64


def string(text):
    return struct.pack(">Q", len(text)) + text


def metadata(key, kind, value):
    return string(key) + struct.pack(">I", kind) + value


ENTRIES = [
    (b"general.architecture", STRING, string(b"llama")),
    (b"general.alignment", UINT32, struct.pack(">I", ALIGNMENT)),
    (b"llama.rope.freq_base", FLOAT32, struct.pack(">f", 10000.0)),
    (
        b"tokenizer.ggml.tokens",
        ARRAY,
        struct.pack(">IQ", STRING, 4) + b"".join(map(string, [b"<s>", b"</s>", b"a", b""])),
    ),
]

# Name, type, dimensions, and the data, each number of it big-endian as well.
TENSORS = [
    (b"token_embd.weight", F32, [4, 3], struct.pack(">12f", *range(12))),
    (b"output_norm.weight", F32, [5], struct.pack(">5f", *range(5))),
    (b"output.weight", F16, [3], struct.pack(">3e", *range(3))),
]


def padded(bytes):
    return bytes + b"\0" * (-len(bytes) % ALIGNMENT)


def main(file, text):
    header = b"GGUF" + struct.pack(">IQQ", 3, len(TENSORS), len(ENTRIES))
    header += b"".join(metadata(*entry) for entry in ENTRIES)
    data, lines = b"", [b"key %b %d" % (key, kind) for key, kind, _ in sorted(ENTRIES)]
    for name, kind, dimensions, bytes in TENSORS:
        header += string(name) + struct.pack(">I%dQ" % len(dimensions), len(dimensions), *dimensions)
        header += struct.pack(">IQ", kind, len(data))
        shape = b"x".join(b"%d" % length for length in dimensions)
        lines.append(b"%b %d %b %d %d" % (name, kind, shape, len(data), len(bytes)))
        data = padded(data + bytes)
    header = padded(header)
    counts = len(ENTRIES), len(TENSORS), ALIGNMENT, len(header)
    first = b"gguf v3 BE kv %d tensors %d align %d data %d" % counts
    with open(file, "wb") as out:
        out.write(header + data)
    with open(text, "wb") as out:
        out.write(b"\n".join([first, *lines]) + b"\n")


if __name__ == "__main__":
    if len(sys.argv) != 3:
        sys.exit(__doc__)
    main(*sys.argv[1:])
