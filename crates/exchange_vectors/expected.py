#!/usr/bin/env python3
"""expected.py: what exchange_vectors writes, by docs/QUESTIONS.md and Python's zlib, on standard output."""
import struct
import zlib


def of_bytes(s):
    return f"{len(s)}#{zlib.crc32(s)}" if len(s) > 4096 else f"{len(s)}:{s.hex()}"


def of_words(w):
    if len(w) > 64:
        return f"{len(w)}#{zlib.crc32(struct.pack(f'<{len(w)}Q', *w))}"
    shown = list(w)
    while shown and shown[-1] == 0:
        shown.pop()
    return f"{len(w)}:{','.join(map(str, shown))}"


def show(name, values, lengths, atom):
    for n in lengths:
        print(name, atom(values[:n]))


rise = bytes((7 * i + 3) % 256 for i in range(4097))
of_byte_lengths = 0, 1, 300, 4096, 4097
of_word_lengths = 0, 1, 3, 64, 65
show("bytes", rise, of_byte_lengths, of_bytes)
for part, fill in (rise, 0), (rise[:20], 7), (b"", 2**64 - 1), (b"", 0), (bytes(8) + b"\n" + bytes(7), 0):
    for form, size in ("Q", 8), ("I", 4):
        whole = min(65, len(part) // size)
        loaded = struct.unpack(f"<{whole}{form}", part[: whole * size])
        show("words", loaded + (fill % 2 ** (8 * size),) * (65 - whole), of_word_lengths, of_words)
show("bytes", b"\xff" * 4097, of_byte_lengths, of_bytes)
