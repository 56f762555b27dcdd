#!/usr/bin/env python3
"""requests.py ORIGINAL: writes stdin, a few requests of each call that is answered here, and stdout, what the original's
program ORIGINAL answers to them. The last request is longer than a program takes; what it answers is in docs/QUESTIONS.md.
Of the calls on snapshots, tables and frames these are the first short ones of the fixed list, which tests/questions asks whole."""
import pathlib
import struct
import subprocess
import sys

HERE = pathlib.Path(__file__).parent
MOST = 2**64 - 1
LONGEST = 65536
STORE = 7, 8, 10, 11, 12, 13, 14, 15, 16, 17, 18, 19, 20, 23
OF_EACH = 12
SHORT = 600


def body(call, numbers=(), parts=()):
    text = bytes([call, len(numbers)]) + b"".join(struct.pack("<Q", n) for n in numbers)
    return text + bytes([len(parts)]) + b"".join(struct.pack("<I", len(p)) + p for p in parts)


def coordinates(metric, *bits):
    return body(5, [metric], [b"".join(struct.pack("<I", b) for b in bits)])


def of_the_fixed_list():
    stream = (HERE.parent.parent / "original" / "fixed" / "requests.bin").read_bytes()
    taken = dict.fromkeys(STORE, 0)
    at = 0
    while at < len(stream):
        (length,) = struct.unpack_from("<I", stream, at)
        request = stream[at + 4 : at + 4 + length]
        at += 4 + length
        call = request[0] if request else 0
        if length <= SHORT and taken.get(call, OF_EACH) < OF_EACH:
            taken[call] += 1
            yield request


RISING = bytes(i % 256 for i in range(LONGEST))


def of_bytes():
    for call in 1, 21:
        for length in 0, 1, 15, 16, 17, 511, 512, 600:
            yield body(call, parts=[RISING[:length]])
        yield body(call, parts=[b"123456789"])
    for call in 2, 22:
        yield body(call, parts=[b""])
        yield body(call, parts=["Frühstück 早餐 🥐 ".encode() * 20])
        for text in "f48fbfbf", "c080", "eda080", "f4908080", "ee8080", "80", "c3":
            yield body(call, parts=[bytes.fromhex(text)])


def of_settings():
    for d in 0, 1, 4096, MOST:
        yield body(3, [d])
    for d, m, ef in (1, 2, 2), (4096, 64, 4096), (1, 16, 200):
        yield body(4, [d, m, ef, MOST, 2])
    for d, m, ef in (0, 0, 0), (4097, 16, 200), (MOST, 16, 200):
        yield body(4, [d, m, ef, 42, 0])
    for m, ef in (1, 200), (65, 200), (2**32 + 2, 200), (16, 15), (16, 4097), (64, 2**32 + 64):
        yield body(4, [1, m, ef, 42, 1])
    for metric in 0, 1, 2:
        yield coordinates(metric, 0x3F800000)
        yield coordinates(metric, 0x80000000, 0)
        yield coordinates(metric, 0, 1, 0)
        yield coordinates(metric, 0, 0x7F7FFFFF)
        yield coordinates(metric, 0, 0x7F800000)
        yield coordinates(metric, 0xFFC00000, 0)
    yield coordinates(1, *[0x80000000] * 4096)
    for seed, count in (42, 0), (42, 1), (0, 100000), (MOST, MOST):
        yield body(6, [seed, count])


def malformed():
    yield b""
    for call in 0, 24, 255:
        yield body(call)
    for metric in 3, 2**32, MOST:
        yield body(4, [1, 16, 200, 42, metric])
        yield coordinates(metric, 0)
    for length in 0, 3, 6, 16388:
        yield body(5, [0], [bytes(length)])
    good = body(5, [1], [bytes(8)])
    for length in range(len(good)):
        yield good[:length]
    yield good + b"\0"
    yield body(5, [1], [bytes(8), b""])
    yield body(5, [1, 1], [bytes(8)])
    yield body(5, [], [bytes(8)])


def requests():
    yield from of_bytes()
    yield from of_settings()
    yield from malformed()
    yield from of_the_fixed_list()
    yield body(1, parts=[RISING[: LONGEST - 7]])


def main():
    stream = b"".join(struct.pack("<I", len(r)) + r for r in requests())
    answers = subprocess.run([sys.argv[1], "answer"], input=stream, stdout=subprocess.PIPE, check=True).stdout
    after = struct.pack("<I", 8) + body(1, parts=[b"a"])
    (HERE / "stdin").write_bytes(stream + struct.pack("<I", LONGEST + 1) + after)
    (HERE / "stdout").write_bytes(answers + b"too large\n.\n")


if __name__ == "__main__":
    main()
