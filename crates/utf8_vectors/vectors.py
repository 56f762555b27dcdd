#!/usr/bin/env python3
# vectors.py: writes `stdin` and `stdout` beside it. The cases are the rows of RFC 3629, section 4, which are those of the Unicode standard's
# table of well-formed byte sequences: the first and the last of each row, each octet one below and one above its bounds, each cut off;
# lone tails, leads that no row has, forms of 5 and 6 octets, surrogates; captions; and ASCII with one octet that is not, at each place of
# 72. What is expected is what Python's bytes.decode('utf-8') says of each: y or n, and where it stops.
import os

T = (0x80, 0xBF)
ROWS = [
    [(0x00, 0x7F)],
    [(0xC2, 0xDF), T],
    [(0xE0, 0xE0), (0xA0, 0xBF), T],
    [(0xE1, 0xEC), T, T],
    [(0xED, 0xED), (0x80, 0x9F), T],
    [(0xEE, 0xEF), T, T],
    [(0xF0, 0xF0), (0x90, 0xBF), T, T],
    [(0xF1, 0xF3), T, T, T],
    [(0xF4, 0xF4), (0x80, 0x8F), T, T],
]

cases = [b""]
for row in ROWS:
    first = bytes(low for low, high in row)
    last = bytes(high for low, high in row)
    for whole in (first, last):
        cases.append(whole)
        cases.append(b"a" + whole + b"z")
        cases += [whole[:n] for n in range(1, len(whole))]
        cases += [whole[:n] + b"z" for n in range(1, len(whole))]
        cases += [whole + whole[:n] for n in range(1, len(whole))]
    for i, (low, high) in enumerate(row):
        for edge in (low - 1, high + 1, 0x00, 0x7F, 0xC0, 0xFF):
            if 0 <= edge <= 255:
                for whole in (first, last):
                    cases.append(whole[:i] + bytes([edge]) + whole[i + 1:])
cases += [bytes([b]) for b in range(0x80, 0x100)]
cases += [bytes([b, 0x80]) for b in range(0xC0, 0x100)]
cases += [bytes([b, 0x80, 0x80]) for b in range(0xC0, 0x100)]
cases += [bytes([b, 0x90, 0x80, 0x80]) for b in range(0xC0, 0x100)]
cases += [bytes([b]) + bytes([0x88] + [0x80] * n) for b in (0xF8, 0xFB, 0xFC, 0xFD, 0xFE, 0xFF) for n in (2, 3, 4, 5)]
cases += [bytes([0xC0, 0x80]), bytes([0xC1, 0xBF]), bytes([0xE0, 0x80, 0x80]), bytes([0xE0, 0x9F, 0xBF]), bytes([0xF0, 0x80, 0x80, 0x80]), bytes([0xF0, 0x8F, 0xBF, 0xBF])]
for lone in (0xD7FF, 0xD800, 0xDB7F, 0xDB80, 0xDBFF, 0xDC00, 0xDF80, 0xDFFF, 0xE000):
    cases.append(bytes([0xE0 | lone >> 12, 0x80 | lone >> 6 & 0x3F, 0x80 | lone & 0x3F]))
cases.append(bytes([0xED, 0xA0, 0x80, 0xED, 0xB0, 0x80]))
for text in ("Außenminister trifft Präsidentin", "Élysée, à l'aube, façade éclairée", "Πυρκαγιά στην Εύβοια 2-1", "首相、東京で記者会見を行う", "😀🎉 Köln 2:1 ⚽ 東京 🗼", "\u0000\u007f\u0080\u07ff\u0800\ud7ff\ue000\uffff\U00010000\U0010ffff"):
    caption = text.encode()
    cases += [caption[:n] for n in range(1, len(caption) + 1)]
plain = bytes(0x61 + i % 26 for i in range(72))
for n in range(73):
    cases.append(plain[:n])
for i in range(72):
    for odd in (b"\x80", b"\xc3\xa9", b"\xff"):
        cases.append((plain[:i] + odd + plain[i + len(odd):])[:72])


def expected(case):
    try:
        case.decode("utf-8")
        return "y %d" % len(case)
    except UnicodeDecodeError as e:
        return "n %d" % e.start


here = os.path.dirname(os.path.abspath(__file__))
given = "".join(case.hex().upper() + "\n" for case in cases)
assert len(given) <= 65536 and max(map(len, cases)) <= 128, len(given)
with open(os.path.join(here, "stdin"), "w") as f:
    f.write(given)
with open(os.path.join(here, "stdout"), "w") as f:
    f.write("".join(expected(case) + "\n" for case in cases))
