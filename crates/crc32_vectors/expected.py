# python3 expected.py > stdout: the CRCs by zlib, not by the code under test
from zlib import crc32

published = [b"", b"a", b"abc", b"123456789", b"message digest", b"abcdefghijklmnopqrstuvwxyz",
             b"The quick brown fox jumps over the lazy dog"]
patterns = [bytes(32), b"\xff" * 32, bytes(range(32)), bytes(range(31, -1, -1))]
filled = bytes((7 * i + 3) % 256 for i in range(20000))
ranges = [(0, 71), (255, 258), (380, 405), (1023, 1026), (4094, 4099), (10594, 10599), (18787, 18790)]
runs = [filled[:n] for r in ranges for n in range(*r)]
for s in published + patterns + runs:
    print(len(s), *["%08x" % crc32(s)] * 3)
