#!/usr/bin/env python3
"""Pages that `demo` writes, read by Netpbm and by ImageMagick: python3 tools/check_written.py

Needs crates/demo/out/demo (make demo) and Debian's packages netpbm and imagemagick. Each sample page is printed with
several numbers of levels; what the two tools read is compared with samples that are worked out here.
"""
import re
import subprocess
import sys
import tempfile
from pathlib import Path

root = Path(__file__).resolve().parent.parent
WINDOW = (1, 2, 6, 12)  # top, left, height, width


def expected(data, steps):
    head = re.match(rb"P([56])\s+(\d+)\s+(\d+)\s+255\s", data)
    n = {b"5": 1, b"6": 3}[head[1]]
    width, height, raster = int(head[2]), int(head[3]), data[head.end():]
    top, left, rows, columns = WINDOW
    levels = [i * 255 // (steps - 1) for i in range(steps)]
    high, wide = min(rows, height - top), min(columns, width - left)
    out = bytearray()
    for r in range(high):
        for c in range(wide):
            at = ((top + r) * width + left + c) * n
            for x in raster[at:at + n]:
                out.append(min(levels, key=lambda y: abs(255 - x - y)))
    return n, wide, high, bytes(out)


def run(words, **more):
    return subprocess.run(words, check=True, capture_output=True, **more).stdout


def by_netpbm(path, n):
    words = run(["pnmtoplainpnm", path]).split()
    if words[0] == b"P1":
        bits = b"".join(words[3:])
        return int(words[1]), int(words[2]), bytes(0 if b == 49 else 255 for b in bits)
    return int(words[1]), int(words[2]), bytes(int(w) for w in words[4:])


def by_imagemagick(path, n):
    size = run(["identify", "-format", "%w %h", path]).split()
    raw = run(["convert", path, "-depth", "8", "gray:-" if n == 1 else "rgb:-"])
    return int(size[0]), int(size[1]), raw


failed = 0
with tempfile.TemporaryDirectory() as folder:
    for sample, steps in [("grain.pgm", s) for s in (2, 4, 6, 16, 256)] + [("board.ppm", s) for s in (2, 4, 6)]:
        data = (root / "samples" / sample).read_bytes()
        path = str(Path(folder) / "page")
        run([str(root / "crates/demo/out/demo"), path, str(steps)], input=data)
        n, wide, high, samples = expected(data, steps)
        letters = Path(path).read_bytes()[:2].decode()
        for name, reader in (("netpbm", by_netpbm), ("imagemagick", by_imagemagick)):
            same = reader(path, n) == (wide, high, samples)
            failed += not same
            print(f"{sample}, {steps} levels, {letters}, {name}: {'same' if same else 'DIFFERENT'}")
sys.exit(1 if failed else 0)
