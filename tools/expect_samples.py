#!/usr/bin/env python3
"""Writes what the program `samples` has to print, for the page files of crates/samples/data.

It was written from Netpbm's manual pages pgm(5) and ppm(5), and shares nothing with the program.
A page file is read the manual's way, comments and any maximum included. Where the pnmtoplainpnm of
Netpbm is installed, what was read is compared with what that program reads. Only then are the
project's own limits applied to what the manual allows: which pages are refused, and at which byte.

    tools/expect_samples.py > crates/samples/stdout
"""
import pathlib
import re
import shutil
import subprocess
import sys

DATA = pathlib.Path(__file__).resolve().parent.parent / "crates" / "samples" / "data"

FILES = """netpbm_ramp.pgm netpbm_rainbow.ppm netpbm_grey.pgm netpbm_cut.ppm netpbm_short.ppm
netpbm_max15.pgm netpbm_plain.pgm imagemagick_gradient.pgm imagemagick_gradient.ppm
imagemagick_deep.pgm graphicsmagick_gradient.ppm ffmpeg_testsrc.ppm ffmpeg_mandelbrot.pgm
gimp_gradient.pgm""".split()

# Each of width, height and maximum: white space and comments before it, then decimal digits.
FIELD = re.compile(rb"((?:[ \t\n\v\f\r]|#[^\n\r]*[\n\r])+)([0-9]+)")
KINDS = {b"P5": ("grey", 1), b"P6": ("colour", 3)}


class Page:
    """A raw page: the fields with their places, and the samples, fewer where the file is short."""

    def __init__(self, data):
        self.kind, self.channels = KINDS[data[:2]]
        self.fields = []
        at = 2
        for _ in range(3):
            field = FIELD.match(data, at)
            self.fields.append((at, field.group(1), int(field.group(2))))
            at = field.end()
        self.width, self.height, self.maximum = (value for _, _, value in self.fields)
        assert data[at : at + 1].isspace()
        raster = data[at + 1 :]
        if self.maximum > 255:  # two bytes to a sample, the most significant first
            raster = [256 * a + b for a, b in zip(raster[0::2], raster[1::2])]
        self.samples = list(raster)[: self.width * self.height * self.channels]

    def whole(self):
        return len(self.samples) == self.width * self.height * self.channels


def check_with_netpbm(path, page):
    """Compares a whole page with Netpbm's own reading of the file."""
    plain = subprocess.run(["pnmtoplainpnm", path], capture_output=True, check=True).stdout.split()
    assert plain[0] == {"grey": b"P2", "colour": b"P3"}[page.kind], path
    numbers = [int(word) for word in plain[1:]]
    assert numbers == [page.width, page.height, page.maximum] + page.samples, path


def refusal(page):
    """The number and the byte, or None: a comment is 16 in its field, another maximum than 255 is 18."""
    for at, before, _ in page.fields:
        if b"#" in before:
            return 16, at
    return (18, page.fields[2][0]) if page.maximum != 255 else None


def lines(page):
    """Each place as a space and two hexadecimal digits a channel, hyphens where a byte is absent."""
    n = page.channels
    for row in range(page.height):
        text = ""
        for column in range(page.width):
            start = (row * page.width + column) * n
            place = page.samples[start : start + n]
            text += " " + ("".join("%02x" % s for s in place) if len(place) == n else "--" * n)
        yield text


def main():
    netpbm = shutil.which("pnmtoplainpnm")
    for name in FILES:
        data = (DATA / name).read_bytes()
        if data[:2] not in KINDS:
            print(f"{name}: refused, 15 at byte 0")
            continue
        page = Page(data)
        if netpbm and page.whole():
            check_with_netpbm(DATA / name, page)
        refused = refusal(page)
        if refused:
            print(f"{name}: refused, {refused[0]} at byte {refused[1]}")
            continue
        print(f"{name}: {page.kind}, {page.width} by {page.height}")
        for line in lines(page):
            print(line)
    if not netpbm:
        print("not compared with Netpbm: pnmtoplainpnm is not installed", file=sys.stderr)


main()
