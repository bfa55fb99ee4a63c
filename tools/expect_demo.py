#!/usr/bin/env python3
"""Prints what `demo` must print for the page in a file: python3 tools/expect_demo.py PAGE > crates/demo/stdout

Written from docs/, on its own: it shares no code with the program, and reads the page in one pass with a regular
expression.
"""
import re
import sys

WINDOW = (1, 2, 6, 12)  # top, left, height, width
MARKS = "@%#*+=-:. "


def parse(data):
    head = re.match(rb"P([56])[ \t\r\n]+(\d{1,5})[ \t\r\n]+(\d{1,5})[ \t\r\n]+255[ \t\r\n]", data)
    channels = {b"5": 1, b"6": 3}[head[1]]
    width, height = int(head[2]), int(head[3])
    raster = data[head.end():]
    page = {}
    for row in range(height):
        for column in range(width):
            at = (row * width + column) * channels
            place = raster[at:at + channels]
            page[row, column] = tuple(place) if len(place) == channels else None
    return channels, width, height, page


def stage(name, width, height, tone, where):
    print(f"{name}: {width} wide, {height} high")
    for row in range(min(height, 20)):
        line = ""
        for column in range(min(width, 72)):
            t = tone(row, column)
            line += "?" if t is None else MARKS[sum(t) // len(t) * 10 // 256]
        print(line)
    for row in range(height):
        for column in range(width):
            if tone(row, column) is None:
                r, c = where(row, column)
                print(f"first missing place of the {name}: fault 8, layer 0, row {r}, column {c}")
                return


channels, width, height, page = parse(open(sys.argv[1], "rb").read())
top, left, rows, columns = WINDOW
high, wide = max(0, min(rows, height - top)), max(0, min(columns, width - left))
print(f"read a {'grey' if channels == 1 else 'colour'} page")
stage("page", width, height, lambda r, c: page[r, c], lambda r, c: (r, c))
print(f"cropped to {rows} rows and {columns} columns at row {top}, column {left}")
below = lambda r, c: page[top + r, left + c]
stage("window", wide, high, below, lambda r, c: (top + r, left + c))
print("turned to its negative")
turn = lambda t: None if t is None else tuple(255 - x for x in t)
stage("negative", wide, high, lambda r, c: turn(below(r, c)), lambda r, c: (top + r, left + c))

# The negative printed with equal levels, 4 for grey and 2 for each channel of colour; a missing place is ink 0, which is
# black. The page that is written reads back as the tones of the inks.
steps = 4 if channels == 1 else 2
levels = [i * 255 // (steps - 1) for i in range(steps)]
black = (0,) * channels
level = lambda x: min(levels, key=lambda y: abs(x - y))
inked = lambda t: black if t is None else tuple(level(x) for x in t)
print(f"printed with the nearest of {steps ** channels} inks")
written = f"P{5 if channels == 1 else 6}\n{wide} {high}\n255\n"
print(f"wrote a page of {len(written) + wide * high * channels} bytes")
stage("written page", wide, high, lambda r, c: inked(turn(below(r, c))), lambda r, c: (r, c))
