#!/usr/bin/env python3
"""Respells this repository's own definitions and lemmas: snake case for words, camel case for facts and types.

Run once at the top of the checkout, after the kit's port.py. Definitions and lemmas are found by their
signatures in crates/*/specs and crates/*/proofs; what the check generates (goals, steps) keeps its dashes.
Comments and strings stay as they are.
"""
import glob
import re
import sys

# names that would fall together with a function of src/ or a word of the library
APART = {
    "cellAt-in": "cell_at_in",
    "cellAt-out": "cell_at_out",
    "G-abs": "g_abs",
    "sums-answer": "sums_answer_lem",
    "mark-at": "mark_told",
    "missing-in-row": "missing_of_row",
    "first-missing": "missing_of_page",
    "bit-or": "bit_of_or",
    "bit-and": "bit_of_and",
    "place-bit": "bit_of_place",
    "row-byte": "byte_of_row",
}
SIGNED = re.compile(r"\s*(?:(?:abbrev|unfoldable) )?(?:pub )?(?:(?:record|data) (\S+)\b.*|(\S+)) :(?:\s|$)(.*)")
TOKEN = re.compile(r"[^\s(){};,.\[\]|\\\"`]+")


def files(*patterns):
    for pattern in patterns:
        yield from sorted(glob.glob(pattern, recursive=True))


def respelled(name):
    if name in APART:
        return APART[name]
    if name[0].isupper():
        return "".join(word[0].upper() + word[1:] for word in name.split("-"))
    return name.replace("-", "_")


def defined():
    found = {}
    for path in files("crates/*/specs/**/*.antt", "crates/*/proofs/**/*.antt"):
        with open(path) as f:
            for line in f:
                m = SIGNED.match(line)
                if not m:
                    continue
                name = m.group(1) or m.group(2)
                of_goal = not m.group(1) and m.group(3).startswith(("goal.", "need."))
                if "-" in name and not name.startswith("-") and not of_goal:
                    found[name] = respelled(name)
    return found


def turn(text, names):
    return TOKEN.sub(lambda m: names.get(m.group(0), m.group(0)), text)


def turn_code(line, names):
    """A line of Rust: neither its comment nor its strings."""
    parts = re.split(r'("(?:[^"\\]|\\.)*"|//.*$)', line)
    return "".join(p if i % 2 else turn(p, names) for i, p in enumerate(parts))


def main():
    names = defined()
    new = list(names.values())
    both = sorted({n for n in new if new.count(n) > 1})
    if both:
        sys.exit(f"names that fall together: {both}")
    for path in files("crates/*/specs/**/*.antt", "crates/*/proofs/**/*.antt", "crates/*/src/**/*.rt", "crates/*/must-fail/*.edit"):
        with open(path) as f:
            lines = f.read().split("\n")
        if path.endswith(".antt"):
            turned = [line if line.lstrip().startswith("--") else turn(line, names) for line in lines]
        else:
            turned = [turn_code(line, names) for line in lines]
        if turned != lines:
            with open(path, "w") as f:
                f.write("\n".join(turned))
    print(f"{len(names)} names respelled")


if __name__ == "__main__":
    main()
