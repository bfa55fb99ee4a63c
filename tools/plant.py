#!/usr/bin/env python3
"""Plants the bugs of tools/bugs.txt, one at a time, in a copy of the repository, and asks the prover.

    python3 tools/plant.py            all of them
    python3 tools/plant.py CRATE ..   those of some crates

Prints a row of a table for each: refused, with the functions that are then not proved, SURVIVED, or NOT CHECKED where the
prover gave no verdict, as on code that is no longer Rattle. Exit status 1 unless all are refused.
"""
import re
import shutil
import subprocess
import sys
import tempfile
from pathlib import Path

root = Path(__file__).resolve().parent.parent


def bugs():
    for line in (root / "tools/bugs.txt").read_text().splitlines():
        if line and not line.startswith("#"):
            yield [part.strip() for part in line.split(" || ")]


def judge(copy, crate):
    run = subprocess.run(["rt", "check"], cwd=copy / "crates" / crate, capture_output=True, text=True, errors="replace")
    out = run.stdout + run.stderr
    bad = re.findall(r"^fn (\S+): (?:no proof|not proved)", out, re.M)
    errors = re.findall(r"error(?:\[[\w-]+\])?: .*", out)
    if run.returncode == 0 and "logic=proved" in out:
        return "SURVIVED", ""
    if "logic=not-proved" not in out:
        return "NOT CHECKED", (errors[0] if errors else "no verdict")[:120]
    # of the functions that fail, those that do so by themselves
    own = [f for f in bad if not re.search(re.escape(f) + r": (?:no proof|not proved)[^\n]*it calls", out)] or bad
    return "refused", ", ".join(own[:3]) if own else (errors[0] if errors else "no verdict")[:120]


def main():
    wanted = set(sys.argv[1:])
    worst = 0
    with tempfile.TemporaryDirectory() as folder:
        copy = Path(folder) / "copy"
        shutil.copytree(root, copy, ignore=shutil.ignore_patterns(".git", "out"))
        for crate, name, old, new, what in bugs():
            if wanted and crate not in wanted:
                continue
            file = copy / "crates" / crate / name
            text = file.read_text()
            if text.count(old) != 1:
                print(f"| {crate} | {what} | NOT PLANTED: the text stands {text.count(old)} times |", flush=True)
                worst = 1
                continue
            file.write_text(text.replace(old, new))
            verdict, where = judge(copy, crate)
            file.write_text(text)
            worst |= verdict != "refused"
            print(f"| {crate} | {what} | {verdict} | {where} |", flush=True)
    return worst


sys.exit(main())
