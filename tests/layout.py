#!/usr/bin/env python3
"""layout.py: whether each source file is laid out as `rt fmt` lays it out. Prints those that aren't; the status is 0 where there are none.

The gate refuses a crate with such a file only when its proof has ended, and then judges nothing above it. So this is asked first.
"""
import os
import shutil
import subprocess
import sys
import tempfile

TOP = os.path.realpath(os.path.join(os.path.dirname(os.path.realpath(__file__)), ".."))
CRATES = os.path.join(TOP, "crates")
PARTS = ("src", "specs", "proofs")
FORMATTED = "rt: formatted "


def unformatted():
    """The source files, by their paths below crates/, that `rt fmt` would lay out otherwise. It is run on a copy of all crates as one."""
    with tempfile.TemporaryDirectory() as copy:
        for crate in sorted(os.listdir(CRATES)):
            for part in PARTS:
                folder = os.path.join(CRATES, crate, part)
                if os.path.isdir(folder):
                    shutil.copytree(folder, os.path.join(copy, part, crate))
        ran = subprocess.run(["rt", "fmt"], cwd=copy, stdin=subprocess.DEVNULL, capture_output=True, text=True, errors="replace", check=False)
        changed = [line[len(FORMATTED) :] for line in ran.stdout.splitlines() if line.startswith(FORMATTED)]
        if ran.returncode and not changed:
            said = ran.stderr.strip() or ran.stdout.strip() or f"rt fmt ended with status {ran.returncode}"
            return [said.replace(copy + os.sep, "")]
    # (a copy's PART/CRATE/REST is the repository's CRATE/PART/REST)
    parts = [path.split("/", 2) for path in changed]
    return [f"{crate}/{part}/{rest}" for part, crate, rest in parts]


def main():
    files = unformatted()
    for file in files:
        print(f"not laid out (run rt fmt in its crate): {file}")
    return 1 if files else 0


if __name__ == "__main__":
    sys.exit(main())
