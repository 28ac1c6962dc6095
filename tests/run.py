#!/usr/bin/env python3
"""run.py test: all tests that need no proof, against the proved program where it is up to date, else against one that is built without proofs.
run.py gate: the gate, then the same tests against the program that it proved.

Each ends with its count. The gate is not begun where a source file is not laid out: it would refuse that file's crate after its proof, and with it
all above. After the gate, where its minutes went stands before the last line.
"""
import argparse
import os
import re
import subprocess
import sys
import time

import c_library
import docs
import first_run
import layout
import minutes
import orders
import pages
import picture
import pipe
import program
import rows

TOP = os.path.realpath(os.path.join(os.path.dirname(os.path.realpath(__file__)), ".."))
sys.path.append(os.path.join(TOP, "tools"))

import build

COUNTS = re.compile(r"(\d+) passed, (\d+) failed")

# What the dearest check takes, with some to spare, and what two builds without proofs take at a time, in KB.
ROOM_OF_A_CHECK = 5 * 1024 * 1024
ROOM_OF_TWO_BUILDS = 5 * 1024 * 1024


def free_memory():
    """How much memory is free, in KB: 0 where nothing tells it."""
    try:
        with open("/proc/meminfo", encoding="ascii") as it:
            return int(re.search(r"MemAvailable:\s+(\d+)", it.read())[1])
    except (OSError, TypeError):
        return 0


def environment():
    """The environment of the gate. Where memory is free for it, as many checks run at a time as there are processors: rt itself puts off checks by
    an estimate of their memory that is several times too high."""
    found = dict(os.environ)
    processors = len(os.sched_getaffinity(0))
    if free_memory() >= processors * ROOM_OF_A_CHECK:
        found.setdefault("RT_JOBS", str(processors))
    return found


def run_gate(spent):
    """Runs `rt ci`, shows what it prints, and returns how much passed and failed."""
    counts = None
    begun = {"cwd": TOP, "env": environment(), "stdin": subprocess.DEVNULL, "stdout": subprocess.PIPE}
    with subprocess.Popen(["rt", "ci"], **begun, text=True, errors="replace") as gate:
        spent.start_gate(gate.pid)
        for line in gate.stdout:
            found = COUNTS.fullmatch(line.strip())
            if found:
                counts = int(found[1]), int(found[2])
                print(f"the gate: passed {counts[0]}, failed {counts[1]}", flush=True)
            else:
                print(line, end="", flush=True)
    spent.end_gate()
    if counts is None:
        print("the gate ended without its count")
        return 0, 1
    passed, failed = counts
    return passed, failed or int(gate.returncode != 0)


def succeeds(*words):
    """One test: whether a tool ends with status 0. What it says is shown where it doesn't."""
    ran = subprocess.run([sys.executable, *words], cwd=TOP, stdout=subprocess.PIPE, stderr=subprocess.STDOUT, text=True, check=False)
    if ran.returncode:
        print(ran.stdout, end="")
    return (0, 1) if ran.returncode else (1, 0)


def tests_of(built):
    """The parts of the tests, each with what runs it. Those that need the program come last, and get it."""
    return [
        ("layout of the sources", lambda: (0, 1) if layout.main() else (1, 0)),
        ("pages", pages.run),
        ("definitions listed", lambda: succeeds("tools/believe.py", "--check")),
        ("worked rows", lambda: succeeds("tools/worked_rows.py", "--check")),
        ("texts of edits", lambda: succeeds("tools/edits.py", "--crates", "all", "--tier", "both", "--check-texts")),
        ("first run", first_run.run),
        ("picture", lambda: picture.run(built)),
        ("rows", lambda: rows.run(built)),
        ("scripts of pages", lambda: docs.run(built)),
        ("program from outside", lambda: program.run(built)),
        ("client over the pipe", lambda: pipe.run(built)),
        ("library for C", c_library.run),
        ("queries made at random", lambda: orders.run(built)),
    ]


def run_tests(built):
    """Runs all tests against a program, tells how long each part took, and returns how much passed and failed."""
    os.environ["FLECSQ_BUILD"] = "proved" if built == build.PROVED else "unproved"
    counts = []
    for name, run in tests_of(built):
        begun = time.monotonic()
        passed, failed = run()
        counts.append((passed, failed))
        print(f"{name}: {passed} right, {failed} wrong, {time.monotonic() - begun:.1f} s", flush=True)
    return [sum(it) for it in zip(*counts)]


def tell_minutes(spent):
    """Prints where the minutes went. Whatever happens here, the counts stand."""
    try:
        print("\n".join(spent.table(minutes.lines_of_code(TOP))))
    except Exception as error:
        print(f"minutes: {error!r}")


def build_all():
    """Builds the program and the library where they aren't up to date, side by side where there is memory for both, and returns the program.
    Where the library can't be built, its own test says so."""
    if free_memory() < ROOM_OF_TWO_BUILDS:
        return build.program()
    quiet = {"stdin": subprocess.DEVNULL, "stdout": subprocess.DEVNULL, "stderr": subprocess.DEVNULL}
    with subprocess.Popen([sys.executable, os.path.join(TOP, "tools", "library.py"), "build"], **quiet):
        return build.program()


def test():
    built = build_all()
    build.tell_where(built)
    return run_tests(built)


def gate():
    if layout.main():
        return 0, 1
    spent = minutes.Minutes()
    passed, failed = run_gate(spent)
    if os.path.isfile(build.PROVED):
        right, wrong = run_tests(build.PROVED)
        passed, failed = passed + right, failed + wrong
    else:
        print("there is no program to test")
        failed += 1
    tell_minutes(spent)
    return passed, failed


def main():
    parser = argparse.ArgumentParser(description=__doc__, formatter_class=argparse.RawDescriptionHelpFormatter)
    parser.add_argument("part", choices=("test", "gate"))
    part = parser.parse_args().part
    if not build.has_toolchain():
        return 2
    try:
        passed, failed = {"test": test, "gate": gate}[part]()
    except build.Missing as missing:
        print(missing, file=sys.stderr)
        return 2
    print(f"{passed} passed, {failed} failed")
    return 1 if failed or not passed else 0


if __name__ == "__main__":
    sys.exit(main())
