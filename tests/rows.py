#!/usr/bin/env python3
"""rows.py PROGRAM [ROW ..]: runs each row of tests/rows, or those named, against the program.

A row is a folder with `script` (or `script.gz`), given on standard input, `output`, what must be written byte for byte, and
`status`, the exit status.
"""
import difflib
import gzip
import os
import subprocess
import sys

ROWS = os.path.join(os.path.dirname(os.path.realpath(__file__)), "rows")
SECONDS = 120


def read(row, part):
    with open(os.path.join(ROWS, row, part), "rb") as file:
        return file.read()


def script_of(row):
    if os.path.exists(os.path.join(ROWS, row, "script.gz")):
        return gzip.decompress(read(row, "script.gz"))
    return read(row, "script")


def first_differences(wanted, got):
    wanted, got = (text.decode("utf-8", "replace").splitlines() for text in (wanted, got))
    lines = [line for line in difflib.unified_diff(wanted, got, lineterm="", n=0) if not line.startswith(("---", "+++", "@@"))]
    return " | ".join(line[:100] for line in lines[:4]) or "the line ends differ"


def complaints_of(program, row):
    """What is wrong with the program's answer to a row: nothing, where it passes."""
    try:
        ran = subprocess.run([program], input=script_of(row), stdout=subprocess.PIPE, stderr=subprocess.PIPE, timeout=SECONDS)
    except subprocess.TimeoutExpired:
        return [f"no end after {SECONDS} seconds"]
    wanted, status = read(row, "output"), int(read(row, "status"))
    complaints = []
    if ran.stdout != wanted:
        complaints.append("- wanted, + got: " + first_differences(wanted, ran.stdout))
    if ran.returncode != status:
        complaints.append(f"status {ran.returncode}, wanted {status}")
    if status < 2 and ran.stderr:
        complaints.append("something on standard error: " + ran.stderr.decode("utf-8", "replace")[:100])
    return complaints


def run(program, only=()):
    passed = failed = 0
    for row in sorted(os.listdir(ROWS)):
        if only and row not in only:
            continue
        complaints = complaints_of(program, row)
        if complaints:
            print(f"row {row} FAILED: {'; '.join(complaints)}")
            failed += 1
        else:
            passed += 1
    return passed, failed


if __name__ == "__main__":
    sys.exit(1 if run(os.path.abspath(sys.argv[1]), sys.argv[2:])[1] else 0)
