#!/usr/bin/env python3
"""docs.py PROGRAM: runs each script of the pages and of examples/, and compares what it prints; and compares the code of READMEs with its sources.

In PAGES a block that begins with ```flecsq is a script, and the block after it, which begins with ```output, is what it prints. A block of
no kind is wrong, so that no script is left out. examples/NAME.flecsq prints examples/NAME.output. Each block under `## By example` of a crate's
README, and under `## A first program` of docs/LIBRARY.md, stands in the file to which the line above it links, word for word: how far it is indented
doesn't matter, and a line `// ..` stands for lines that are left out.
"""
import glob
import os
import re
import subprocess
import sys
import textwrap

TOP = os.path.realpath(os.path.join(os.path.dirname(os.path.realpath(__file__)), ".."))
PAGES = ("README.md", "docs/LANGUAGE.md", "docs/FLECS.md")
BLOCK = re.compile(r"^```(\w*)\n(.*?)^```$", re.M | re.S)
SHOWN = re.compile(r"^## (?:By example|A first program)$.*?(?=^## |\Z)", re.M | re.S)
SOURCE = re.compile(r"\]\(([^()]+(?:\.rt|/stdout))\)")
CUT = re.compile(r"^ *// \.\.$", re.M)
SECONDS = 60


def read(path):
    with open(os.path.join(TOP, path), encoding="utf-8") as file:
        return file.read()


def scripts_of(page):
    """The scripts of a page: for each its place, its text, and what it prints, None where no output follows it."""
    text = read(page)
    blocks = [(found[1], found[2], f"{page}:{text.count(chr(10), 0, found.start()) + 1}") for found in BLOCK.finditer(text)]
    for (kind, body, place), (next_kind, next_body, _) in zip(blocks, [*blocks[1:], ("", "", "")]):
        if kind in ("flecsq", ""):
            yield place, body, next_body if (kind, next_kind) == ("flecsq", "output") else None


def examples():
    for path in sorted(glob.glob(os.path.join(TOP, "examples", "*.flecsq"))):
        output = path[: -len("flecsq")] + "output"
        yield os.path.relpath(path, TOP), read(path), read(output) if os.path.exists(output) else None


def complaint_of(program, script, wanted):
    """What is wrong with the program's answer to a script: nothing, where it is as written."""
    if wanted is None:
        return "it is no script with its output after it"
    ran = subprocess.run([program], input=script.encode(), stdout=subprocess.PIPE, stderr=subprocess.PIPE, timeout=SECONDS, check=False)
    if ran.stdout != wanted.encode():
        return "it prints\n" + ran.stdout.decode("utf-8", "replace")
    status = 1 if re.search(r"^error ", wanted, re.M) else 0
    return None if (ran.returncode, ran.stderr) == (status, b"") else f"its status is {ran.returncode}, or standard error isn't empty"


def shown_code():
    """The code of pages: for each block its place, its text, and the source file to which the line above it links, None where it links to none."""
    for path in [*sorted(glob.glob(os.path.join(TOP, "crates", "*", "README.md"))), os.path.join(TOP, "docs", "LIBRARY.md")]:
        page = os.path.relpath(path, TOP)
        text = read(page)
        for section in SHOWN.finditer(text):
            for found in BLOCK.finditer(text, *section.span()):
                above = SOURCE.search(text[section.start() : found.start()].rstrip().rsplit("\n", 1)[-1])
                source = above and os.path.normpath(os.path.join(os.path.dirname(page), above[1]))
                yield f"{page}:{text.count(chr(10), 0, found.start()) + 1}", found[2], source


def unindented(lines):
    return textwrap.dedent("\n".join(lines))


def missing_code(code, lines):
    """The first piece of some code that doesn't stand in these lines, behind the pieces before it; None where all do."""
    at = 0
    for piece in CUT.split(code):
        wanted = piece.strip("\n").split("\n")
        places = range(at, len(lines) - len(wanted) + 1)
        found = next((it for it in places if unindented(lines[it : it + len(wanted)]) == unindented(wanted)), None)
        if found is None:
            return piece
        at = found + len(wanted)
    return None


def strange_code(code, source):
    """What is wrong with the code of a page: nothing, where it stands in its source file."""
    if source is None or not os.path.isfile(os.path.join(TOP, source)):
        return "the line above it links to no source file"
    missing = missing_code(code, read(source).split("\n"))
    return None if missing is None else f"this isn't in {source}, or not in this order\n{missing}"


def complaints(program):
    """What is wrong with each script and with each block of code: for each its place, and nothing where it is right."""
    for place, script, wanted in [*(it for page in PAGES for it in scripts_of(page)), *examples()]:
        yield place, complaint_of(program, script, wanted)
    for place, code, source in shown_code():
        yield place, strange_code(code, source)


def run(program):
    passed = failed = 0
    for place, complaint in complaints(program):
        if complaint:
            print(f"{place} FAILED: {complaint}")
            failed += 1
        else:
            passed += 1
    return passed, failed


if __name__ == "__main__":
    sys.exit(1 if run(os.path.abspath(sys.argv[1]))[1] else 0)
