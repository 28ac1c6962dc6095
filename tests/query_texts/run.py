#!/usr/bin/env python3
"""Runs the texts of `cases` as queries of one script, and compares what is told of each with its answer.

`run.py PROGRAM`, where PROGRAM reads a script on standard input. A text without fault may be answered by rows or by any refusal
that isn't a fault of its text. It prints a line for each text that is answered otherwise, and ends with status 1 if there is one.
"""

import json
import pathlib
import re
import subprocess
import sys

FAULT = re.compile(r"error (\d+) (\w+ \d+\.\.\d+)$")


def main(program):
    lines = (pathlib.Path(__file__).parent / "cases").read_text().splitlines()
    cases = [line.split("\t") for line in lines]
    script = [f"entity {name}" for name in ("Sun", "Moon", "Planet", "Position", "Likes")]
    first = len(script) + 1
    script += ["query " + json.loads(text) for text, answer in cases]
    written = subprocess.run(program, input="".join(line + "\n" for line in script).encode(), capture_output=True).stdout
    faults = dict(found.groups() for found in map(FAULT.match, written.decode().splitlines()) if found)
    wrong = 0
    for number, (text, answer) in enumerate(cases, first):
        told = faults.get(str(number), "ok")
        if told != answer:
            wrong += 1
            print(f"{text}: {told}, and not {answer}")
    print(f"{len(cases) - wrong} as they should be, {wrong} not")
    return wrong > 0


if __name__ == "__main__":
    sys.exit(main(sys.argv[1:]))
