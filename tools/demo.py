#!/usr/bin/env python3
"""demo.py: what a proof refuses, in two minutes. On a copy under out/demo it proves a small crate, makes one wrong change, shows why the check
refuses that, puts it back, and proves the crate again."""
import os
import re
import shutil
import subprocess
import sys
import time

TOP = os.path.realpath(os.path.join(os.path.dirname(os.path.realpath(__file__)), ".."))
PLACE = os.path.join(TOP, "out", "demo")
CRATE, FILE, FUNCTION, CLAUSE = "ecs_id", "src/lib.rt", "pub fn pair(", "ensures { result ≡ pair relationship target }"
RIGHT = "PAIR_BIT + u64::from(relationship) * SHIFT + u64::from(target)"
WRONG = "PAIR_BIT + u64::from(target) * SHIFT + u64::from(relationship)"

PROVED = re.compile(r"logic=proved functions=(\d+)")
VALUES = re.compile(r"the known facts allow (.*?)(?:, and \d+ more)?:? help")
VALUE = re.compile(r"`c\.args\.(\w+)` = `([^`]*)`")


def copy():
    shutil.rmtree(PLACE, ignore_errors=True)
    source, made = os.path.join(TOP, "crates", CRATE), os.path.join(PLACE, "crates", CRATE)
    shutil.copytree(source, made, ignore=shutil.ignore_patterns("out", "must-fail"))
    with open(os.path.join(PLACE, "crates.txt"), "w", encoding="utf-8") as file:
        file.write(f"{CRATE}:\n")
    return made


def check(folder):
    """Whether the crate is proved, what the check printed, and how long it took."""
    begun = time.monotonic()
    streams = {"stdin": subprocess.DEVNULL, "stdout": subprocess.PIPE, "stderr": subprocess.STDOUT}
    ran = subprocess.run(["rt", "check"], cwd=folder, **streams, text=True, errors="replace", check=False)
    return PROVED.search(ran.stdout), ran.stdout, time.monotonic() - begun


def shown(text):
    """The function that is changed, with its contract."""
    return text[text.index(FUNCTION) :].split("\n    }\n", 1)[0] + "\n    }"


def replace(path, old, new):
    with open(path, encoding="utf-8") as file:
        text = file.read()
    with open(path, "w", encoding="utf-8") as file:
        file.write(text.replace(old, new, 1))
    return text


def refusal(printed):
    """Values under which the contract is false, as the check tells them."""
    values = VALUES.search(printed)
    found = VALUE.findall(values[1]) if values else []
    example = f", for example where {' and '.join(f'{name} is {value}' for name, value in found)}" if found else ""
    return f"`{CLAUSE}` doesn't hold{example}."


def main():
    folder = copy()
    path = os.path.join(folder, FILE)
    print(f"Proving {CRATE}, the ids of entities and pairs.", flush=True)
    proved, printed, seconds = check(folder)
    if not proved:
        print(printed)
        return 1
    print(f"Proved: {proved[1]} functions, in {seconds:.0f} s. One of them:\n")
    text = replace(path, RIGHT, WRONG)
    print(f"    {shown(text)}\n\nNow with relationship and target in each other's place:\n\n    {WRONG}\n", flush=True)
    is_proved, printed, seconds = check(folder)
    if is_proved:
        print("The wrong change is proved: that must not be.")
        return 1
    print(f"Refused, in {seconds:.0f} s: {refusal(printed)}", flush=True)
    replace(path, WRONG, RIGHT)
    proved, printed, seconds = check(folder)
    if not proved:
        print(printed)
        return 1
    print(f"\nPut back, and proved again, in {seconds:.0f} s. All of it was done on a copy, {os.path.relpath(folder)}.")
    return 0


if __name__ == "__main__":
    sys.exit(main())
