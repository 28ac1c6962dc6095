#!/usr/bin/env python3
"""bench.py [WORKLOAD ..]: tables of the workloads, or those named, and of what bench_library measures.

seconds       of the processor, the least of three runs: they vary little with the load of the machine
instructions  counted by valgrind, where that is installed: they don't vary with the load of the machine
sqlite3       seconds of the sqlite3 shell, where that is installed, on the same workload as SQL: in memory, and in one transaction
same          whether both wrote the same lines
times         how many times the instructions of a plain engine, on workloads as a game gives them
one more      the instructions that one more of something costs, as differences of whole runs

The status is 1 where a program fails or what they wrote differs.
"""
import hashlib
import os
import re
import resource
import shutil
import subprocess
import sys
import tempfile

import differences
import engine
import untied
import workloads

TOP = os.path.realpath(os.path.join(os.path.dirname(os.path.realpath(__file__)), ".."))
# (the parts of bench_library, with their words)
PARTS = [
    ("indexes", []),
    ("query", ["terms", "1000"]),
    *(("world", [name, size]) for name in ("values", "tree", "felled", "pairs") for size in ("10000", "100000")),
    ("world", ["chain", "10000"]),
]
RUNS = 3
ENGINE_SIZES = [4_000, 16_000]

# Each entity of the chain asks all before it: under valgrind that takes some ten minutes.
UNCOUNTED = ["chain"]


def program(crate):
    return os.path.join(TOP, "crates", crate, "out", crate)


def processor_seconds():
    """The seconds that the processor was at work for all programs that were run and have ended."""
    used = resource.getrusage(resource.RUSAGE_CHILDREN)
    return used.ru_utime + used.ru_stime


def timed(words, script):
    """The least seconds of a few runs, and what the last of them wrote; None where one fails."""
    least, wrote = None, b""
    for _ in range(RUNS):
        with open(script, "rb") as given:
            begun = processor_seconds()
            ran = subprocess.run(words, stdin=given, stdout=subprocess.PIPE, check=False)
            took = processor_seconds() - begun
        if ran.returncode:
            return None, b""
        least, wrote = took if least is None else min(least, took), ran.stdout
    return least, wrote


def counted(words, script):
    """The instructions of a run; None without valgrind."""
    if not shutil.which("valgrind"):
        return None
    with tempfile.NamedTemporaryFile("r") as told, open(script, "rb") as given:
        call = ["valgrind", "--tool=callgrind", "--callgrind-out-file=/dev/null", f"--log-file={told.name}", *words]
        subprocess.run(call, stdin=given, stdout=subprocess.DEVNULL, check=False)
        found = re.search(r"Collected : (\d+)", told.read())
    return int(found[1]) if found else None


def row(name, size, seconds, count, other=None, same=None, places=3):
    cells = [f"{name:<20}{size:>9}"]
    cells.append(f"{seconds:>10.3f}" if seconds is not None else f"{'FAILED':>10}")
    cells.append(f"{count:>16,}" if count is not None else f"{'-':>16}")
    cells.append(f"{other:>10.{places}f}" if other is not None else f"{'-':>10}")
    cells.append(f"{'-' if same is None else 'yes' if same else 'NO':>6}")
    print("".join(cells), flush=True)


def without_counts(wrote):
    """(the counts are lines that SQL leaves out)"""
    return [line for line in wrote.splitlines() if not line.startswith(b"rows ")]


def run_workload(name, size, room):
    """One row of the table, and whether all went well."""
    script, sql = os.path.join(room, "script"), os.path.join(room, "sql")
    for file, text in ((script, workloads.script(name, size)), (sql, workloads.sql(name, size))):
        with open(file, "w", encoding="ascii") as it:
            it.write(text)
    seconds, wrote = timed([program("flecsq")], script)
    count = counted([program("flecsq")], script)
    if not shutil.which("sqlite3"):
        row(name, f"{size:,}", seconds, count)
        return seconds is not None
    other, answered = timed(["sqlite3", "-batch", "-bail", "-init", os.devnull, ":memory:"], sql)
    same = without_counts(wrote) == answered.splitlines()
    row(name, f"{size:,}", seconds, count, other, same)
    return seconds is not None and same


def run_beside_engine(name, room):
    """A row for each size at which the plain engine was measured, and whether all went well."""
    script, well = os.path.join(room, "script"), True
    for size in ENGINE_SIZES:
        if (name, size) not in engine.plain_engine():
            continue
        count_there, digest = engine.plain_engine()[name, size]
        with open(script, "w", encoding="ascii") as it:
            it.write(engine.script(name, size))
        seconds, wrote = timed([program("flecsq")], script)
        count = counted([program("flecsq")], script)
        same = hashlib.sha256(wrote).hexdigest() == digest
        times = count / count_there if count is not None else None
        row(name, f"{size:,}", seconds, count, times, same, places=2)
        well = well and seconds is not None and same
    return well


def run_untied(name, room):
    """A row for each size, and whether all went well."""
    script, well = os.path.join(room, "script"), True
    for size in untied.WORKLOADS[name][1]:
        with open(script, "w", encoding="ascii") as it:
            it.write(untied.script(name, size))
        seconds, _ = timed([program("flecsq")], script)
        row(name, f"{size:,}", seconds, counted([program("flecsq")], script))
        well = well and seconds is not None
    return well


def run_part(part, words):
    library = program("bench_library")
    if not os.path.isfile(library):
        print("bench_library is not built: make bench builds it")
        return False
    call = [library, part, *words]
    seconds, _ = timed(call, os.devnull)
    name = " ".join([part, *(it for it in words if not it.isdecimal())])
    count = None if any(it in UNCOUNTED for it in words) else counted(call, os.devnull)
    row(name, "".join(f"{int(it):,}" for it in words if it.isdecimal()), seconds, count)
    return seconds is not None


def run_differences(name, room):
    """A row with what one more costs, and whether it could be counted."""
    script, sum_of_counts = os.path.join(room, "script"), 0
    parts, number = differences.scripts(name)
    for sign, text in parts:
        with open(script, "w", encoding="ascii") as it:
            it.write(text)
        count = counted([program("flecsq")], script)
        if count is None:
            print(f"{name:<20}{'-':>9}")
            return True
        sum_of_counts += sign * count
    print(f"{name:<20}{sum_of_counts / number:>9,.0f}", flush=True)
    return True


def header(other):
    print(f"{'workload':<20}{'size':>9}{'seconds':>10}{'instructions':>16}{other:>10}{'same':>6}")


def main():
    known = [*workloads.WORKLOADS, *dict(PARTS), *engine.WORKLOADS, *untied.WORKLOADS, *differences.DIFFERENCES]
    chosen = sys.argv[1:] or known
    unknown = [it for it in chosen if it not in known]
    if unknown:
        print(f"bench.py: no workload is named {' '.join(unknown)}: there are {' '.join(known)}", file=sys.stderr)
        return 2
    header("sqlite3")
    with tempfile.TemporaryDirectory() as room:
        well = [run_workload(name, workloads.SIZES[name], room) for name in workloads.WORKLOADS if name in chosen]
        well += [run_part(part, words) for part, words in PARTS if part in chosen]
        header("times")
        well += [run_beside_engine(name, room) for name in engine.WORKLOADS if name in chosen]
        well += [run_untied(name, room) for name in untied.WORKLOADS if name in chosen]
        print(f"{'one more':<20}{'costs':>9}")
        well += [run_differences(name, room) for name in differences.DIFFERENCES if name in chosen]
    return 0 if all(well) else 1


if __name__ == "__main__":
    sys.exit(main())
