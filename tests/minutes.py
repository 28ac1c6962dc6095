#!/usr/bin/env python3
"""Where the processor minutes of the gate go, by looking at its processes from outside.

Twice a second all processes below the gate are looked at: what each has used so far counts for the crate that its
words name, as a proof, a test or an edit. What no such process explains counts as other. Where the system tells nothing of its
processes, all of it does. Nothing here has a part in the verdict.
"""
import os
import re
import resource
import threading
import time

# The gate's budget, in processor minutes: for each 1,000 lines of code (all .rt files of the crates), and in all.
BUDGET_A_THOUSAND_LINES = 5
BUDGET_IN_ALL = 300

KINDS = ("proofs", "tests", "edits", "other", "outside")
WORDS = {"other": "other (rt itself, linking, runs too short to see)", "outside": "rows and the program from outside"}
DEAREST = 5
SECONDS = 0.5


class Process:
    """A process below the gate, as it was seen last."""

    def __init__(self):
        self.label, self.used, self.root = None, 0.0, None


def stat_of(pid):
    """The parent, the start, and the processor seconds of a process and of its children that ended."""
    with open(f"/proc/{pid}/stat", "rb") as it:
        # (a name may hold blanks and brackets)
        words = it.read().rpartition(b")")[2].split()
    tick = os.sysconf("SC_CLK_TCK")
    return int(words[1]), int(words[19]), (int(words[11]) + int(words[12])) / tick, (int(words[13]) + int(words[14])) / tick


def label_of(pid):
    """The crate and the kind of work of a process, by its words and its folder; None where they tell neither."""
    with open(f"/proc/{pid}/cmdline", "rb") as it:
        words = it.read().decode(errors="replace").split("\0")
    if "--crate-name" in words:
        crate = words[words.index("--crate-name") + 1]
        if os.path.basename(os.readlink(f"/proc/{pid}/cwd")).startswith("rt-edit"):
            return crate, "edits"
        return crate, "tests" if "--test" in words else "proofs"
    ran = next((it for it in map(re.compile(r".*/rt-run-[^/]*/bin/(\w+)").match, words) if it), None)
    return (re.sub(r"_tests\Z", "", ran[1]), "tests") if ran else None


class Watch:
    """Looks at a process and all below it, until it is stopped."""

    def __init__(self, pid):
        self.pid, self.known, self.trees = pid, {}, {}
        self.used, self.wall, self.reaped, self.looked = {}, {}, 0.0, time.monotonic()
        self.ending = threading.Event()
        self.thread = threading.Thread(target=self.run, daemon=True)
        self.thread.start()

    def run(self):
        try:
            while not self.ending.wait(SECONDS):
                self.look()
        except Exception as error:  # (a fault here must not reach the gate; what is not seen counts as other)
            print(f"minutes: no longer looking: {error!r}", flush=True)

    def stop(self):
        self.ending.set()
        self.thread.join()

    def processes(self):
        """All processes below the gate, each with the child of the gate that it stands below."""
        found = {}
        for name in os.listdir("/proc"):
            if name.isdigit():
                try:
                    found[int(name)] = stat_of(name)
                except (OSError, IndexError, ValueError):
                    pass  # (it has ended)
        below = {}
        for pid in found:
            path = [pid]
            while path[-1] in found and path[-1] != self.pid and found[path[-1]][0] not in path:
                path.append(found[path[-1]][0])
            if path[-1] == self.pid and len(path) > 1:
                below[pid] = path[1:]
        return found, below

    def look(self):
        found, below = self.processes()
        if self.pid not in found:
            return
        now, alive, active = time.monotonic(), {}, set()
        for pid, path in sorted(below.items(), key=lambda it: len(it[1])):
            key = pid, found[pid][1]
            one = alive[key] = self.known.get(key) or Process()
            above = alive.get((path[0], found[path[0]][1])) if len(path) > 1 else None
            one.root = above.root if above else key
            one.label = one.label or self.read_label(pid) or (above.label if above else None)
            self.count(one, found[pid][2] - one.used)
            one.used = found[pid][2]
            if one.label:
                active |= {one.label, one.label[0], one.label[1]}
        for it in active:
            self.wall[it] = self.wall.get(it, 0.0) + now - self.looked
        self.count_ended(alive, found[self.pid][3])
        self.known, self.looked = alive, now

    @staticmethod
    def read_label(pid):
        try:
            return label_of(pid)
        except (OSError, IndexError):
            return None

    def count(self, process, seconds):
        self.trees[process.root] = self.trees.get(process.root, 0.0) + seconds
        if process.label:
            self.used[process.label] = self.used.get(process.label, 0.0) + seconds

    def count_ended(self, alive, reaped):
        """Shares out what children of the gate used between the last look and their end, which only the gate itself tells."""
        ended = [one for key, one in self.known.items() if key == one.root and key not in alive]
        rest = reaped - self.reaped - sum(self.trees.pop(one.root, 0.0) for one in ended)
        for one in ended:
            if rest > 0 and one.label:
                self.used[one.label] = self.used.get(one.label, 0.0) + rest / len(ended)
        self.reaped = reaped


class Minutes:
    """The minutes of a whole run, part by part."""

    def __init__(self):
        self.begun, self.watch = self.now(), None
        self.gate = 0.0, 0.0

    @staticmethod
    def now():
        used = resource.getrusage(resource.RUSAGE_CHILDREN)
        return used.ru_utime + used.ru_stime, time.monotonic()

    def start_gate(self, pid):
        self.watch = Watch(pid)

    def end_gate(self):
        """Called once the gate has been waited for."""
        self.watch.stop()
        used, at = self.now()
        self.gate = used - self.begun[0], at - self.begun[1]

    def table(self, lines_of_code):
        """The lines to print."""
        used, at = self.now()
        total, wall = used - self.begun[0], at - self.begun[1]
        seen, walls = (self.watch.used, self.watch.wall) if self.watch else ({}, {})
        kinds = {kind: sum(it for label, it in seen.items() if label[1] == kind) for kind in KINDS}
        kinds["other"] += max(0.0, self.gate[0] - sum(kinds.values()))
        kinds["outside"] = max(0.0, total - self.gate[0])
        walls = {**walls, "outside": wall - self.gate[1]}
        told = [f"{'where the minutes went':<52}{'processor':>10}{'wall':>8}"]
        told += [row(WORDS.get(kind, kind), kinds[kind], walls.get(kind)) for kind in KINDS]
        told.append(row("in all", total, wall))
        crates = {}
        for (crate, kind), seconds in seen.items():
            crates.setdefault(crate, {})[kind] = seconds
        dearest = sorted(crates, key=lambda it: -sum(crates[it].values()))[:DEAREST]
        told += [f"the dearest crates{'':<34}{'processor':>10}{'wall':>8}"] if dearest else []
        for crate in dearest:
            parts = ", ".join(f"{kind} {it / 60:.1f}" for kind, it in sorted(crates[crate].items(), key=lambda it: KINDS.index(it[0])))
            told.append(row(f"{crate} ({parts})", sum(crates[crate].values()), walls.get(crate)))
        return [*told, budget(total / 60, lines_of_code)]


def row(words, used, wall):
    return f"{words:<52}{used / 60:>10.1f}" + (f"{wall / 60:>8.1f}" if wall is not None else "")


def budget(minutes, lines_of_code):
    least = min(BUDGET_IN_ALL, BUDGET_A_THOUSAND_LINES * lines_of_code / 1000)
    said = "within the budget" if minutes <= least else "OVER THE BUDGET"
    rate = minutes / max(lines_of_code, 1) * 1000
    return (
        f"{said}: {minutes:.1f} processor minutes for {lines_of_code:,} lines of code, {rate:.1f} a 1,000 lines"
        f" (at most {BUDGET_A_THOUSAND_LINES} a 1,000 lines, {BUDGET_IN_ALL} in all)"
    )


def lines_of_code(top):
    """The lines of all .rt files of the crates."""
    count = 0
    for at, folders, names in os.walk(os.path.join(top, "crates")):
        folders[:] = [it for it in folders if it not in ("out", "must-fail")]
        for name in names:
            if name.endswith(".rt"):
                with open(os.path.join(at, name), "rb") as file:
                    count += file.read().count(b"\n")
    return count
