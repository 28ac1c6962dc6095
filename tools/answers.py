#!/usr/bin/env python3
"""answers.py CRATE [--list] [--test] [--seconds S] [--only WORD] [--room FOLDER]: cuts the search in the dearest functions of a crate.

Without an answer the check tries one tactic after another on a goal, and where an early one searches in vain, a function takes seconds that an answer of
one word saves. A copy of the crate is checked from nothing with one job, and the processor seconds between one generated module's being written and the
next are counted: `Proof` and `Answers` of a function are its search, `Lts` is the logic of its code. For each function whose search takes over S seconds
(1 without it) every goal without an answer gets each of the CANDIDATES in turn. Where a function is faster by what passes, that is written into its
Answers.antt; else its files stay as they were. With --list nothing is tried and nothing is written; with --test the crate's tests are read too.

The libraries below must stand built in crates/*/out, as `make check` or `rt ci` leave them. All work is done in a folder, --room or out/answers/CRATE, which
is emptied first. The crate has to be proved by `rt check` afterwards, as after any change.
"""
import argparse
import bisect
import collections
import os
import re
import shutil
import subprocess
import sys
import threading
import time

import build

TOP = build.TOP
TICK = os.sysconf("SC_CLK_TCK")
KINDS = (
    "Lts|Proof|Tie|Reads|Layout|Mir|Code|Named|Given|Kinds|View|TheLink|Statement|Met|Key|Symbol|Goals|Answers|Invariants|InvariantsOffered|TheLaws"
)
SEARCH = ("Proof", "Answers")
CANDIDATES = ("grind arith", "grind (arith, common_steps)", "grind (arith, elements)")
# what the check itself tries first
FIRST = "search rules"
USES = {
    "arith": "use Rattle.std.proofs.Common.{arith}",
    "common_steps": "use Rattle.std.proofs.lemmas.Grind.{common_steps}",
    "rules": "use Rattle.std.proofs.Common.{rules}",
    "elements": "use Rattle.std.proofs.lemmas.Grind.{elements}",
}

# what the check offers where no tactic is tried: a file's lines, and in them each goal with what its answer takes
OFFER = re.compile(r"^help: \D*?\./proofs/(\S+)/Answers\.antt\b.*\n((?:(?:    .*)?\n)*)", re.M)
GOAL = re.compile(r"^ *pub (\S+) : goal\.\S+\n *\1((?: \S+)*) = \?$", re.M)
REFUSED = re.compile(r"^(?:\./)?proofs/(\S+)/Answers\.antt:\d+:\d+: error: `([^`]+)`", re.M)
TACTIC = re.compile(r"(#!?\[tactic\()auto(?:[^\[\]]|\[[^\[\]]*\])*\]")

# the least part of a function's search, and the least seconds, that answers must save to stay
GAIN, LEAST_GAIN = 0.2, 0.3


def kit():
    return os.path.dirname(os.path.dirname(os.path.realpath(shutil.which("rt"))))


def folder_of(crate):
    return os.path.join(TOP, "crates", crate)


def copy_of(crate, room):
    """A copy of the crate's sources, so that no change shows in the crate before it is found good."""
    made = os.path.join(room, crate)
    shutil.rmtree(made, ignore_errors=True)
    shutil.copytree(folder_of(crate), made, ignore=shutil.ignore_patterns("out", "must-fail"))
    return made


def words(crate, room):
    """The command that checks a crate with one job over what stands in a folder."""
    uses, home = build.libraries_of(), kit()
    with open(os.path.join(TOP, "crates.txt"), encoding="utf-8") as lines:
        named = next(line.split(":", 1)[1].split() for line in lines if line.split(":")[0].split()[:1] == [crate])
    root = next(it for it in ("src/main.rt", "src/lib.rt") if os.path.isfile(os.path.join(folder_of(crate), it)))
    rlib = lambda name: os.path.join(folder_of(name), "out", "rlib")
    found = [os.path.join(home, "bin", "rattle"), "check", "--crate-name", crate, root]
    for name in ["std", *(it for it in named if it not in uses)]:
        found += ["--extern", f"{name}={home}/rlibs/{name}.rlib"]
    found += ["-L", f"dependency={home}/rlibs"]
    for name in build.crates_below(crate)[:-1]:
        found += ["--extern", f"{name}={rlib(name)}/{name}.rlib"] if name in uses[crate] else []
        found += ["-L", f"dependency={rlib(name)}"]
    found += ["--antt-project", f"{home}/rattle/logic/antt-project.json", "--logic-built", f"{home}/logic_built", "--links", f"{crate}="]
    return [*found, "--jobs", "1", "--incremental", room]


def used_by(process):
    """The processor seconds of a process and of its children that have ended."""
    with open(f"/proc/{process}/stat", encoding="utf-8", errors="replace") as it:
        return sum(map(int, it.read().rpartition(")")[2].split()[11:15])) / TICK


class Check:
    """A check of a copy: what it printed, and the processor seconds of each function by the kind of module."""

    # (whether tests are read too)
    with_tests = False

    def __init__(self, crate, room, folder, more=()):
        more = ["--test", *more] if Check.with_tests else more
        kept = os.path.join(room, "kept")
        os.makedirs(kept, exist_ok=True)
        begun, spent = time.time(), []
        streams = {"stdin": subprocess.DEVNULL, "stdout": subprocess.PIPE, "stderr": subprocess.STDOUT}
        run = subprocess.Popen([*words(crate, kept), *more], cwd=folder, **streams, text=True, errors="replace")

        def watch():
            while run.poll() is None:
                try:
                    spent.append((time.time(), used_by(run.pid)))
                except OSError:
                    break
                time.sleep(0.02)

        watching = threading.Thread(target=watch, daemon=True)
        watching.start()
        self.said = run.communicate()[0]
        watching.join()
        self.status, self.seconds = run.returncode, spent[-1][1] if spent else 0.0
        self.functions = collections.defaultdict(collections.Counter)
        self.attribute(crate, kept, begun, spent)

    def attribute(self, crate, kept, begun, spent):
        """Gives the seconds before each module's being written to its function."""
        times, before, written = [it for it, _ in spent], 0.0, []
        for place, _, files in os.walk(kept):
            for it in files:
                when = os.stat(os.path.join(place, it)).st_mtime if it.endswith(".oantt") else 0
                if when >= begun:
                    written.append((when, os.path.relpath(os.path.join(place, it), kept)))
        for when, path in sorted(written):
            now = spent[min(bisect.bisect(times, when), len(spent) - 1)][1]
            name = re.sub(r"^records/", "", path.split("/", 1)[-1]).replace(".decls.oantt", "").replace(".oantt", "")
            found = re.match(rf"Rattle-{crate}-(?:proofs|specs)\.(.*?)\.({KINDS})(?:\..*)?$", name)
            if found:
                self.functions[re.sub(r"^(contracts|declared)\.", "", found[1])][found[2]] += now - before
            before = now

    def search(self, function):
        """The seconds of a function's search; None where nothing of it was checked again."""
        return sum(self.functions[function][it] for it in SEARCH) if "Proof" in self.functions[function] else None

    def refused(self):
        """The answers that the check refused, as pairs of a function and a goal."""
        return {(place.replace("/", "."), goal) for place, goal in REFUSED.findall(self.said)}


def report(check):
    kinds = sum(check.functions.values(), collections.Counter())
    print(f"{check.seconds:.0f} s:", ", ".join(f"{kind} {it:.1f}" for kind, it in kinds.most_common(6)))
    for function, of in sorted(check.functions.items(), key=lambda it: -sum(it[1].values()))[:30]:
        print(f"{sum(of.values()):7.2f} {function:60}", ", ".join(f"{kind} {it:.2f}" for kind, it in of.most_common(3)))


class Function:
    """A function whose search is dear: its goals without an answer, what is chosen for each, and its file of answers in a crate's folder."""

    def __init__(self, crate, name, folder, goals):
        self.name, self.goals, self.chosen, self.seconds = name, goals, {goal: CANDIDATES[0] for goal in goals}, None
        self.path = os.path.join("proofs", *name.split("."), "Answers.antt")
        self.goal_use = f"use Rattle.{crate}.proofs.{name}.Goals as goal"
        self.before = None
        if os.path.isfile(os.path.join(folder, self.path)):
            with open(os.path.join(folder, self.path), encoding="utf-8") as file:
                self.before = file.read()

    def answers(self):
        return {goal: it for goal, it in self.chosen.items() if it is not None}

    def text(self):
        """The file with the chosen answers after those that stand there; None for no file."""
        answers, text = self.answers(), self.before or ""
        if not answers:
            return self.before
        lacking = [use for word, use in USES.items() if any(word in it for it in answers.values()) and not imports(text, word)]
        if " as goal" not in text:
            lacking.append(self.goal_use)
        # (what the file says of itself stays at its head)
        head = re.match(r"(?:--.*\n)*", text)[0]
        parts = [head + "\n".join([*lacking, text[len(head) :].strip("\n")]).strip("\n")]
        parts += [f"pub {goal} : goal.{goal}\n{goal}{self.goals[goal]} = {answer}" for goal, answer in answers.items()]
        return "\n\n".join(parts) + "\n"

    def write(self, folder):
        path, text = os.path.join(folder, self.path), self.text()
        if text is not None:
            os.makedirs(os.path.dirname(path), exist_ok=True)
            with open(path, "w", encoding="utf-8") as file:
                file.write(text)
        elif os.path.isfile(path):
            os.remove(path)

    def try_next(self, refused):
        """Takes the next candidate for each refused goal, and tells whether there was one to be refused."""
        goals = [it for it, answer in self.chosen.items() if answer is not None and (self.name, it) in refused]
        for goal in goals:
            at = CANDIDATES.index(self.chosen[goal]) + 1
            self.chosen[goal] = CANDIDATES[at] if at < len(CANDIDATES) else None
        return bool(goals)


def imports(text, word):
    return any(re.search(rf"\b{word}\b", line) for line in text.split("\n") if line.startswith("use "))


def only(crate, names):
    return [it for name in names for it in ("--only", f"{crate}::{name.replace('.', '::')}")]


def open_goals(crate, room, names):
    """The goals of each function that a tactic has to close, with what their answers take: those that are left where none is tried."""
    folder = copy_of(crate, room)
    for place, _, files in os.walk(os.path.join(folder, "src")):
        for path in (os.path.join(place, it) for it in files):
            with open(path, encoding="utf-8") as file:
                text = file.read()
            with open(path, "w", encoding="utf-8") as file:
                file.write(TACTIC.sub(r"\1none)]", text))
    said = Check(crate, room, folder, only(crate, names)).said
    return {place.replace("/", "."): dict(GOAL.findall(lines)) for place, lines in OFFER.findall(said)}


def try_answers(crate, room, folder, functions):
    """Checks these functions with what is chosen for them, and returns the answers that are refused. Each then has the seconds of its search so."""
    for one in functions:
        one.write(folder)
    check = Check(crate, room, folder, ["--allow-holes", *only(crate, [it.name for it in functions])])
    for one in functions:
        one.seconds = check.search(one.name)
    refused = check.refused()
    print(f"{len(functions)} functions: {check.seconds:.0f} s, {len(refused)} answers refused", flush=True)
    return refused


def try_candidates(crate, room, functions):
    """Gives each goal the first candidate that passes; none, where none does."""
    folder, left = copy_of(crate, room), functions
    while left:
        refused = try_answers(crate, room, folder, left)
        left = [it for it in left if it.try_next(refused)]


def narrow(crate, room, functions):
    """Takes back the answers of goals that the first tactic of the check closes by itself."""
    folder, found = copy_of(crate, room), {one.name: one.chosen for one in functions}
    for one in functions:
        one.chosen = {goal: it and FIRST for goal, it in one.chosen.items()}
    refused = try_answers(crate, room, folder, functions)
    for one in functions:
        one.chosen = {goal: it if (one.name, goal) in refused else None for goal, it in found[one.name].items()}
    try_answers(crate, room, folder, functions)


def main():
    parser = argparse.ArgumentParser(description=__doc__, formatter_class=argparse.RawDescriptionHelpFormatter)
    parser.add_argument("crate")
    parser.add_argument("--list", action="store_true")
    parser.add_argument("--test", action="store_true")
    parser.add_argument("--seconds", type=float, default=1.0)
    parser.add_argument("--only", default="")
    parser.add_argument("--room")
    given = parser.parse_args()
    Check.with_tests = given.test
    crate, room = given.crate, given.room or os.path.join(TOP, "out", "answers", given.crate)
    shutil.rmtree(room, ignore_errors=True)
    before = Check(crate, room, copy_of(crate, room))
    report(before)
    if given.list or before.status:
        return before.status
    dear = [it for it in before.functions if (before.search(it) or 0) > given.seconds and given.only in it]
    goals = open_goals(crate, room, dear)
    functions = [Function(crate, it, folder_of(crate), goals[it]) for it in dear if goals.get(it)]
    try_candidates(crate, room, functions)
    gain = lambda one: before.search(one.name) - one.seconds if one.answers() and one.seconds is not None else 0.0
    is_faster = lambda one: gain(one) >= max(GAIN * before.search(one.name), LEAST_GAIN)
    slow = [it for it in functions if not is_faster(it)]
    if slow:
        narrow(crate, room, slow)
    for one in functions:
        was, now = before.search(one.name), one.seconds
        if is_faster(one):
            one.write(folder_of(crate))
        told = f"{was:.2f} -> {'?' if now is None else f'{now:.2f}'} s, {len(one.answers())} answers"
        print(f"{one.name}: search {told}, {'written' if is_faster(one) else 'left as it was'}")
    return 0


if __name__ == "__main__":
    sys.exit(main())
