#!/usr/bin/env python3
"""edits.py: tries edits that the check must refuse, and says of each why it was refused.

usage: edits.py [--since COMMIT | --crates NAMES] [--tier edits|must-fail|both] [--names NAMES] [--check-texts] [--at-once N] [--keep FOLDER]

The edits of a crate stand in one file, edits/CRATE.edits, each behind a line `edit: NAME: WHAT IT TURNS`. What stands before
the first is told to the reader alone, with those that were not tried since their code last changed. The named wrong bodies, which
`rt ci` tries too, are files crates/CRATE/must-fail/NAME.edit. Either way an edit has a line `file: src/..`, then pairs of lines
`old: TEXT` and `new: TEXT`, where each old text stands in that file exactly once.

--since   the crates that changed since that commit, what is not committed included. Without it: since the merge base with
          origin/main where that is an earlier commit, else since the commit before the last
--crates  these crates, in one word as "ecs_id raw_column", or all
--tier    edits (without it), must-fail, or both
--names   of these crates the edits with these names alone, in one word
--check-texts
          proves nothing: tells which edits can't be applied, as where an old text doesn't stand exactly once, and of each crate how many can
--at-once how many checks run side by side (without it one a processor, as memory allows)
--keep    a folder for what the check printed under each edit

All work is done on copies in a temporary folder. An edit says something of a contract where a goal about values fails.
It says nothing where the crate is still proved, where the edited code cannot be read, where it changes what is no code,
and where it is refused only because a proof file names what the edit took away: any change of names is refused so. The
status is 0 where each edit says something, else 1; 2 for a wrong use.
"""
import argparse
import glob
import os
import re
import shutil
import signal
import subprocess
import sys
import tempfile
import threading
from concurrent.futures import ThreadPoolExecutor
from typing import NamedTuple

TOP = os.path.realpath(os.path.join(os.path.dirname(os.path.realpath(__file__)), ".."))
PARTS = ("src", "specs", "proofs")
# What antt says where a proof file names a place, a goal or a declaration that is not there (any more).
OF_NAMES = re.compile(r"has no field|has no `|is not in scope|is no name|was not admitted|which (was|were) rejected, (was|were) not checked")


class BadEdit(Exception):
    """An edit that cannot be applied, or that changes no code."""


class Edit(NamedTuple):
    """An edit of a crate: its name, and the lines that tell what it changes."""

    name: str
    lines: list


def libraries():
    """The libraries of the repository that each crate uses, by crates.txt."""
    uses = {}
    with open(os.path.join(TOP, "crates.txt"), encoding="utf-8") as lines:
        for line in lines:
            head, colon, below = line.partition("#")[0].partition(":")
            if colon:
                uses[head.split()[0]] = below.split()
    return {crate: [it for it in below if it in uses] for crate, below in uses.items()}


def closure(crate, uses):
    """The crate and all libraries below it, lowest first."""
    found = []
    for below in uses[crate]:
        found += [it for it in closure(below, uses) if it not in found]
    return [*found, crate]


def git(*words):
    ran = subprocess.run(["git", *words], cwd=TOP, stdout=subprocess.PIPE, stderr=subprocess.PIPE, text=True, check=False)
    return ran.stdout.strip() if ran.returncode == 0 else None


def default_commit():
    base = git("merge-base", "HEAD", "origin/main")
    if base and base != git("rev-parse", "HEAD"):
        return base
    return "HEAD~1" if git("rev-parse", "HEAD~1") else "HEAD"


def changed_since(commit):
    """The crates whose code, definitions, proofs or edits differ from those of the commit."""
    committed = git("diff", "--name-only", commit, "--")
    if committed is None:
        sys.exit(f"edits.py: git knows no commit {commit}")
    found = set()
    for path in [*committed.splitlines(), *(git("ls-files", "--others", "--exclude-standard") or "").splitlines()]:
        of_crate = re.match(r"crates/([^/]+)/(src|specs|proofs|must-fail)/", path) or re.match(r"edits/([^/]+)\.edits\Z", path)
        if of_crate:
            found.add(of_crate[1])
    return found


def edits_of(crate, tier):
    """The edits of a crate, those of its file first."""
    found = []
    if tier != "must-fail":
        found += cut_edits(os.path.join(TOP, "edits", f"{crate}.edits"))
    if tier != "edits":
        for path in sorted(glob.glob(os.path.join(TOP, "crates", crate, "must-fail", "*.edit"))):
            found.append(Edit(os.path.basename(path)[: -len(".edit")], lines_of(path)))
    return found


def lines_of(path):
    with open(path, encoding="utf-8") as it:
        return it.read().split("\n")


def cut_edits(path):
    """The edits of a file that holds all of a crate."""
    found = []
    for line in lines_of(path) if os.path.isfile(path) else []:
        if line.startswith("edit: "):
            found.append(Edit(line[len("edit: ") :].partition(":")[0].strip(), []))
        elif found:
            found[-1].lines.append(line)
    return found


def misplaced(uses):
    """What stands under edits/ and is no file of a crate's edits: its name, and what is wrong with it."""
    found = []
    for name in sorted(os.listdir(os.path.join(TOP, "edits"))) if os.path.isdir(os.path.join(TOP, "edits")) else []:
        crate = name[: -len(".edits")] if name.endswith(".edits") else name
        if os.path.isdir(os.path.join(TOP, "edits", name)):
            found.append((name, f"edits/{name}/ has the old form, a file for each edit: all edits of a crate stand in edits/{name}.edits"))
        elif not name.endswith(".edits"):
            found.append((name, "the edits of a crate stand in edits/CRATE.edits"))
        elif crate not in uses:
            found.append((crate, "crates.txt names no such crate"))
    return found


def read_edit(edit, folder):
    """The texts of the files of the crate in that folder which the edit changes, by their path in the crate."""
    path, old, texts = "", None, {}
    for line in edit.lines:
        if line.startswith("file: "):
            path = line[len("file: ") :].strip()
        elif line.startswith("old: "):
            old = line[len("old: ") :]
        elif line.startswith("new:"):
            if not path or not old:
                raise BadEdit("a line 'new:' stands before any 'file:' or 'old:'")
            if not path.startswith("src/"):
                raise BadEdit(f"it changes {path}, which is no code: that shows nothing of a contract")
            if path not in texts:
                with open(os.path.join(folder, path), encoding="utf-8") as it:
                    texts[path] = it.read()
            if texts[path].count(old) != 1:
                raise BadEdit(f"an old text stands in {path} {texts[path].count(old)} times, and not once: {old.strip()}")
            texts[path], old = texts[path].replace(old, re.sub(r"\A ", "", line[len("new:") :])), None
    if not texts:
        raise BadEdit("it has no pair of lines 'old:' and 'new:'")
    return texts


class Room:
    """A copy of a part of the repository, in which edits are tried one after another."""

    def __init__(self, folder, uses):
        self.folder, self.uses = folder, uses

    def take(self, crate):
        """Copies the crate and the libraries below it, with what earlier checks kept of them."""
        needed = closure(crate, self.uses)
        for name in needed:
            self.copy_crate(os.path.join(TOP, "crates", name), self.folder_of(name))
        kept = f"crates/{crate}/out/incremental"
        if os.path.isdir(os.path.join(TOP, kept)) and not os.path.isdir(os.path.join(self.folder, kept)):
            shutil.copytree(os.path.join(TOP, kept), os.path.join(self.folder, kept))
        if os.path.isfile(os.path.join(TOP, "HANDLES")):
            shutil.copy2(os.path.join(TOP, "HANDLES"), self.folder)
        # (a list of the crates that are here, with the libraries of the kit as they were)
        with open(os.path.join(TOP, "crates.txt"), encoding="utf-8") as lines:
            named = [it for it in lines if it.partition("#")[0].partition(":")[0].split()[:1] in [[name] for name in needed]]
        with open(os.path.join(self.folder, "crates.txt"), "w", encoding="utf-8") as it:
            it.writelines(named)

    def copy_crate(self, crate, to):
        for part in (*PARTS, "out/rlib"):
            if os.path.isdir(os.path.join(crate, part)):
                shutil.copytree(os.path.join(crate, part), os.path.join(to, part))
        # (only where the library seems to have changed since it was built does its next build need what its checks kept)
        if os.path.isdir(os.path.join(crate, "out/incremental")) and is_newer_than_built(crate):
            shutil.copytree(os.path.join(crate, "out/incremental"), os.path.join(to, "out/incremental"))

    def folder_of(self, crate):
        return os.path.join(self.folder, "crates", crate)

    def check(self, crate, texts):
        """What `rt check` prints, with these texts in place of the crate's own, and its status."""
        folder = self.folder_of(crate)
        for path, text in texts.items():
            os.rename(os.path.join(folder, path), os.path.join(self.folder, path.replace("/", "+")))
            with open(os.path.join(folder, path), "w", encoding="utf-8") as it:
                it.write(text)
        how = {"cwd": folder, "stdin": subprocess.DEVNULL, "stdout": subprocess.PIPE, "stderr": subprocess.STDOUT}
        ran = subprocess.run(["rt", "check", "--jobs", "1"], text=True, errors="replace", check=False, **how)
        for path in texts:
            os.replace(os.path.join(self.folder, path.replace("/", "+")), os.path.join(folder, path))
        return ran.stdout, ran.returncode


def is_newer_than_built(crate):
    try:
        built = os.stat(os.path.join(crate, "out/rlib/stamp")).st_mtime
    except OSError:
        return True
    files = [os.path.join(at, it) for part in PARTS for at, _, names in os.walk(os.path.join(crate, part)) for it in names]
    return any(os.stat(it).st_mtime > built for it in files)


class Failed:
    """A goal or a declaration that the check refused: its name, where it stands, what kind of refusal it is, and more words for it."""

    # Those that say something of a contract, the best first.
    TELLING = ("false", "value", "open")
    WORDS = {"false": "the known facts allow values at which it is false", "new": "no proof speaks of this place yet"}

    def __init__(self, goal, place, kind, words=""):
        self.goal, self.place, self.kind, self.words = goal, place, kind, words

    def __str__(self):
        words = self.words or self.WORDS.get(self.kind, "")
        return f"`{self.goal}` of {self.place}{f' ({words})' if words else ''}"


def failed_declaration(goal, file, said):
    """What antt refused in a proof file. (It says which name is missing right after these words.)"""
    if not OF_NAMES.search(said):
        return Failed(goal, place_of(file), "value")
    missing = re.search(r"has no (?:field )?`[^`]*`|`[^`]*`: is not in scope|`[^`]*` is (not in scope|no name)", said)
    return Failed(goal, place_of(file), "names", missing[0] if missing else "it names what is not there")


def place_of(file):
    """The function, or the file of lemmas, that a path below proofs/ belongs to."""
    inside = re.sub(r"\A(\./)?proofs/", "", file)
    of_function = re.fullmatch(r"(.*)/(Answers|Invariants|Proof)\.antt", inside)
    return of_function[1].replace("/", "::") if of_function else f"proofs/{inside}"


def failures(said, crate):
    """What the check refused, by its lines: the line of a function follows those of the goals that nobody answered in it."""
    found, pending = [], []
    # (a long message goes on in indented lines)
    for line in re.sub(r"\n[ \t]+", " ", said).splitlines():
        refused = re.match(r"(\S+?):\d+:\d+: error: `([^`]+)`: (.*)", line)
        if refused and "proofs/" in refused[1]:
            found.append(failed_declaration(refused[2], refused[1], refused[3]))
            continue
        unproved = re.match(r"note: (src/\S+?):\d+:\d+: it is not proved that .*?\(`([^`]+)`\)(.*)", line)
        if unproved:
            pending.append(Failed(unproved[2], "", "false" if "goal is false" in unproved[3] else "open"))
            continue
        function = re.match(rf"fn {crate}::(\S+): (not proved|no proof)", line)
        if function:
            for it in pending:
                it.place = function[1]
            found, pending = found + pending, []
    return found + pending


def judged(said, status, crate, known):
    """Whether the edit says something of a contract, and the words for it. `known` are the functions of the unedited crate."""
    if status == 0:
        return False, "PROVED: the check does not refuse it"
    unread = [it for it in said.splitlines() if re.match(r"(\./)?(src|specs)/\S+:\d+:\d+: error", it) or re.match(r"error(\[|:)", it)]
    if unread:
        return False, f"SAYS NOTHING: the edited code cannot be read: {unread[0][:200]}"
    if status != 1 or "logic=not-proved" not in said:
        return False, f"NO VERDICT: rt ended with status {status}: {(said.strip().splitlines() or [''])[-1][:200]}"
    found = failures(said, crate)
    renamed = {it.place for it in found if it.kind == "names"}
    for it in found:
        # (a goal that nobody answered may be an old one at a renamed place, or one of a function that the edit made)
        if it.kind == "open" and (it.place in renamed or it.place not in known):
            it.kind = "new"
    telling = sorted((it for it in found if it.kind in Failed.TELLING), key=lambda it: Failed.TELLING.index(it.kind))
    if telling:
        more = f" and {len(telling) - 1} more" if len(telling) > 1 else ""
        return True, f"refused: {telling[0]}{more}"
    if found:
        return False, f"SAYS NOTHING: refused for names only: {found[0]}"
    return False, "SAYS NOTHING: refused, and no line tells which goal failed"


def functions_of(said, crate):
    return set(re.findall(rf"(?m)^fn {crate}::(\S+): proved", said))


class Run:
    """The whole run: what it was asked, and what it found."""

    def __init__(self, asked, uses):
        self.asked, self.uses, self.printing = asked, uses, threading.Lock()
        self.told = self.silent = 0
        self.is_stopped = False

    def tell(self, crate, name, is_telling, words, said=""):
        with self.printing:
            print(f"{crate}/{name}: {words}", flush=True)
            self.told, self.silent = self.told + is_telling, self.silent + (not is_telling)
            if self.asked.keep:
                with open(os.path.join(self.asked.keep, f"{crate}.{name}.log"), "w", encoding="utf-8") as it:
                    it.write(said)

    def try_all(self, crate, edits):
        """Tries edits of one crate, in turn, in a copy of their own."""
        if self.is_stopped:
            return
        with tempfile.TemporaryDirectory(prefix="edits-") as folder:
            room = Room(folder, self.uses)
            room.take(crate)
            said, status = room.check(crate, {})
            known = functions_of(said, crate)
            for edit in edits:
                if self.is_stopped:
                    return
                name = edit.name
                if status:
                    self.tell(crate, name, False, "NOT TRIED: the crate as it stands is not proved", said)
                    continue
                try:
                    texts = read_edit(edit, room.folder_of(crate))
                except (BadEdit, OSError, UnicodeDecodeError) as why:
                    self.tell(crate, name, False, f"BAD EDIT: {why}")
                    continue
                answer = room.check(crate, texts)
                self.tell(crate, name, *judged(*answer, crate, known), answer[0])


def asked():
    parser = argparse.ArgumentParser(description=__doc__, formatter_class=argparse.RawDescriptionHelpFormatter, usage=argparse.SUPPRESS)
    parser.add_argument("--since", default="")
    parser.add_argument("--crates", default="")
    parser.add_argument("--tier", choices=("edits", "must-fail", "both"), default="edits")
    parser.add_argument("--names", default="")
    parser.add_argument("--check-texts", action="store_true")
    parser.add_argument("--at-once", type=int, default=0)
    parser.add_argument("--keep", default="")
    return parser.parse_args()


def lanes_here():
    """How many checks to run side by side: one a processor, and one for each 3 GB of free memory."""
    processors = len(os.sched_getaffinity(0)) if hasattr(os, "sched_getaffinity") else os.cpu_count() or 1
    try:
        with open("/proc/meminfo", encoding="ascii") as it:
            free = int(re.search(r"MemAvailable:\s+(\d+)", it.read())[1])
    except (OSError, TypeError):
        return processors
    return max(1, min(processors, free // 3_000_000))


def bad_texts(crate, edits):
    """How many edits of a crate can't be applied: tells of each why, and how many can."""
    bad = 0
    for edit in edits:
        try:
            read_edit(edit, os.path.join(TOP, "crates", crate))
        except (BadEdit, OSError, UnicodeDecodeError) as why:
            bad += 1
            print(f"{crate}/{edit.name}: BAD EDIT: {why}")
    print(f"{crate}: {len(edits) - bad} of {len(edits)} edits can be applied")
    return bad


def repeated(edits):
    """Names that two edits of a crate have."""
    names = [it.name for it in edits]
    return sorted({it for it in names if names.count(it) > 1})


def main():
    given, uses = asked(), libraries()
    if given.crates:
        chosen = set(uses) if given.crates == "all" else set(given.crates.split())
    else:
        commit = given.since or default_commit()
        chosen = changed_since(commit)
        print(f"crates that changed since {commit}: {' '.join(sorted(chosen)) or 'none'}", flush=True)
    unknown = sorted(chosen - set(uses))
    if unknown and given.crates:
        print(f"edits.py: crates.txt names no crate {' '.join(unknown)}", file=sys.stderr)
        return 2
    if given.keep:
        os.makedirs(given.keep, exist_ok=True)
    names = set(given.names.split())
    edits = {it: [edit for edit in edits_of(it, given.tier) if not names or edit.name in names] for it in uses if it in chosen}
    edits = {crate: found for crate, found in edits.items() if found}
    run = Run(given, uses)
    for name, why in misplaced(uses):
        run.tell("edits", name, False, f"BAD EDIT: {why}")
    for crate, found in edits.items():
        for name in repeated(found):
            run.tell(crate, name, False, "BAD EDIT: two edits have this name")
    if given.check_texts:
        bad = run.silent + sum(bad_texts(crate, found) for crate, found in edits.items())
        print(f"{sum(map(len, edits.values()))} edits, {bad} bad")
        return 1 if bad else 0
    lanes = given.at_once or lanes_here()
    # (where there are fewer crates than processors, the edits of each are dealt out)
    parts = max(1, lanes // max(len(edits), 1))
    tasks = [(crate, found[at::parts]) for crate, found in edits.items() for at in range(parts) if found[at::parts]]
    tasks.sort(key=lambda it: -len(it[1]))
    # (a run that is stopped ends once the checks that it has begun do, and leaves no copies behind)
    signal.signal(signal.SIGTERM, signal.default_int_handler)
    with ThreadPoolExecutor(lanes) as pool:
        try:
            for it in [pool.submit(run.try_all, crate, found) for crate, found in tasks]:
                it.result()
        except BaseException:
            run.is_stopped = True
            raise
    print(f"{run.told} edits say something of a contract, {run.silent} do not")
    return 1 if run.silent else 0


if __name__ == "__main__":
    try:
        sys.exit(main())
    except KeyboardInterrupt:
        sys.exit(130)
