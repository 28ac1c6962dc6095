#!/usr/bin/env python3
"""build.py COMMAND: builds the program, proved or not, and runs it. The Makefile calls it.

run SCRIPT      runs a script: with the proved program where it stands and is up to date, else with one that is built without proofs
build           builds the program without proofs where no proved one is up to date, and tells where the program stands
proved          proves and builds the program, and tells of each step
install FOLDER  puts the proved program and its man page under FOLDER/bin and FOLDER/share/man/man1. With UNPROVED=1 in the environment it may be
                the other program
need            says in one sentence what is missing, and answers status 2; does nothing where all is there
"""
import os
import platform
import re
import shutil
import subprocess
import sys
import threading
import time

TOP = os.path.realpath(os.path.join(os.path.dirname(os.path.realpath(__file__)), ".."))
PROVED = os.path.join(TOP, "crates", "flecsq", "out", "flecsq")
UNPROVED = os.path.join(TOP, "out", "flecsq")
MAN_PAGE = os.path.join(TOP, "docs", "flecsq.1")

# what the proofs and the program were last proved and built with, as `rt version` tells it
KIT = "rattle-kit-13f logic dac8208d650f15bf"

# how often it is told that a build goes on, where no terminal shows it all the time
TOLD_EACH = 30

COUNTED = re.compile(r"checked .*, (\d+) of (\d+)")


class Missing(Exception):
    """Something that has to be there isn't. Its text says what to do."""


def tell(text):
    print(text, file=sys.stderr, flush=True)


def check_machine():
    if sys.version_info < (3, 8):
        raise Missing(f"flecsq is built with Python 3.8 or later, and this is {platform.python_version()}.")
    if not sys.platform.startswith("linux") or platform.machine() not in ("x86_64", "AMD64"):
        raise Missing(f"flecsq is built on Linux on x86-64, and this is {platform.system()} on {platform.machine()}.")


def kit_of_path():
    """The version of the toolchain on the path, if there is one."""
    if not shutil.which("rt"):
        return None
    told = subprocess.run(["rt", "version"], stdin=subprocess.DEVNULL, stdout=subprocess.PIPE, text=True, errors="replace", check=False)
    return told.stdout.strip()


def logic_of(kit):
    """The logic of a kit: the statements that proofs rest on. Kits that differ in other things judge the same proofs."""
    return kit.rpartition(" logic ")[2]


def check_toolchain(is_strict=True):
    """Whether a toolchain is there of the logic that this was proved with. One that is another is only told of, where that is enough."""
    check_machine()
    kit = kit_of_path()
    if kit is None:
        raise Missing(f"The Rattle toolchain isn't there: put the folder of its command rt, of the kit {KIT}, on the PATH.")
    if logic_of(kit) != logic_of(KIT):
        odd = f"The command rt on the PATH is of the kit {kit or 'that tells no version'}, and flecsq was proved with {KIT}:"
        if is_strict and not os.environ.get("ANY_KIT"):
            raise Missing(f"{odd} put that one first on the PATH, or set ANY_KIT=1 to try with yours.")
        tell(f"{odd} what follows may differ.")


def has_toolchain():
    """Whether the toolchain is there, for the gate: another one may do, since the gate proves all with it. Where it isn't, that is told."""
    try:
        check_toolchain(is_strict=False)
        return True
    except Missing as missing:
        tell(str(missing))
        return False


def libraries_of():
    """Each crate and the crates of this repository that it uses, by crates.txt."""
    with open(os.path.join(TOP, "crates.txt"), encoding="utf-8") as file:
        rows = [line.split(":", 1) for line in file if ":" in line and not line.startswith("#")]
    uses = {name.split()[0]: libraries.split() for name, libraries in rows}
    return {name: [it for it in libraries if it in uses] for name, libraries in uses.items()}


def crates_below(crate):
    """The crates that a crate stands on, lowest first, and itself."""
    uses, order = libraries_of(), []

    def visit(name):
        for library in uses[name]:
            visit(library)
        if name not in order:
            order.append(name)

    visit(crate)
    return order


def sources(crates):
    yield os.path.join(TOP, "crates.txt")
    for crate in crates:
        for folder in ("src", "specs", "proofs"):
            for place, _, files in os.walk(os.path.join(TOP, "crates", crate, folder)):
                yield from (os.path.join(place, it) for it in files if it.endswith((".rt", ".antt")))


def is_current(built, crate="flecsq"):
    """Whether what is built of a crate is there and younger than all that it is made from."""
    if not os.path.isfile(built):
        return False
    when = os.stat(built).st_mtime
    return all(os.stat(it).st_mtime <= when for it in sources(crates_below(crate)))


def prove_crate(crate, place, words):
    """Proves a crate, and shows on a terminal how many of its functions are done. Answers its status and what it printed last."""
    shown, last = sys.stderr.isatty(), []
    folder = os.path.join(TOP, "crates", crate)
    streams = {"stdin": subprocess.DEVNULL, "stdout": subprocess.PIPE, "stderr": subprocess.STDOUT}
    with subprocess.Popen(["rt", *words], cwd=folder, **streams, text=True, errors="replace") as running:
        for line in running.stdout:
            found = COUNTED.match(line)
            if found and shown:
                print(f"\r{place} {crate}: {found[1]} of {found[2]}\x1b[K", end="", file=sys.stderr, flush=True)
            if not found:
                last = [*last[-40:], line]
    if shown:
        print("\r\x1b[K", end="", file=sys.stderr)
    return running.returncode, "".join(last)


def prove():
    """Proves all that the program stands on, and builds it."""
    if is_current(PROVED):
        return 0
    check_toolchain()
    crates = crates_below("flecsq")
    tell(f"Proving flecsq, {len(crates)} steps. The first time this takes half an hour or more on four cores.")
    status = prove_crates(crates, ["run", "--", "--version"])
    if not status:
        os.utime(PROVED)
    return status


def prove_crates(crates, last_words):
    """Proves these crates one after the other, and runs `rt` with these words for the last."""
    for number, crate in enumerate(crates, 1):
        place, begun = f"{number} of {len(crates)}", time.monotonic()
        words = ["lib"] if crate != crates[-1] else last_words
        status, last = prove_crate(crate, place, words)
        if status:
            tell(f"{last}{place} {crate}: not proved (rt ended with status {status})")
            return 1
        tell(f"{place} {crate}: proved ({time.monotonic() - begun:.0f} s)")
    return 0


def tell_of(program):
    """Where a program stands, as it can be typed from here."""
    place = os.path.relpath(program)
    return place if os.sep in place else os.path.join(os.curdir, place)


class Going:
    """Shows how long a step takes while it goes on: on a terminal in one line, else with a line now and then."""

    def __init__(self, step):
        self.step, self.begun, self.ended = step, time.monotonic(), threading.Event()
        self.thread = threading.Thread(target=self.show, daemon=True)

    def show(self):
        on_terminal = sys.stderr.isatty()
        while not self.ended.wait(1 if on_terminal else TOLD_EACH):
            told = f"{self.step}: {time.monotonic() - self.begun:.0f} s"
            print(f"\r{told}" if on_terminal else told, end="" if on_terminal else "\n", file=sys.stderr, flush=True)
        if on_terminal:
            print("\r\x1b[K", end="", file=sys.stderr, flush=True)

    def __enter__(self):
        self.thread.start()

    def __exit__(self, *_):
        self.ended.set()
        self.thread.join()


def build_unproved():
    """The program without proofs, built where it isn't up to date."""
    if not is_current(UNPROVED):
        build_without_proofs("flecsq", "flecsq", UNPROVED)
    return UNPROVED


def build_without_proofs(crate, what, place):
    """Builds a crate without proofs, and puts there what comes of it."""
    check_toolchain()
    tell(f"Building {what} without proofs: two to four minutes, once.")
    os.makedirs(os.path.dirname(place), exist_ok=True)
    made = f"{place}.{os.getpid()}"
    # (at level 2 it takes up to 1.6 times the proved program's instructions: what stands for its checks keeps calls out of line)
    words = [sys.executable, os.path.join(TOP, "tools", "unproved.py"), crate, made, "3"]
    with Going("building"):
        ran = subprocess.run(words, stdout=subprocess.DEVNULL, check=False)
    if ran.returncode or not os.path.isfile(made):
        why = "as told above" if ran.returncode >= 0 else f"since signal {-ran.returncode} came, perhaps for want of memory"
        raise Missing(f"{what} could not be built, {why}.")
    os.replace(made, place)


def program():
    """The program to use: the proved one where it is up to date, else the other."""
    return PROVED if is_current(PROVED) else build_unproved()


def tell_where(built):
    """Where the program stands, and whether it is proved."""
    if built == PROVED:
        tell(f"The program: {tell_of(built)}, proved.")
    else:
        tell(f"The program: {tell_of(built)}, not proved (`make proved` proves it, in half an hour or more on four cores).")


def build():
    tell_where(program())


def run(script):
    """Runs a script. That lines of it were refused is shown by its output, and is no failure here."""
    built = program()
    status = subprocess.run([built, script], check=False).returncode
    tell_where(built)
    return 0 if status == 1 else status


def install(folder):
    """Puts the proved program and its man page there. An unproved program is only installed where that is asked for."""
    if is_current(PROVED):
        built = PROVED
    elif os.environ.get("UNPROVED") == "1":
        built = build_unproved()
    else:
        why = "is older than its sources" if os.path.isfile(PROVED) else "isn't built"
        raise Missing(
            f"Nothing is installed: the proved program {why}. `make proved` proves and builds it; `make install UNPROVED=1` installs the one without proofs."
        )
    install_file(built, os.path.join(folder, "bin"), 0o755, "" if built == PROVED else ", which is not proved")
    install_file(MAN_PAGE, os.path.join(folder, "share", "man", "man1"), 0o644)
    return 0


def install_file(source, place, mode, told=""):
    """Puts a copy of a file into a folder, and tells so."""
    os.makedirs(place, exist_ok=True)
    made = os.path.join(place, os.path.basename(source))
    shutil.copyfile(source, f"{made}.new")
    os.chmod(f"{made}.new", mode)
    os.replace(f"{made}.new", made)
    tell(f"installed {made}{told}")


def main(words):
    commands = {
        ("run", 2): lambda: run(words[1]),
        ("build", 1): build,
        ("proved", 1): lambda: prove() or tell_where(PROVED),
        ("install", 2): lambda: install(words[1]),
        ("need", 1): check_toolchain,
    }
    return run_command(__doc__, commands, words)


def run_command(usage, commands, words):
    """Runs the command that these words are, and answers the status."""
    if words in (["-h"], ["--help"]):
        print(usage)
        return 0
    command = commands.get((words[0] if words else "", len(words)))
    if command is None:
        tell(usage)
        return 2
    try:
        return command() or 0
    except Missing as missing:
        tell(str(missing))
        return 2
    except KeyboardInterrupt:
        return 130


if __name__ == "__main__":
    sys.exit(main(sys.argv[1:]))
