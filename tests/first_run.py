#!/usr/bin/env python3
"""first_run.py: what is said where the toolchain isn't there, or is another one than this was proved with: one sentence, and no traceback."""
import os
import shutil
import subprocess
import sys
import tempfile

TOP = os.path.realpath(os.path.join(os.path.dirname(os.path.realpath(__file__)), ".."))
BUILD, LIBRARY, TESTS = (os.path.join(TOP, *it) for it in (("tools", "build.py"), ("tools", "library.py"), ("tests", "run.py")))


def said(path, *words):
    """The status of a call with this PATH, and what it writes to standard error."""
    environment = {key: value for key, value in os.environ.items() if key != "ANY_KIT"}
    ran = subprocess.run([sys.executable, *words], env={**environment, "PATH": path}, stdout=subprocess.PIPE, stderr=subprocess.PIPE, text=True, timeout=60, check=False)
    return ran.returncode, ran.stdout, ran.stderr


def is_sentence(answer, *words):
    status, output, complaint = answer
    return status == 2 and not output and complaint.count("\n") == 1 and all(word in complaint for word in words)


def no_toolchain_is_told(room):
    return all(is_sentence(said(room, *words), "command rt", "on the PATH") for words in ((BUILD, "need"), (TESTS, "test"), (TESTS, "gate")))


def another_kit_is_told(room):
    other = os.path.join(room, "rt")
    with open(other, "w", encoding="ascii") as file:
        file.write("#!/bin/sh\necho kit-of-others logic 0\n")
    os.chmod(other, 0o755)
    return is_sentence(said(f"{room}:/bin:/usr/bin", BUILD, "need"), "kit-of-others", "ANY_KIT=1")


def the_targets_are_listed(room):
    ran = subprocess.run(["make", "-C", TOP, "--no-print-directory", "help"], stdout=subprocess.PIPE, text=True, timeout=60, check=True)
    return all(f"make {target} " in ran.stdout for target in ("run", "build", "library", "test", "demo", "proved", "install", "gate", "check", "edits", "bench", "clean"))


def unknown_words_are_refused(room):
    """No word but `gate` begins a gate."""
    answers = [said(os.environ["PATH"], *words) for words in ((TESTS,), (TESTS, "--no-gate"), (TESTS, "tests"), (BUILD,), (BUILD, "--fast"))]
    helped = [said(os.environ["PATH"], program, "--help") for program in (TESTS, BUILD)]
    return all(it[0] == 2 and not it[1] and it[2] for it in answers) and all(it[0] == 0 and it[1] and not it[2] for it in helped)


def nothing_unproved_is_installed(room):
    """Without a proved program `install` installs nothing, and says how to get one; so too the library. (On a copy of the tools, which has neither.)"""
    os.makedirs(os.path.join(room, "tools"))
    place = os.path.join(room, "there")
    tool, of_library = (shutil.copy(it, os.path.join(room, "tools")) for it in (BUILD, LIBRARY))
    status, output, complaint = said(os.environ["PATH"], tool, "install", place)
    is_told = status == 2 and not output and "make proved" in complaint and "UNPROVED=1" in complaint
    status, output, complaint = said(os.environ["PATH"], of_library, "install", place)
    return is_told and status == 0 and not output and "make proved" in complaint and not os.path.exists(place)


CASES = [no_toolchain_is_told, another_kit_is_told, the_targets_are_listed, unknown_words_are_refused, nothing_unproved_is_installed]


def run():
    """How many of the cases are right and wrong."""
    failed = 0
    for case in CASES:
        with tempfile.TemporaryDirectory() as room:
            if not case(room):
                print(f"first run {case.__name__} FAILED")
                failed += 1
    return len(CASES) - failed, failed


if __name__ == "__main__":
    sys.exit(1 if run()[1] else 0)
