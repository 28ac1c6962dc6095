#!/usr/bin/env python3
"""library.py COMMAND: makes the library for C, C++ and Python, of the crate flecsq_c. The Makefile calls it.

build           makes out/libflecsq.a and out/libflecsq.so.VERSION: of the proved crate where that stands and is up to date, else of one that is built
                without proofs; and tells where they stand
proved          proves and builds the crate first
install FOLDER  puts them, where they were built, with the header and what pkg-config reads under FOLDER/lib and FOLDER/include. With UNPROVED=1 in
                the environment they may be those without proofs
"""
import os
import re
import shutil
import subprocess
import sys

import build
from build import TOP, Missing, tell

CRATE = "flecsq_c"
PROVED = os.path.join(TOP, "crates", CRATE, "out", f"lib{CRATE}.a")
UNPROVED = os.path.join(TOP, "out", f"{CRATE}.o")
OUT = os.path.join(TOP, "out")

HEADER, EXPORTS, PACKAGE = (os.path.join(TOP, "c", it) for it in ("flecsq.h", "flecsq.map", "flecsq.pc.in"))
VERSION = re.compile(r'^const VERSION: &str = "([0-9.]+) \(proved\)";$', re.M)

STATIC = "libflecsq.a"


def read(path):
    with open(path, encoding="utf-8") as file:
        return file.read()


def version():
    """The version of the library, as its source has it."""
    found = VERSION.search(read(os.path.join(TOP, "crates", CRATE, "src", "lib.rt")))
    if not found:
        raise Missing(f"crates/{CRATE}/src/lib.rt has no line that tells the version.")
    return found[1]


def shared_names():
    """The names of the shared library: its file, by which a program finds it, by which a linker does. While the first number is 0, no version
    fits programs that were linked with an earlier one whose second number differs."""
    whole = version()
    first, second, _ = whole.split(".")
    found_by = f"{first}.{second}" if first == "0" else first
    return f"libflecsq.so.{whole}", f"libflecsq.so.{found_by}", "libflecsq.so"


def kit():
    return os.path.dirname(os.path.dirname(os.path.realpath(shutil.which("rt") or "rt")))


def built_crate():
    """The crate's code, its exports too: an archive of the proved one where it is up to date, else an object that is built without proofs."""
    if build.is_current(PROVED, CRATE):
        return PROVED
    if not build.is_current(UNPROVED, CRATE):
        build.build_without_proofs(CRATE, "the library", UNPROVED)
    return UNPROVED


def run_tool(*words):
    ran = subprocess.run(words, stdin=subprocess.DEVNULL, stdout=subprocess.PIPE, stderr=subprocess.STDOUT, text=True, errors="replace", check=False)
    if ran.returncode:
        raise Missing(f"{ran.stdout}{os.path.basename(words[0])} ended with status {ran.returncode}, as told above")


def link(code):
    """Makes both libraries. What allocates, over malloc, realloc and free, is the kit's, and goes into both."""
    tools, allocator = os.path.join(kit(), "toolchain"), os.path.join(kit(), "c", "liblibc_c.a")
    file, found_by, linked_by = shared_names()
    static, shared = (os.path.join(OUT, f"{it}.{os.getpid()}") for it in (STATIC, file))

    run_tool(os.path.join(tools, "bin", "llvm-ar"), "qcsL", static, code, allocator)

    words = ["-shared", "-soname", found_by, "--version-script", EXPORTS, "--no-undefined-version", "--gc-sections", "--strip-all", "--build-id"]
    words += ["--hash-style=gnu", "--no-undefined", "--eh-frame-hdr", "-z", "relro", "-z", "now", "-z", "noexecstack"]
    words += ["--whole-archive", code, "--no-whole-archive", allocator, "--as-needed", os.path.join(tools, "lib", "libc.so.6")]
    run_tool(os.path.join(tools, "bin", "ld.lld"), *words, "-o", shared)
    os.chmod(shared, 0o755)

    os.replace(static, os.path.join(OUT, STATIC))
    os.replace(shared, os.path.join(OUT, file))
    put_names(OUT)


def is_of_repository(folder):
    return os.path.commonpath([TOP, os.path.realpath(folder)]) == TOP


def put_names(folder):
    """The names by which a program finds the shared library, and a linker does, beside it: links, but copies within the repository, where the gate
    refuses links."""
    file, *others = shared_names()
    for name in others:
        place = os.path.join(folder, name)
        if os.path.lexists(place):
            os.remove(place)
        if is_of_repository(folder):
            shutil.copy(os.path.join(folder, file), place)
        else:
            os.symlink(file, place)


def is_linked(code):
    """Whether both libraries are of this code, and younger than all that they are made from."""
    made = [os.path.join(OUT, it) for it in ("libflecsq.from", STATIC, *shared_names())]
    if not all(map(os.path.isfile, made)) or any(map(os.path.islink, made)) or read(made[0]) != code:
        return False
    oldest = min(os.stat(it).st_mtime for it in made)
    return all(os.stat(it).st_mtime <= oldest for it in (code, EXPORTS, os.path.realpath(__file__)))


def libraries():
    """Makes the libraries where they are not up to date, and answers whether they are proved."""
    code = built_crate()
    if not is_linked(code):
        build.check_toolchain()
        os.makedirs(OUT, exist_ok=True)
        link(code)
        with open(os.path.join(OUT, "libflecsq.from"), "w", encoding="utf-8") as file:
            file.write(code)
    return code == PROVED


def tell_where():
    is_proved = libraries()
    how = "proved" if is_proved else "not proved (`make proved` proves it, in half an hour or more on four cores)"
    static, shared = (build.tell_of(os.path.join(OUT, it)) for it in (STATIC, shared_names()[0]))
    tell(f"The library: {static} and {shared}, {how}. Its header: {build.tell_of(HEADER)}. How it is used: {build.tell_of(os.path.join(TOP, 'docs', 'C.md'))}.")


def prove():
    """Proves and builds the crate, after the crates below it."""
    if build.is_current(PROVED, CRATE):
        return tell_where()
    status = build.prove()
    if status:
        return status
    build.check_toolchain()
    # (those of the program are proved)
    below = set(build.crates_below("flecsq"))
    crates = [it for it in build.crates_below(CRATE) if it not in below]
    tell(f"Proving the library, {len(crates)} more steps.")
    status = build.prove_crates(crates, ["lib"])
    if not status:
        os.utime(PROVED)
        tell_where()
    return status


def install(folder):
    """Puts the libraries there. Those that aren't built are left out; those without proofs are only installed where that is asked for."""
    is_proved = build.is_current(PROVED, CRATE)
    if not is_proved and (os.environ.get("UNPROVED") != "1" or not build.is_current(UNPROVED, CRATE)):
        how = "`make library` builds it" if os.environ.get("UNPROVED") == "1" else "no proved one is up to date, and `make proved` makes one"
        tell(f"The library for C isn't installed: {how}.")
        return 0
    libraries()
    lib, file = os.path.join(folder, "lib"), shared_names()[0]
    told = "" if is_proved else ", which is not proved"
    build.install_file(os.path.join(OUT, STATIC), lib, 0o644, told)
    build.install_file(os.path.join(OUT, file), lib, 0o755, told)
    put_names(lib)
    build.install_file(HEADER, os.path.join(folder, "include"), 0o644)
    package = os.path.join(OUT, "flecsq.pc")
    with open(package, "w", encoding="utf-8") as made:
        made.write(read(PACKAGE).replace("@VERSION@", version()))
    build.install_file(package, os.path.join(lib, "pkgconfig"), 0o644)
    return 0


def main(words):
    commands = {("build", 1): tell_where, ("proved", 1): prove, ("install", 2): lambda: install(words[1])}
    return build.run_command(__doc__, commands, words)


if __name__ == "__main__":
    sys.exit(main(sys.argv[1:]))
