#!/usr/bin/env python3
"""c_library.py [PROGRAM]: the library for C: whether its header fits its sources, C, C++ and Python programs get what the program prints, and memory
that is refused leaves nothing behind. It builds the library where that isn't up to date.

What needs gcc, g++, valgrind, nm or pkg-config is left out where that is missing, and told by name.
"""
import ctypes
import doctest
import functools
import glob
import os
import re
import shutil
import subprocess
import sys
import tempfile

TOP = os.path.realpath(os.path.join(os.path.dirname(os.path.realpath(__file__)), ".."))
sys.path.append(os.path.join(TOP, "tools"))

import docs
import flecsq
import library
import rows

HERE = os.path.join(TOP, "tests", "c")
EXAMPLES = os.path.join(TOP, "c", "examples")
HEADER = os.path.join(TOP, "c", "flecsq.h")
STATIC = os.path.join(library.OUT, library.STATIC)
SECONDS = 300

C, CPP = ("-std=c11", "-Wall", "-Wextra", "-Wpedantic", "-Werror"), ("-std=c++11", "-Wall", "-Wextra", "-Wpedantic", "-Werror")
VALGRIND = ("valgrind", "--quiet", "--leak-check=full", "--show-leak-kinds=all", "--errors-for-leak-kinds=all", "--error-exitcode=9")

# of a script with more lines the library is given the whole alone
MOST_LINES = 100_000


class Skipped(Exception):
    """A tool is missing."""


def tool(name):
    found = shutil.which(name)
    if not found:
        raise Skipped(name)
    return found


def shared():
    return os.path.join(library.OUT, library.shared_names()[0])


def ran(*words, **named):
    """What a command wrote. It has to end with status 0."""
    done = subprocess.run(words, cwd=TOP, stdout=subprocess.PIPE, stderr=subprocess.STDOUT, timeout=SECONDS, check=False, **named)
    if done.returncode:
        raise ValueError(f"{' '.join(map(os.path.basename, words[:2]))} ended with status {done.returncode}: {done.stdout.decode('utf-8', 'replace')[:1000]}")
    return done.stdout


def compiled(room, source, *more):
    """The program of a C or C++ source, linked with the static library."""
    is_cpp, made = source.endswith(".cpp"), os.path.join(room, os.path.basename(source).replace(".", "_"))
    compiler, words = (tool("g++"), CPP) if is_cpp else (tool("gcc"), C)
    ran(compiler, *words, "-O1", "-I", os.path.dirname(HEADER), source, *(more or (STATIC,)), "-o", made)
    return made


# The header, and what the sources export.
NO_COMMENTS = re.compile(r"/\*.*?\*/", re.S)
OF_HEADER = re.compile(r"^(\w+) (flecsq_\w+)\(([^)]*)\);$", re.M)
OF_SOURCE = re.compile(r'#\[unsafe\(no_mangle\)\]\s*pub extern "C" fn (\w+)\(([^)]*)\)(?: -> (\w+))?')
STRUCT = re.compile(r"typedef struct (\w+) \{(.*?)\} \1;", re.S)
# (that of an entity has no `repr(C)`: its size is proved, and its fields are read from C)
OF_RATTLE = re.compile(r"(?:#\[repr\(C\)\]\s*#\[derive[^\n]*\]\s*pub struct (?=\w)|pub struct (?=EntityId ))(\w+) \{(.*?)^\}", re.S | re.M)
STATUS = re.compile(r"^ *FLECSQ_(\w+) = (\d+)", re.M)
CONSTANT = re.compile(r"^pub const (\w+): i32 = (\d+);", re.M)

TYPES = {
    **{"i32": "int32_t", "u64": "uint64_t", "usize": "size_t", "bool": "bool", None: "void", "*mut Opaque": "void *", "*const u8": "const uint8_t *"},
    **{"u16": "uint16_t", "u32": "uint32_t", "*const EntityId": "const flecsq_entity *", "&mut u64": "uint64_t *", "&mut usize": "size_t *"},
    **{"&mut bool": "bool *", "&mut Flecsq": "flecsq *", "&mut Span": "flecsq_span *", "&mut Ran": "flecsq_ran *", "&mut Column": "flecsq_values *"},
    **{"&Table": "const flecsq_table *", "Flecsq": "flecsq", "Span": "flecsq_span", "Ran": "flecsq_ran", "Column": "flecsq_values"},
    **{"Table": "flecsq_table", "EntityId": "flecsq_entity"},
}
SLICES = {"&[u8]": "const uint8_t *", "&mut [u8]": "uint8_t *", "&[i64]": "const int64_t *", "&mut [Table]": "flecsq_table *"}
# (what C sees of them)
CRATES = (library.CRATE, "ecs_id")


def type_and_name(declared):
    """A parameter or field of the header: its type, and its name."""
    found = re.fullmatch(r"(.*?)(\w+)", declared.strip())
    return found[1].strip(), found[2]


def functions_of_header():
    """Each function of the header: what it answers and takes."""
    found = OF_HEADER.findall(NO_COMMENTS.sub("", library.read(HEADER)))
    return {name: (answers, *(type_and_name(it)[0] for it in takes.split(","))) for answers, name, takes in found}


# what Python gives for each type of C. (A number of 64 bits is one type there, and bytes are, whoever writes to them)
PYTHON_TYPES = {
    **{"void": None, "int32_t": ctypes.c_int32, "uint64_t": ctypes.c_uint64, "size_t": ctypes.c_size_t, "flecsq *": flecsq.HANDLE},
    **{"flecsq_span *": flecsq.SPAN, "flecsq_ran *": ctypes.POINTER(flecsq.Ran), "const uint8_t *": ctypes.c_char_p, "uint8_t *": ctypes.c_char_p},
    **{"uint64_t *": flecsq.NUMBER, "size_t *": flecsq.SIZE, "bool *": ctypes.POINTER(ctypes.c_bool), "const int64_t *": ctypes.POINTER(ctypes.c_int64)},
    **{"flecsq_table *": flecsq.KEY, "const flecsq_table *": flecsq.KEY, "flecsq_values *": ctypes.POINTER(flecsq.Values)},
}


def sources():
    return [library.read(it) for crate in CRATES for it in sorted(glob.glob(os.path.join(TOP, "crates", crate, "src", "*.rt")))]


def c_types(takes):
    """What a function of the sources takes, as C gives it. A `Global` is no byte, and a slice is a pointer and a length."""
    for given in (it.strip().split(": ", 1)[1] for it in takes.split(",") if it.strip()):
        if given in SLICES:
            yield from (SLICES[given], "size_t")
        elif given != "Global":
            yield TYPES[given]


def functions_of_sources():
    return {name: (TYPES[answers or None], *c_types(takes)) for text in sources() for name, takes, answers in OF_SOURCE.findall(text)}


def structs_of_header():
    found = STRUCT.findall(NO_COMMENTS.sub("", library.read(HEADER)))
    return {name: [type_and_name(it) for it in fields.split(";") if it.strip()] for name, fields in found}


def structs_of_sources():
    """The structs of the sources that C sees, without what is ghost."""
    structs = {}
    for name, fields in (it for text in sources() for it in OF_RATTLE.findall(text)):
        listed = re.findall(r"^ {4}(?:pub )?(\w+): ([^,]+),$", fields, re.M)
        if name in TYPES:
            structs[TYPES[name]] = [(TYPES[kind], field) for field, kind in listed]
    return structs


def the_header_is_that_of_the_sources(room):
    """Functions with their types, in Python too, structs with their fields, statuses with their numbers."""
    statuses = dict(STATUS.findall(library.read(HEADER)))
    constants = dict(it for text in sources() for it in CONSTANT.findall(text))
    of_python = {name: tuple(PYTHON_TYPES[it] for it in types) for name, types in functions_of_header().items()}
    pairs = [(functions_of_header(), functions_of_sources()), (structs_of_header(), structs_of_sources()), (statuses, constants), (of_python, flecsq.FUNCTIONS)]
    for of_header, of_sources in pairs:
        if of_header != of_sources or not of_header:
            raise ValueError(f"{of_header} is not {of_sources}")
    return True


def exactly_these_are_exported(room):
    """The names of the header are those of the list of exports and of the shared library, which takes from outside only what allocates and copies. It is
    found by a name with a version, which Python knows too."""
    names, listed = set(functions_of_header()), set(re.findall(r"^    (flecsq_\w+);$", library.read(library.EXPORTS), re.M))
    if names != listed or flecsq.LIBRARY != library.shared_names()[1]:
        raise ValueError(f"{names}, {listed}, {flecsq.LIBRARY}")
    told = ran(tool("nm"), "-D", shared()).decode()
    exported = set(re.findall(r" T (\w+)@", told))
    taken = set(re.findall(r" U (\w+)", told))
    if exported != names or not taken <= {"malloc", "realloc", "free", "memcpy", "memmove", "memset", "memcmp", "bcmp"}:
        raise ValueError(told)
    return f"[{flecsq.LIBRARY}]" in ran(tool("readelf"), "-d", shared()).decode()


def sizes_and_offsets_are_those_of_the_header(room):
    """In C, in C++, and of the classes of Python."""
    header = os.path.join(HERE, "header.c")
    ran(tool("gcc"), *C, "-I", os.path.dirname(HEADER), "-fsyntax-only", header)
    ran(tool("g++"), *CPP, "-I", os.path.dirname(HEADER), "-fsyntax-only", "-x", "c++", header)
    names = {"flecsq": flecsq.Handle, "flecsq_span": flecsq.Span, "flecsq_ran": flecsq.Ran}
    names.update({"flecsq_entity": flecsq.Entity, "flecsq_table": flecsq.Key, "flecsq_values": flecsq.Values})
    told = re.findall(r"^LIES\((\w+), (\w+), (\d+), (\d+)\);", library.read(header), re.M)
    return len(told) == 17 and all(
        (getattr(names[kind], field).offset, getattr(names[kind], field).size) == (int(at), int(size)) for kind, field, at, size in told
    )


def the_header_is_c99_too(room):
    """Another dialect, and where it is there another compiler; in C++ a later one."""
    source = os.path.join(room, "only.c")
    with open(source, "w", encoding="ascii") as file:
        file.write('#include "flecsq.h"\n#include "flecsq.h"\n')
    flags = ("-Wall", "-Wextra", "-Wpedantic", "-Werror", "-I", os.path.dirname(HEADER), "-fsyntax-only")
    ran(tool("gcc"), "-std=c99", *flags, source)
    ran(tool("g++"), "-std=c++20", *flags, "-x", "c++", source)
    if shutil.which("clang"):
        ran("clang", "-std=c11", *flags, source)
    return True


def calls_answer_what_the_header_says(room):
    return ran(compiled(room, os.path.join(HERE, "calls.c"))) == b""


def calls_leak_nothing(room):
    return ran(tool("valgrind"), *VALGRIND[1:], compiled(room, os.path.join(HERE, "calls.c"))) == b""


def printed(name):
    """What an example prints."""
    with open(os.path.join(EXAMPLES, f"{name}.output"), "rb") as file:
        return file.read()


def c_examples_run(room):
    return all(ran(compiled(room, os.path.join(EXAMPLES, f"{it}.c"))) == printed(it) for it in ("cellar", "regatta"))


def cpp_example_runs(room):
    return ran(compiled(room, os.path.join(EXAMPLES, "chase.cpp"))) == printed("chase")


def python_examples_run(room):
    environment = {**os.environ, "PYTHONPATH": os.path.join(TOP, "tools")}
    return all(ran(sys.executable, os.path.join(EXAMPLES, f"{it}.py"), shared(), env=environment) == printed(it) for it in ("market", "orchard"))


def examples_leak_nothing(room):
    for source, name in (("cellar.c", "cellar"), ("regatta.c", "regatta"), ("chase.cpp", "chase")):
        if ran(tool("valgrind"), *VALGRIND[1:], compiled(room, os.path.join(EXAMPLES, source))) != printed(name):
            return False
    return True


def python_docstring_is_true(room):
    """Its sessions run as they stand there."""
    def session(library=shared()):
        return flecsq.Session(library)

    given = {"Session": session, "Refused": flecsq.Refused, "run": functools.partial(flecsq.run, library=shared())}
    text = re.sub(r"^    >>> from flecsq import [^\n]*\n", "", flecsq.__doc__, flags=re.M)
    test = doctest.DocTestParser().get_doctest(text, given, "flecsq.py", "flecsq.py", 0)
    failed, tried = doctest.DocTestRunner().run(test)
    return not failed and tried == 6


def python_tells_what_is_wrong(room):
    """A line feed, a closed session, another thread, and many bytes of output."""
    from concurrent.futures import ThreadPoolExecutor

    def said(call, *given):
        try:
            return call(*given)
        except ValueError as why:
            return str(why)

    session = flecsq.Session(shared())
    with ThreadPoolExecutor(1) as others:
        told = [said(session.line, "a\nb"), others.submit(said, session.line, "new").result(), session.line("new"), session.line(b"show #64.0")]
    session.close()
    session.close()
    told.append(said(session.line, "new"))
    script = "entity A\n" + "show A\n" * 100_000
    is_whole = flecsq.run(script, shared()) == b"show A\n" * 100_000
    return is_whole and told[2:4] == ["#64.0", "show #64.0"] and all(len(it) > 10 for it in (told[0], told[1], told[4])) and len(set(told)) == 5


def python_ends_what_is_lent(room):
    """A column that is read after a command, one of which a slice is kept, rows of another thread, and a query that is gone."""
    def said(call, *given):
        try:
            return call(*given)
        except (ValueError, LookupError, BufferError, flecsq.Refused) as why:
            return type(why)

    with flecsq.Session(shared()) as world:
        place, kind = world.component("Place", x="i32", y="i32"), world.component("Kind", code="u8", size="u32")
        bird = world.entity("Bird")
        world.set(bird, place, 3, -4)
        world.set(bird, kind, 7, 2**31)
        birds = world.query("Place")
        (table,) = birds.tables()
        column, coded = table.column(place), table.column(kind)
        is_seen = column.tolist() == [[3, -4]] and coded.shape == (1, 5) and table.values(kind) == [(7, 2**31)] and table.entities == [bird]
        is_seen = is_seen and column.readonly and len(table) == 1 and birds.rows() == [(bird,)]
        kept = column[:1]
        told = [said(world.set, bird, place, 1, 1), said(column.tolist), kept.tolist()]
        del kept
        told += [said(world.set, bird, place, 1, 1), said(coded.tolist), said(lambda: table.entities), table.values(place), bird in birds]
        told += [said(world.query, "Place,"), said(world.add, bird, 0), said(world.find, "Cat"), said(table.set, place, b"1"), world.told()]
        birds.drop()
        told += [said(birds.rows)]
    wanted = [BufferError, ValueError, [[3, -4]], None, ValueError, ValueError, [(1, 1)], True]
    return is_seen and told == [*wanted, flecsq.Refused, LookupError, LookupError, ValueError, "", LookupError]


def scripts():
    """Each script that the tests of the program run, with what it prints and its status."""
    for row in sorted(os.listdir(rows.ROWS)):
        yield row, rows.script_of(row), rows.read(row, "output"), int(rows.read(row, "status"))
    for path in sorted(glob.glob(os.path.join(TOP, "examples", "*.flecsq"))):
        with open(path, "rb") as script, open(path[: -len("flecsq")] + "output", "rb") as output:
            text, wanted = script.read(), output.read()
        yield os.path.basename(path), text, wanted, int(wanted.startswith(b"error ") or b"\nerror " in wanted)


def whole_and_by_lines(loaded, room, script, wanted, status):
    """What is wrong with a script that is run whole, and line by line."""
    made = flecsq.Ran()
    answer = loaded.flecsq_run(1, 2, script, len(script), room, len(room), made)
    if ctypes.string_at(room, made.written) != wanted:
        return "as a whole it prints something else"
    if (answer, made.refused > 0) != ((6, False) if status == 3 else (0, status == 1)):
        return f"as a whole it answers {answer}, with {made.refused} refused"
    if status == 3 or script.count(b"\n") > MOST_LINES:
        return None
    lines, handle, out = script.split(b"\n"), flecsq.Handle(), flecsq.Span()
    loaded.flecsq_open(3, 4, handle)
    answers = [loaded.flecsq_line(handle, line, len(line)) for line in (lines if lines[-1] else lines[:-1])]
    loaded.flecsq_output(handle, out)
    is_same = ctypes.string_at(out.at, out.len) == wanted
    loaded.flecsq_close(handle)
    if not is_same or not set(answers) <= {0, 1} or answers.count(1) != made.refused or len(answers) != made.lines:
        return "line by line it prints or answers something else"
    return None


def scripts_print_what_the_program_prints(room):
    """All of tests/rows and examples, as a whole, and line by line where they are not too long for that."""
    loaded, output, wrong, count = flecsq.load(shared()), ctypes.create_string_buffer(1 << 26), 0, 0
    for name, script, wanted, status in scripts():
        complaint = whole_and_by_lines(loaded, output, script, wanted, status)
        count += 1
        if complaint:
            print(f"{name}: {complaint}")
            wrong += 1
    return not wrong and count > 300


def refused_memory_leaves_nothing_behind(room):
    """Each call of malloc and realloc of a short script is refused once."""
    told = ran(compiled(room, os.path.join(HERE, "refusing.c"), STATIC, "-Wl,--wrap=malloc,--wrap=realloc,--wrap=free"))
    print(told.decode(), end="")
    return told.count(b"\n") == 1


def refused_memory_is_clean(room):
    program = compiled(room, os.path.join(HERE, "refusing.c"), STATIC, "-Wl,--wrap=malloc,--wrap=realloc,--wrap=free")
    return ran(tool("valgrind"), *VALGRIND[1:], program).count(b"\n") == 1


def threads_have_an_engine_each(room):
    return ran(compiled(room, os.path.join(HERE, "threads.c"), "-pthread", STATIC)) == b""


def instructions(program, function):
    """How many instructions a function takes that is called once."""
    counting = ("--tool=callgrind", "--collect-atstart=no", f"--toggle-collect={function}", f"--callgrind-out-file={os.devnull}")
    return int(re.search(rb"Collected : (\d+)", ran(tool("valgrind"), *counting, program))[1])


def a_line_costs_what_it_costs_in_a_script(room):
    """Up to a fifth more; by numbers it costs less, in a column a few instructions, and where the output is a few in all."""
    program = compiled(room, os.path.join(HERE, "costs.c"))
    functions = ("by_lines", "by_numbers", "by_column", "of_column", "by_matches", "without_them", "with_them", "of_output")
    counts = {it: instructions(program, it) for it in functions}
    by_lines, by_numbers, by_column, by_matches, of_output = (counts[it] // 2000 for it in ("by_lines", "by_numbers", "by_column", "by_matches", "of_output"))
    in_script, of_column = (counts["with_them"] - counts["without_them"]) // 2000, counts["of_column"]
    print(f"a set of a held component takes {by_lines} instructions as a line, {by_numbers} by numbers, {by_column} in a column, {in_script} in a script;")
    print(f"a column of a table {of_column} in all, whether an entity is in a query {by_matches}, the output {of_output}")
    is_cheap = by_column < 40 and of_column < 5000 and of_output < 50
    return 100 < by_lines < 1.2 * in_script and by_numbers < in_script and is_cheap and by_matches < by_lines


def install(folder):
    ran(sys.executable, library.__file__, "install", folder, env={**os.environ, "UNPROVED": "1"})


def no_link_stands_in_the_repository(room):
    """The gate refuses links: neither what is built is one, nor what is installed within the repository."""
    with tempfile.TemporaryDirectory(dir=library.OUT) as inside:
        install(inside)
        found = [os.path.join(at, it) for at, folders, files in os.walk(TOP) for it in (*folders, *files) if os.path.islink(os.path.join(at, it))]
        is_whole = all(os.path.isfile(os.path.join(inside, "lib", it)) for it in library.shared_names())
    if found:
        raise ValueError(", ".join(found))
    return is_whole


def what_is_installed_is_found(room):
    """By pkg-config, with the shared library."""
    install(room)
    lib = os.path.join(room, "lib")
    words = ran(tool("pkg-config"), "--cflags", "--libs", "flecsq", env={**os.environ, "PKG_CONFIG_PATH": os.path.join(lib, "pkgconfig")}).decode().split()
    program = os.path.join(room, "cellar")
    ran(tool("gcc"), *C, os.path.join(EXAMPLES, "cellar.c"), *words, f"-Wl,-rpath,{lib}", "-o", program)
    shutil.copy(os.path.join(TOP, "tools", "flecsq.py"), room)
    words = (sys.executable, "-c", "import flecsq; print(flecsq.Session().line('new'))")
    python = ran(*words, env={**os.environ, "PYTHONPATH": room, "LD_LIBRARY_PATH": lib})
    return ran(program) == printed("cellar") and f"{lib}/" in ran(tool("ldd"), program).decode() and python == b"#64.0\n"


def the_page_shows_what_stands_in_the_sources(room):
    """Each block of code of docs/C.md stands word for word in the source to which the line above it links last."""
    text = library.read(os.path.join(TOP, "docs", "C.md"))
    shown = [(found[2], text[: found.start()].rstrip().rsplit("\n", 1)[-1]) for found in docs.BLOCK.finditer(text) if found[1] in ("c", "cpp", "python")]
    for code, above in shown:
        linked = re.findall(r"\]\(\.\./([^()]+)\)", above)
        complaint = docs.strange_code(code, linked[-1] if linked else None)
        if complaint:
            raise ValueError(complaint)
    return len(shown) >= 3


CASES = [
    the_header_is_that_of_the_sources,
    exactly_these_are_exported,
    sizes_and_offsets_are_those_of_the_header,
    the_header_is_c99_too,
    calls_answer_what_the_header_says,
    calls_leak_nothing,
    c_examples_run,
    cpp_example_runs,
    python_examples_run,
    examples_leak_nothing,
    python_docstring_is_true,
    python_tells_what_is_wrong,
    python_ends_what_is_lent,
    scripts_print_what_the_program_prints,
    refused_memory_leaves_nothing_behind,
    refused_memory_is_clean,
    threads_have_an_engine_each,
    a_line_costs_what_it_costs_in_a_script,
    no_link_stands_in_the_repository,
    what_is_installed_is_found,
    the_page_shows_what_stands_in_the_sources,
]


def passes(case):
    """Whether a case is right: None where a tool that it needs is missing."""
    with tempfile.TemporaryDirectory() as room:
        try:
            return case(room)
        except Skipped as missing:
            print(f"library {case.__name__} is left out: {missing} isn't there")
            return None
        except (subprocess.SubprocessError, ValueError, LookupError, OSError) as why:
            print(f"library {case.__name__}: {type(why).__name__}: {str(why)[:2000]}")
            return False


def run(only=()):
    try:
        library.libraries()
    except library.Missing as missing:
        print(f"library FAILED: {missing}")
        return 0, 1
    answers = []
    for case in CASES:
        if not only or case.__name__ in only:
            answers.append(passes(case))
            if answers[-1] is False:
                print(f"library {case.__name__} FAILED")
    return answers.count(True), answers.count(False)


if __name__ == "__main__":
    passed, failed = run(sys.argv[1:])
    print(f"{passed} right, {failed} wrong")
    sys.exit(1 if failed else 0)
