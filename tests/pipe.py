#!/usr/bin/env python3
"""pipe.py PROGRAM: whether tools/flecsq_pipe.py, the client over a pipe, gets what the program prints."""
import contextlib
import doctest
import glob
import os
import random
import signal
import subprocess
import sys
import tempfile

TOP = os.path.realpath(os.path.join(os.path.dirname(os.path.realpath(__file__)), ".."))
sys.path.append(os.path.join(TOP, "tools"))

import flecsq_pipe
from flecsq_pipe import LIMIT, Answer, Ended, Refusal, Session, TooLong, parse

# the longest that a case may take: one that waits for ever is wrong
SECONDS = 60

# 100 entities, and a query of 10,000 rows
MANY = ["entity T", *(f"entity E{number}" for number in range(100)), *(f"add E{number} T" for number in range(100))]
ROWS = "query T($a), T($b)"


def some_lines(count):
    """A script of so many lines of all forms, some of them refused, and some that print what the fence prints."""
    chosen = random.Random(14)
    names = [f"E{number}" for number in range(20)]
    entity = lambda: chosen.choice([*names, "#90.0", "Panic", "Nobody"])
    ident = lambda: chosen.choice(["T", "P", "Q", "Prefab", "(R,T)", f"(R,{entity()})", f"(P,{entity()})", f"(ChildOf,{entity()})"])
    texts = ["T, P", "(R,$x), ?P", "P(self|up), !T", "*", "(*,*)", "T || P, $this != E3", "!{ T, P }", "T(up", "(R,$x), !(R,$y)", "Pp"]
    stored = ["monitor", "keep", "on add", "on remove", "on set"]
    forms = [
        lambda: f"add {entity()} {ident()}",
        lambda: f"set {entity()} P {chosen.randrange(-200, 200)}",
        lambda: f"set {entity()} (Q,T) {chosen.randrange(9)} -{chosen.randrange(9)}",
        lambda: f"remove {entity()} {ident()}",
        lambda: f"show {entity()}",
        lambda: chosen.choice(["show Panic", " show\t#18.0\r", "show Panic x", "show", "showPanic", "// show Panic", "", "fly", "new"]),
        lambda: f"query {chosen.choice(texts)}",
        lambda: f"{chosen.choice(stored)} w{chosen.randrange(9)} {chosen.choice([*texts, 'P', '(R,*)', '*'])}",
        lambda: f"{chosen.choice(['rows', 'drop'])} w{chosen.randrange(9)}",
        lambda: chosen.choice([f"delete {chosen.choice(names)}", f"entity {chosen.choice(names)}"]),
    ]
    first = ["component P v:i8", "component Q a:u8 b:i16", "entity T", "entity R", *(f"entity {name}" for name in names)]
    return [*first, *(chosen.choice(forms)() for _ in range(count - len(first)))]


def printed(program, script):
    return subprocess.run([program], input=script, stdout=subprocess.PIPE, timeout=SECONDS, check=False).stdout.decode()


def docstring_is_true(program, room):
    """Its session runs as it stands there, with this program as the command flecsq."""
    os.symlink(program, os.path.join(room, "flecsq"))
    path = os.environ["PATH"]
    os.environ["PATH"] = f"{room}:{path}"
    try:
        failed, tried = doctest.testmod(flecsq_pipe)
        return not failed and tried > 10
    finally:
        os.environ["PATH"] = path


def lines_are_parsed_and_printed_back(program, room):
    """Each line of the outputs of tests/rows and of examples/."""
    lines = []
    for path in glob.glob(os.path.join(TOP, "tests", "rows", "*", "output*")) + glob.glob(os.path.join(TOP, "examples", "*.output")):
        with open(path, encoding="ascii") as file:
            lines += file.read().splitlines()
    return len(lines) > 1000 and all(str(parse(line)) == line for line in lines)


def other_lines_are_not_parsed(program, room):
    def is_parsed(line):
        with contextlib.suppress(ValueError):
            return parse(line)

    wrong = ["", "row ", "row $this=", "row [T]", "row [T@E=]", "row [-] $x=E", "rows", "rows -1", "rows 1\n", "show", "show E [T"]
    wrong += ["show E  [T]", "enter m", "enter m E T", "add m E", "add m E (R,T", "error BadLine", "error 1 Lex 2", "#1", "E", "drop k"]
    return not any(is_parsed(line) for line in wrong)


def session_gets_what_a_run_prints(program, room):
    """2,000 lines one by one, and as a whole: the same output, with the same numbers of lines."""
    lines = some_lines(2000)
    with Session(program) as session:
        answers = [session.send(line) for line in lines]
        status = session.close()
    told = "".join(f"{line}\n" for answer in answers for line in answer.lines())
    kinds = {part for answer in answers for part in Answer.__dataclass_fields__ if getattr(answer, part) != getattr(Answer(), part)}
    return told == printed(program, "\n".join(lines).encode()) and status == 1 and kinds == set(Answer.__dataclass_fields__)


def refusals_have_the_numbers_of_lines(program, room):
    with Session(program) as session:
        told = [session.send(line).refusal for line in ("entity Sun", "// a comment", b"entity \xff", "query Sun,, Sun", "add #7000.0 Sun")]
        return told == [None, None, Refusal(3, "BadLine"), Refusal(4, "Syntax", (4, 5)), Refusal(5, "Dead")] and session.close() == 1


def nothing_is_taken_for_the_fence(program, room):
    """Lines of `show` in all spellings: each prints one line, also that of the fence."""
    blank = [bytes([byte]) for byte in range(256) if byte != 10]
    spellings = [b"show" + byte + word for byte in blank for word in (b"Panic", b"#18.0", b"#000018.00000\r")]
    spellings += [b"\tshow  Panic ", b"show", b"show ", b"show Panic Panic", b"show Panik", b"show " + b"Panic".rjust(5000)]
    spellings += [b"Show Panic", b"showPanic", b"//show Panic"]
    with Session(program) as session:
        told = [str(session.send(line)) for line in spellings]
    output = printed(program, b"\n".join(spellings))
    return "".join(f"{line}\n" for line in told if line) == output and output.count("show Panic\n") == 10


def many_rows_come(program, room):
    with Session(program) as session:
        for line in MANY:
            session.send(line)
        answer = session.send(ROWS)
        pairs = [(row.variables["$a"], row.variables["$b"]) for row in answer.rows]
        return answer.count == 10_000 and pairs == [(f"E{a}", f"E{b}") for a in range(100) for b in range(100)] and session.close() == 0


def limit_is_kept(program, room):
    """A line that doesn't fit with its fence isn't sent, and a shorter one is. The last byte can be used, as the program counts them."""
    with Session(program, limit=100) as session:
        session.send("entity Sun")
        try:
            session.send("query " + 62 * " " + "Sun")
            return False
        except TooLong:
            is_small_kept = session.left == 78 and session.send("query Sun").count == 0
    with Session(program) as session:
        told = session.send(b"/" * (LIMIT - 12)).refusal
        try:
            session.send("")
            return False
        except TooLong:
            return is_small_kept and told == Refusal(1, "LineTooLong") and session.left == 0 and session.close() == 1


def end_of_the_program_is_told(program, room):
    """Its status and standard error: of a fault that the session's limit would have kept away, of a signal, and of what isn't flecsq."""
    killed = os.path.join(room, "killed")
    with open(killed, "w", encoding="ascii") as file:
        file.write("#!/bin/sh\nread line\necho rows 0\nkill -9 $$\n")
    os.chmod(killed, 0o755)
    told = []
    for words in ({"program": program, "limit": 2 * LIMIT}, {"program": killed}, {"program": "false"}):
        with contextlib.suppress(Ended):
            with Session(**words) as session:
                try:
                    session.send(b"/" * (LIMIT + 1 if program in words.values() else 1))
                except Ended as ended:
                    told.append((ended.status, ended.complaint, ended.lines))
                    raise
    return told == [(3, "flecsq: script too long\n", ()), (-9, "", ("rows 0",)), (1, "", ())]


def wrong_use_is_told(program, room):
    with Session(program) as session:
        session.close()
        for line in ("new\nnew", "new"):
            try:
                session.send(line)
                return False
            except ValueError:
                pass
    return True


CASES = [
    docstring_is_true,
    lines_are_parsed_and_printed_back,
    other_lines_are_not_parsed,
    session_gets_what_a_run_prints,
    refusals_have_the_numbers_of_lines,
    nothing_is_taken_for_the_fence,
    many_rows_come,
    limit_is_kept,
    end_of_the_program_is_told,
    wrong_use_is_told,
]


def complaint_of(case, program):
    def give_up(*_):
        raise TimeoutError(f"it waits for more than {SECONDS} s")

    before = signal.signal(signal.SIGALRM, give_up)
    signal.alarm(SECONDS)
    try:
        with tempfile.TemporaryDirectory() as room:
            return None if case(program, room) else "FAILED"
    except Exception as error:
        return f"FAILED: {error!r}"
    finally:
        signal.alarm(0)
        signal.signal(signal.SIGALRM, before)


def run(program):
    """How many of the cases are right and wrong."""
    failed = 0
    for case in CASES:
        complaint = complaint_of(case, program)
        if complaint:
            print(f"client over a pipe: {case.__name__} {complaint}")
            failed += 1
    return len(CASES) - failed, failed


if __name__ == "__main__":
    sys.exit(1 if run(os.path.abspath(sys.argv[1]))[1] else 0)
