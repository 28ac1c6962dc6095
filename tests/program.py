#!/usr/bin/env python3
"""program.py PROGRAM: runs the program from outside: its statuses, standard error, help and streams."""
import os
import resource
import select
import subprocess
import sys
import tempfile

import explained
import hostile
import monitors

SCRIPT = b"entity Sun\nquery Sun\n"
OUTPUT = b"rows 0\n"


# Runs a program on a file, and tells its peak of resident memory in KB. (A process of its own: what a parent has held counts for
# its children.)
PEAK = """
import resource, subprocess, sys
subprocess.run(sys.argv[1:], stdin=subprocess.DEVNULL, stdout=subprocess.DEVNULL, check=True)
print(resource.getrusage(resource.RUSAGE_CHILDREN).ru_maxrss)
"""


def run_words(program, words, script=b"", seconds=60, **streams):
    streams = {"stdout": subprocess.PIPE, "stderr": subprocess.PIPE, **streams}
    return subprocess.run([program, *words], input=script, timeout=seconds, **streams)


def processor_seconds():
    """What the programs that have ended took of processors: it hardly hangs on what else the machine does."""
    spent = resource.getrusage(resource.RUSAGE_CHILDREN)
    return spent.ru_utime + spent.ru_stime


def least_seconds(program, script, most):
    """The least processor time of three runs, each of which may take so many seconds."""
    times = []
    for _ in range(3):
        begun = processor_seconds()
        if run_words(program, [], script, most).returncode:
            raise ValueError("the script is not accepted")
        times.append(processor_seconds() - begun)
    return min(times)


def peak_of(program, script, room):
    """The peak of resident memory of a run, in KB."""
    with open(os.path.join(room, "walk"), "wb") as file:
        file.write(script)
    words = [sys.executable, "-c", PEAK, program, file.name]
    return int(subprocess.run(words, stdout=subprocess.PIPE, timeout=120, check=True).stdout)


def peak_and_output(program, script):
    """The peak of resident memory of a run, in KB, and its output. It is read while standard input stays open: at the end of a process the kernel counts what its parent held too."""
    with subprocess.Popen([program], stdin=subprocess.PIPE, stdout=subprocess.PIPE) as running:
        running.stdin.write(script + b"fly\n")
        running.stdin.flush()
        output = []
        while not (output and output[-1].startswith(b"error ")):
            output.append(running.stdout.readline())
        with open(f"/proc/{running.pid}/status", encoding="ascii") as status:
            return int(next(line for line in status if line.startswith("VmHWM:")).split()[1]), output[:-1]


def answers(ran, status, output=None, complaint=None):
    return ran.returncode == status and output in (None, ran.stdout) and complaint in (None, ran.stderr)


def reads_standard_input(program, room):
    return answers(run_words(program, [], SCRIPT), 0, OUTPUT, b"")


def reads_a_file(program, room):
    with open(os.path.join(room, "some script"), "wb") as file:
        file.write(SCRIPT)
    return answers(run_words(program, [os.path.join(room, "some script")]), 0, OUTPUT, b"")


def refused_line_is_status_1(program, room):
    return answers(run_words(program, [], b"fly\n"), 1, b"error 1 BadLine\n", b"")


def missing_file_is_a_read_fault(program, room):
    return answers(run_words(program, [os.path.join(room, "none")]), 3, b"", b"flecsq: read fault\n")


def folder_as_file_is_a_read_fault(program, room):
    return answers(run_words(program, [room]), 3, b"", b"flecsq: read fault\n")


def two_files_are_a_wrong_use(program, room):
    ran = run_words(program, ["a", "b"])
    return answers(ran, 2, b"") and b"unexpected argument 'b'" in ran.stderr and b"Usage: flecsq" in ran.stderr


def unknown_flag_is_a_wrong_use(program, room):
    ran = run_words(program, ["--fly"])
    return answers(ran, 2, b"") and b"--fly" in ran.stderr and b"Usage: flecsq" in ran.stderr


def arguments_are_judged_before_the_file(program, room):
    return answers(run_words(program, [os.path.join(room, "none"), "--fly"]), 2, b"")


def help_tells_lines_statuses_and_the_reference(program, room):
    ran = run_words(program, ["--help"])
    lines = ran.stdout.decode().splitlines()
    forms = ["entity NAME", "new", "component NAME FIELD:KIND ..", "add ENTITY ID", "set ENTITY ID VALUE ..", "remove ENTITY ID"]
    forms += ["delete ENTITY", "show ENTITY", "query TERM, ..", "keep NAME TERM, ..", "rows NAME", "monitor NAME TERM, ..", "on EVENT NAME TERM"]
    forms += ["drop NAME", "// .."]
    statuses = ["0  Every line was accepted", "1  A line was refused", "2  The arguments are wrong", "3  A read or a write failed"]
    return (
        answers(ran, 0, complaint=b"")
        and "Usage: flecsq [FILE]" in lines
        and "       flecsq --explain [FILE]" in lines
        and any("rlwrap flecsq" in line for line in lines)
        and any("/dev/stdin" in line for line in lines)
        and all(any(line.startswith(f"  {form}  ") for line in lines) for form in forms)
        and all(any(line.startswith(f"  {status}") for line in lines) for status in statuses)
        and "docs/LANGUAGE.md" in lines[-1]
        and all(len(line) <= 80 for line in lines)
    )


def script_of_the_help_prints_what_it_says(program, room):
    lines = run_words(program, ["--help"]).stdout.decode().splitlines()
    first = next(at for at, line in enumerate(lines) if line.startswith("This script")) + 1
    last = next(at for at, line in enumerate(lines) if line.startswith("It prints"))
    ran = run_words(program, [], "\n".join(lines[first:last]).encode())
    return ran.returncode == 0 and lines[last] == "It prints `{}` and `{}`.".format(*ran.stdout.decode().splitlines())


def explain_writes_what_a_run_writes(program, room):
    """Standard output and status are those of the same script without --explain, which leaves standard error empty."""
    for name, script in (("all", explained.WORLD), *((kind, explained.WORLD + case.script) for kind, case in explained.CASES.items())):
        with open(os.path.join(room, name), "wb") as file:
            file.write(script)
        plain, telling = run_words(program, [file.name]), run_words(program, ["--explain", file.name])
        if not answers(telling, plain.returncode, plain.stdout) or plain.stderr:
            raise ValueError(name)
    return True


def each_kind_of_refusal_is_explained(program, room):
    """The file, the line and the kind, the line, marks under what is wrong, and a sentence that no other kind has."""
    sentences = {}
    for kind, case in explained.CASES.items():
        ran = run_words(program, ["--explain"], explained.WORLD + case.script)
        head, line, *marks, sentence = ran.stderr.decode().splitlines()[-3 - bool(case.marks) :]
        number = explained.line_of(case)
        if head != f"(standard input):{number}: {case.kind}" or marks != [case.marks] * bool(case.marks) or line != case.quote:
            raise ValueError(f"{kind}: {head} / {line} / {marks}")
        if case.is_all and sentence != f"  {case.word}":
            raise ValueError(f"{kind}: {sentence}")
        if case.word not in sentence or (case.kind != "BadLine" and sentences.setdefault(sentence, case.kind) != case.kind):
            raise ValueError(f"{kind}: {sentence}")
    return len(sentences) >= 30


def explain_answers_line_by_line(program, room):
    """The pipe stays open while an explanation is read."""
    with subprocess.Popen([program, "--explain"], stdin=subprocess.PIPE, stdout=subprocess.PIPE, stderr=subprocess.PIPE) as running:
        running.stdin.write(b"querry Sun\n")
        running.stdin.flush()
        if not select.select([running.stderr], [], [], 20)[0]:
            running.kill()
            return False
        told = running.stderr.readline()
        running.stdin.close()
        output, rest = running.stdout.read(), running.stderr.read()
    return told == b"(standard input):1: BadLine\n" and output == b"error 1 BadLine\n" and rest.count(b"\n") == 3


def explain_survives_a_closed_standard_error(program, room):
    ran = subprocess.run(["sh", "-c", 'exec "$0" --explain 2>&-', program], input=b"fly\n", stdout=subprocess.PIPE, timeout=60)
    return answers(ran, 1, b"error 1 BadLine\n")


def read_faults_are_explained(program, room):
    """A second line names the file and, where the system gives one, the reason."""
    none, closed = os.path.join(room, "none"), ["sh", "-c", 'exec "$0" --explain <&-', program]
    with open(os.path.join(room, "whole"), "wb") as file:
        file.write(SCRIPT)
    cases = [
        (run_words(program, ["--explain", none]), f"{none}: No such file or directory"),
        (run_words(program, ["--explain", room]), f"{room}: Is a directory"),
        (run_words(program, ["--explain", os.path.join(file.name, "below")]), f"{file.name}/below: Not a directory"),
        (subprocess.run(closed, stdout=subprocess.PIPE, stderr=subprocess.PIPE, timeout=60, check=False), "(standard input): Bad file descriptor"),
    ]
    return all(answers(ran, 3, b"", f"flecsq: read fault\nflecsq: {why}\n".encode()) for ran, why in cases)


def explained_lines_take_time_in_proportion(program, room):
    """100,000 lines with unknown names after 2,048 names, of which none is near, are explained within ten seconds; 25,000 take a quarter of that, or little more."""
    names = "".join(f"entity Planet{number}\ncomponent Weight{number} kg:u8\n" for number in range(1024))
    times = []
    for count in (25_000, 100_000):
        begun = processor_seconds()
        ran = run_words(program, ["--explain"], (names + "show Planetoids\n" * count).encode(), 100)
        times.append(processor_seconds() - begun)
        if not answers(ran, 1) or ran.stderr.count(b"\n") != 4 * count:
            return False
    return times[1] < 10 and times[1] < 6 * times[0]


def version_is_told(program, room):
    """Which build it is; where the variable FLECSQ_BUILD says which one is tested, that one."""
    told = {"proved": b"flecsq 0.1.0 (proved)\n", "unproved": b"flecsq 0.1.0 (not proved)\n"}
    build = os.environ.get("FLECSQ_BUILD")
    ran = run_words(program, ["--version"])
    return answers(ran, 0, complaint=b"") and ran.stdout in ([told[build]] if build in told else told.values())


def closed_output_is_a_write_fault(program, room):
    read_end, write_end = os.pipe()
    os.close(read_end)
    try:
        return answers(run_words(program, [], SCRIPT, stdout=write_end), 3, complaint=b"flecsq: write fault\n")
    finally:
        os.close(write_end)


def no_output_at_all_is_a_write_fault(program, room):
    ran = subprocess.run(["sh", "-c", 'exec "$0" >&-', program], input=SCRIPT, stderr=subprocess.PIPE, timeout=60)
    return answers(ran, 3, complaint=b"flecsq: write fault\n")


def full_disk_is_a_write_fault(program, room):
    with open("/dev/full", "wb") as full:
        return answers(run_words(program, [], SCRIPT, stdout=full), 3, complaint=b"flecsq: write fault\n")


def pieces_do_not_matter(program, room):
    """The script comes byte by byte, as from a slow pipe."""
    with subprocess.Popen([program], stdin=subprocess.PIPE, stdout=subprocess.PIPE, stderr=subprocess.PIPE) as running:
        for byte in SCRIPT:
            running.stdin.write(bytes([byte]))
            running.stdin.flush()
        output, complaint = running.communicate(timeout=60)
    return running.returncode == 0 and output == OUTPUT and complaint == b""


def each_line_is_answered_before_the_next_is_sent(program, room):
    """The pipe stays open while each answer is read."""
    asked = [b"fly\n", b"new\n", b"entity Sun\nshow Sun\n", b"add Sun Nowhere\n", b"query Prefab"]
    told = [b"error 1 BadLine\n", b"#64.0\n", b"show Sun\n", b"error 5 UnknownName\n"]
    with subprocess.Popen([program], stdin=subprocess.PIPE, stdout=subprocess.PIPE) as running:
        for line, answer in zip(asked, told):
            running.stdin.write(line)
            running.stdin.flush()
            if not select.select([running.stdout], [], [], 20)[0] or running.stdout.readline() != answer:
                running.kill()
                return False
        rest, _ = running.communicate(asked[-1], timeout=20)
    return running.returncode == 1 and rest == b"rows 0\n"


def memory_holds_neither_script_nor_output(program, room):
    """16 MB of lines that print 200 MB, beside the same world after its first lines."""
    tags = [f"Tag{n}_with_some_letters" for n in range(4)]
    first = [f"entity {tag}" for tag in tags] + ["entity S"] + [f"add S {tag}" for tag in tags]
    few = "".join(line + "\n" for line in first).encode()
    many = few + b"show S\n" * ((16_777_216 - len(few)) // 7)
    return peak_of(program, many, room) - peak_of(program, few, room) <= 10_000


def rows_of_one_line_are_written_as_they_come(program, room):
    """A query and a kept one print 390,625 rows, 13 MB, by one line each: the same, in 2 MB more than the lines before take. A reader who goes away is a write fault."""
    few = [f"entity {name}" for name in ["A", *(f"T{number}" for number in range(25))]] + [f"add A T{number}" for number in range(25)]
    query = "*(A), *(A), *(A), *(A)"
    outputs = []
    for asked in (f"query {query}", f"keep k {query}\nrows k"):
        script = "\n".join([*few, asked, ""]).encode()
        peak, output = peak_and_output(program, script)
        outputs.append(output)
        if peak > peak_and_output(program, "\n".join([*few, ""]).encode())[0] + 2_000:
            return False
        with subprocess.Popen([program], stdin=subprocess.PIPE, stdout=subprocess.PIPE, stderr=subprocess.PIPE) as running:
            running.stdin.write(script)
            running.stdin.close()
            begun = running.stdout.read(100_000)
            running.stdout.close()
            if running.wait(20) != 3 or running.stderr.read() != b"flecsq: write fault\n" or not b"".join(output).startswith(begun):
                return False
    return outputs[0] == outputs[1] and len(set(outputs[0])) == 390_626 and outputs[0][-1] == b"rows 390625\n"


def two_thousand_lines_take_less_than_two_seconds(program, room):
    names = [f"E{n}" for n in range(500)]
    lines = ["component Position x:i32 y:i32", "entity Planet"]
    lines += [f"entity {name}" for name in names]
    lines += [f"set {name} Position {n} -{n}" for n, name in enumerate(names)]
    lines += [f"add {name} Planet" for name in names]
    lines += ["query Position, Planet"] * 498
    begun = processor_seconds()
    ran = run_words(program, [], "\n".join(lines).encode())
    return ran.returncode == 0 and ran.stdout.endswith(b"rows 500\n") and processor_seconds() - begun < 2


def colliding_names_take_at_most_twice_as_long(program, room):
    """40,000 names whose hashes agree under the hasher's fixed seed, against as many other names. (So short a time as the floor
    tells nothing.)"""
    others = least_seconds(program, hostile.script_of_names(hostile.other_names(40_000)), 60)
    most = max(2 * others, 0.25)
    return least_seconds(program, hostile.script_of_names(hostile.colliding_names(40_000)), 2 * most + 2) <= most


def walk_through_tables_gives_memory_back(program, room):
    """Sixteen entities of 3 KB of values walk through 4,096 tables: each emptied one may hold on to 10 KB, for its ids, its
    columns and its edges, and the program to the script and to the output."""
    steps, short = (hostile.walk_through_tables(count, 16) for count in (4_096, 64))
    grown = peak_of(program, steps, room) - peak_of(program, short, room)
    return grown <= 10 * 4_032 + 2 * (len(steps) - len(short)) // 1024


def dead_ends_lead_back_to_what_they_hang_on(program, room):
    """Queries of eight branches, each to twenty entities, that fail behind the last: in less than a second."""
    begun = processor_seconds()
    ran = run_words(program, [], hostile.dead_branches(8, 20))
    return processor_seconds() - begun < 1 and answers(ran, 0, b"rows 0\nrows 0\nrow $this=H0 [T@H0]\nrow $this=H1 [T@H1]\nrows 2\nrows 0\n")


def local_monitors_cost_what_changed(program, room):
    """100,000 entities, ten monitors of local queries and 10,000 commands in less than a second."""
    script = monitors.many_entities(100_000, 10_000)
    begun = processor_seconds()
    ran = run_words(program, [], script)
    return processor_seconds() - begun < 1 and answers(ran, 0) and ran.stdout.count(b"\n") > 10_000


def are_told_as_twins(program, texts, more):
    """20,000 commands: whether each monitor is told what its twin is told, whose whole rows are taken."""
    output = run_words(program, [], monitors.twins(texts, more, 20_000)).stdout
    told = [[monitors.told_to(output, f"{side}{number}") for side in "mn"] for number in range(len(texts))]
    return all(one == other and len(one) >= 10 for one, other in told)


def local_monitors_are_told_as_whole_rows_tell(program, room):
    """A twin asks an ancestor that it may have, so its query isn't local."""
    return are_told_as_twins(program, monitors.LOCAL, "?Hot(up)")


def other_monitors_are_told_as_whole_rows_tell(program, room):
    """A twin asks Sun for any id that it may have, so each fact concerns it for somebody who isn't told by its own."""
    return are_told_as_twins(program, monitors.OTHERS + monitors.LINKED + monitors.UNTIED, "?*(Sun)")


def monitors_of_few_bytes_take_little_memory(program, room):
    """Monitors whose ten and sixteen variables are anybody, and one of three variables over 400 entities: in less than a second each, and in 2 MB more than a script of one line."""
    scripts = [monitors.of_anybody(10), monitors.of_anybody(16), monitors.of_three(400)]
    few = peak_and_output(program, b"entity A\n")[0]
    return all(least_seconds(program, script, 20) < 1 and peak_and_output(program, script)[0] <= few + 2_000 for script in scripts)


def monitors_cost_who_moves(program, room):
    """Monitors that go up, have variables, groups or wildcards, each of 30,000 rows of which 10,000 commands move one, in less than a second each."""
    for text in monitors.MANY_ROWS:
        begun = processor_seconds()
        ran = run_words(program, [], monitors.many_rows(text, 30_000, 10_000))
        if processor_seconds() - begun >= 1 or not answers(ran, 0) or ran.stdout.count(b"\n") != 10_000:
            return False
    return True


def unconcerned_monitors_cost_nothing(program, room):
    """30,000 entities, a monitor that asks ancestors, and 10,000 commands that don't concern it, in less than a second; and three that do."""
    script = monitors.unconcerned(30_000, 10_000)
    begun = processor_seconds()
    ran = run_words(program, [], script)
    told = monitors.told_to(ran.stdout, "m")
    return processor_seconds() - begun < 1 and answers(ran, 0) and told == [("enter", ["E1"]), ("leave", ["E3"]), ("leave", ["E0"])]


def stored_queries_are_told_as_if_alone(program, room):
    """200 stored queries of every sort at once, dropped and stored again among 2,000 commands: each is told what it is told with nothing else
    stored."""
    world, moves, stored = monitors.stored_at_once(200, 2_000)
    together = monitors.told_to_each(run_words(program, [], monitors.with_stored(world, moves, stored)).stdout)
    told = 0
    for name, lines in stored:
        alone = monitors.told_to_each(run_words(program, [], monitors.with_stored(world, moves, [(name, lines)])).stdout)
        if together.get(name, []) != alone.get(name, []):
            return False
        told += len(alone.get(name, []))
    return told > 5_000


def a_drop_and_a_command_cost_what_they_touch(program, room):
    """1,000 stored queries of each sort that commands don't concern: 20,000 commands, and drops that begin with the oldest, within a second each."""
    for kind, text in (("keep", "Hot"), ("monitor", "Hot"), ("monitor", "Hot(up)"), ("on add", "Hot")):
        lines = monitors.making(["Planet", "Hot", "Earth"]) + [f"{kind} q{number} {text}" for number in range(1_000)]
        lines += ["add Earth Planet", "remove Earth Planet"] * 10_000 + [f"drop q{number}" for number in range(1_000)]
        begun = processor_seconds()
        ran = run_words(program, [], monitors.bytes_of(lines))
        if processor_seconds() - begun > 1 or not answers(ran, 0) or ran.stdout:
            return False
    return True


def kept_lists_take_little_memory(program, room):
    """256 kept queries, each asked once, over 16,384 tables: they take at most 4 MB more than one does, where keys of tables would take 64 MB."""
    for text in ("T13", "T0"):
        one, many = (peak_and_output(program, monitors.kept_over_tables(kept, 14, text)) for kept in (1, 256))
        if many[1] != 256 * one[1] or many[0] > one[0] + 4_000:
            return False
    return True


def kept_queries_are_right_in_worlds_that_grow(program, room):
    """Kept queries are planned anew as the world grows: each time they print what the same query prints."""
    kept = {"d": "(ChildOf,$p), Tag, Hot($p)", "f": "(Likes,$x), Hot($x), Tag", "g": "Hot($x), Tag, !(ChildOf,$x)"}
    lines = [f"entity {name}" for name in ("Tag", "Hot", "Cold", "Likes")] + [f"keep {name} {text}" for name, text in kept.items()]
    for step in range(300):
        lines += [f"entity P{step}", f"entity C{step}", f"add C{step} (ChildOf,P{step})"]
        lines += [f"add C{step} Tag"] * (step % 3 > 0) + [f"add C{step} Cold"] * (step % 2)
        lines += [f"add P{step // 2} Hot", f"add C{step} (Likes,P{step // 3})"] * (step % 7 == 0) + [f"remove P{step // 3} Hot"] * (step % 11 == 5)
        if step % 10 == 0:
            lines += [line for name, text in kept.items() for line in (f"rows {name}", f"query {text}")]
    ran = run_words(program, [], "\n".join(lines).encode())
    answered = ran.stdout.decode().replace("\n", "\n\0").split("\0")
    blocks, block = [], []
    for line in answered[:-1]:
        block.append(line)
        if line.startswith("rows "):
            blocks.append(block)
            block = []
    pairs = list(zip(blocks[::2], blocks[1::2]))
    return answers(ran, 0) and len(pairs) == 90 and all(one == other for one, other in pairs) and sum(len(one) > 1 for one, _ in pairs) > 50


CASES = [
    reads_standard_input,
    reads_a_file,
    refused_line_is_status_1,
    missing_file_is_a_read_fault,
    folder_as_file_is_a_read_fault,
    two_files_are_a_wrong_use,
    unknown_flag_is_a_wrong_use,
    arguments_are_judged_before_the_file,
    help_tells_lines_statuses_and_the_reference,
    script_of_the_help_prints_what_it_says,
    explain_writes_what_a_run_writes,
    each_kind_of_refusal_is_explained,
    explain_answers_line_by_line,
    explain_survives_a_closed_standard_error,
    read_faults_are_explained,
    explained_lines_take_time_in_proportion,
    version_is_told,
    closed_output_is_a_write_fault,
    no_output_at_all_is_a_write_fault,
    full_disk_is_a_write_fault,
    pieces_do_not_matter,
    each_line_is_answered_before_the_next_is_sent,
    memory_holds_neither_script_nor_output,
    rows_of_one_line_are_written_as_they_come,
    two_thousand_lines_take_less_than_two_seconds,
    colliding_names_take_at_most_twice_as_long,
    walk_through_tables_gives_memory_back,
    dead_ends_lead_back_to_what_they_hang_on,
    local_monitors_cost_what_changed,
    local_monitors_are_told_as_whole_rows_tell,
    other_monitors_are_told_as_whole_rows_tell,
    unconcerned_monitors_cost_nothing,
    monitors_of_few_bytes_take_little_memory,
    monitors_cost_who_moves,
    stored_queries_are_told_as_if_alone,
    a_drop_and_a_command_cost_what_they_touch,
    kept_lists_take_little_memory,
    kept_queries_are_right_in_worlds_that_grow,
]


def passes(case, program, room):
    try:
        return case(program, room)
    except (subprocess.SubprocessError, ValueError, LookupError, StopIteration) as why:
        print(f"program {case.__name__}: {type(why).__name__}: {str(why)[:200]}")
        return False


def run(program):
    failed = 0
    with tempfile.TemporaryDirectory() as room:
        for case in CASES:
            if not passes(case, program, room):
                print(f"program {case.__name__} FAILED")
                failed += 1
    return len(CASES) - failed, failed


if __name__ == "__main__":
    sys.exit(1 if run(os.path.abspath(sys.argv[1]))[1] else 0)
