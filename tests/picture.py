#!/usr/bin/env python3
"""picture.py [PROGRAM]: whether tools/picture.py draws what a script makes, and what the lines of `show` show.

Without a program only what needs none is tried.
"""
import os
import re
import subprocess
import sys
import tempfile
import xml.etree.ElementTree

TOP = os.path.realpath(os.path.join(os.path.dirname(os.path.realpath(__file__)), ".."))
TOOL = os.path.join(TOP, "tools", "picture.py")
PICTURE, PAGE, LAST = "docs/first_world.svg", "README.md", "delete Earth"

OUTPUT = """rows 0
show Sun [Position=9,9]
show Sun [Position=0,0]
show Earth [Position=10,-3] [Planet] [(ChildOf,Sun)]
show Mars [Position=-1,2] [Planet] [(ChildOf,Sun)]
show #70.0 [(Holds,Earth)=7]
error 9 BadLine
enter m Moon
"""

# The same world, without a line of `show`. Far is shown since it holds something, and Idle since nobody has it.
SCRIPT = """component Position x:i32 y:i32
entity Planet
component Holds n:u8
entity Sun
entity Earth
entity Mars
new
entity Idle
entity Far
add Far Transitive
set Sun Position 0 0
set Earth Position 10 -3
set Mars Position -1 2
add Earth Planet
add Mars Planet
add Earth (ChildOf,Sun)
add Mars (ChildOf,Sun)
set #70.0 (Holds,Earth) 7
fly Sun
// the end of what is drawn
delete Sun"""

BOXES = [
    '"Sun" [label="Sun\\nPosition 0, 0", fillcolor="#dbeafe"];',
    '"Earth" [label="Earth\\nPosition 10, -3\\nPlanet", fillcolor="#fde2c8"];',
    # (one table, one colour)
    '"Mars" [label="Mars\\nPosition -1, 2\\nPlanet", fillcolor="#fde2c8"];',
    '"#70.0" [label="#70.0", fillcolor="#d9f2d9"];',
]
MORE_BOXES = [
    '"Idle" [label="Idle", fillcolor="#fbd5e0"];',
    '"Far" [label="Far\\nTransitive\\nAcyclic\\nTraversable", fillcolor="#e6dcf7"];',
]
ARROWS = [
    '"Earth" -> "Sun" [label="ChildOf"];',
    '"Mars" -> "Sun" [label="ChildOf"];',
    '"#70.0" -> "Earth" [label="Holds 7"];',
]
# After the script's last line nobody has a component or a tag, so these are shown.
BOXES_OF_THE_END = [
    '"Position" [label="Position\\nComponent", fillcolor="#dbeafe"];',
    '"Planet" [label="Planet", fillcolor="#fde2c8"];',
    '"Holds" [label="Holds\\nComponent", fillcolor="#dbeafe"];',
    '"#70.0" [label="#70.0", fillcolor="#fde2c8"];',
    '"Idle" [label="Idle", fillcolor="#fde2c8"];',
    '"Far" [label="Far\\nTransitive\\nAcyclic\\nTraversable", fillcolor="#d9f2d9"];',
]

BOX = re.compile(r'"([^"]+)" \[(?:label="([^"]*)", )?fillcolor="#\w+"\];')
ARROW = re.compile(r'"([^"]+)" -> "([^"]+)" \[label="([^"]*)"\];')


def drawn(*words, output=""):
    """The lines of the boxes and the arrows; or the status, where it is not 0, and the last line of what is said."""
    pipes = {"input": output, "stdout": subprocess.PIPE, "stderr": subprocess.PIPE, "text": True}
    ran = subprocess.run([sys.executable, TOOL, *words], cwd=TOP, timeout=60, check=False, **pipes)
    if ran.returncode:
        return ran.returncode, not ran.stdout, ran.stderr.splitlines()[-1]
    lines = [line.strip() for line in ran.stdout.splitlines()]
    return [line for line in lines if line.startswith('"')] if lines[:1] == ["digraph world {"] and lines[-1] == "}" else None


def an_output_is_drawn(program, room):
    return drawn(output=OUTPUT) == BOXES + ARROWS


def a_target_that_is_not_shown_is_drawn(program, room):
    lines = ['"Moon" [label="Moon", fillcolor="#dbeafe"];', '"Earth" [fillcolor="#ffffff"];', '"Moon" -> "Earth" [label="ChildOf"];']
    return drawn(output="show Moon [(ChildOf,Earth)]\n") == lines


def what_cannot_be_drawn_is_told(program, room):
    """Each with status 2 and a line that says why."""
    empty, page = os.path.join(room, "empty.output"), os.path.join(room, "page.md")
    for path in (empty, page):
        with open(path, "w", encoding="ascii"):
            pass
    cases = [
        ("(standard input) can't be drawn: it leaves no entity to draw", [], "rows 0\n"),
        ("empty.output can't be drawn: it leaves no entity to draw", [empty], ""),
        ("its line 2 is no line of an output", [], "rows 0\nquery Sun\n"),
        ("No such file or directory: 'none.flecsq'", ["none.flecsq"], ""),
        ("page.md can't be drawn: the page has no block", [page], ""),
        ("--until is for scripts", ["--until", "new"], "show Sun\n"),
        ("No such file or directory: 'none'", ["README.md", "--program", "none"], ""),
        ("unrecognized arguments: b", ["a", "b"], ""),
    ]
    answers = [(drawn(*words, output=output), said) for said, words, output in cases]
    return all(told[:2] == (2, True) and said in told[2] for told, said in answers)


def the_help_names_files_that_are_there(program, room):
    told = subprocess.run([sys.executable, TOOL, "--help"], stdout=subprocess.PIPE, text=True, timeout=60, check=True).stdout
    named = re.findall(r"picture\.py (\w\S*\.\w+)", told)
    return len(named) == 2 and all(os.path.isfile(os.path.join(TOP, name)) for name in named)


def a_script_is_drawn(program, room):
    path = os.path.join(room, "script")
    with open(path, "w", encoding="ascii") as file:
        file.write(SCRIPT)
    until = drawn(path, "--until", " // the end of what is drawn ", "--program", program)
    after = drawn(path, "--program", program)
    return until == BOXES + MORE_BOXES + ARROWS and after == BOXES_OF_THE_END


def a_script_that_cannot_be_drawn_is_told(program, room):
    """One that leaves no entity, one without the line up to which it is to be drawn, and a program that ends by itself."""
    path = os.path.join(room, "script")
    with open(path, "w", encoding="ascii") as file:
        file.write("entity Sun\ndelete Sun\n")
    cases = [
        ("it leaves no entity to draw", ["--program", program]),
        ("no line of the script is 'delete Moon'", ["--until", "delete Moon", "--program", program]),
        ("true ended with status 0", ["--program", "true"]),
    ]
    answers = [(drawn(path, *words), said) for said, words in cases]
    return all(told[:2] == (2, True) and said in told[2] for told, said in answers)


def each_example_is_drawn(program, room):
    folder = os.path.join(TOP, "examples")
    scripts = [os.path.join(folder, name) for name in os.listdir(folder) if name.endswith(".flecsq")]
    return len(scripts) >= 5 and all(isinstance(drawn(path, "--program", program), list) for path in scripts)


def texts_of(group):
    return [it.text.replace("\xa0", " ") for it in group.iter("{http://www.w3.org/2000/svg}text")]


def the_picture_of_the_first_page_is_of_its_script(program, room):
    """The boxes and the arrows of docs/first_world.svg, with their texts, are those that are drawn now."""
    lines = drawn(PAGE, "--until", LAST, "--program", program)
    boxes, arrows = ([found.groups() for found in map(form.fullmatch, lines) if found] for form in (BOX, ARROW))
    wanted = {(name, *(name if label is None else label).split("\\n")) for name, label in boxes}
    wanted |= {(f"{source}->{target}", label) for source, target, label in arrows}
    svg = xml.etree.ElementTree.parse(os.path.join(TOP, PICTURE))
    groups = [it for it in svg.iter("{http://www.w3.org/2000/svg}g") if it.get("class") in ("node", "edge")]
    shown = {(group.find("{http://www.w3.org/2000/svg}title").text, *texts_of(group)) for group in groups}
    if shown != wanted:
        print(f"{PICTURE} isn't of the script in {PAGE}: python3 tools/picture.py {PAGE} --until '{LAST}' | dot -Tsvg > {PICTURE}")
    return shown == wanted and len(groups) == len(boxes) + len(arrows) == len(lines)


CASES = [an_output_is_drawn, a_target_that_is_not_shown_is_drawn, what_cannot_be_drawn_is_told, the_help_names_files_that_are_there]
WITH_PROGRAM = [a_script_is_drawn, a_script_that_cannot_be_drawn_is_told, each_example_is_drawn, the_picture_of_the_first_page_is_of_its_script]


def run(program=None):
    """How many of the cases are right and wrong."""
    cases = [*CASES, *(WITH_PROGRAM if program else [])]
    failed = 0
    for case in cases:
        with tempfile.TemporaryDirectory() as room:
            if not case(program, room):
                print(f"picture {case.__name__} FAILED")
                failed += 1
    return len(cases) - failed, failed


if __name__ == "__main__":
    sys.exit(1 if run(*map(os.path.abspath, sys.argv[1:2]))[1] else 0)
