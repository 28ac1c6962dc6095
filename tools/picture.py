#!/usr/bin/env python3
"""Draws the world that a script makes, as text for Graphviz.

    tools/picture.py examples/rooms.flecsq | dot -Tsvg > world.svg
    tools/picture.py README.md --until 'delete Earth' | dot -Tsvg > docs/first_world.svg

FILE is a script. A name that ends in .md is that of a page, whose first script is drawn. A name that ends in .output is that of a file that has what a
script has printed, and without FILE that is read from standard input: then the entities of its lines of `show` are drawn.

Each entity is a box with its components, their values, and its tags. Entities of one table (with the same ids) have one colour, of eight in turn. Each
pair is an arrow from the entity to the target, with the relationship's name at it. Of a script's world all live entities are drawn but two sorts: those
that are built in, and those that only serve others as component, tag or relationship, since boxes and arrows name them. A target is always drawn.

A script needs the program: the one of --program, or the one that `make proved` or `make run` has built, or the command flecsq. What can't be drawn is
told on standard error, with status 2. `dot` is a program of Graphviz.
"""
import argparse
import os
import re
import shutil
import sys

import build
from flecsq_pipe import Ended, Fact, Pair, Session, Shown, TooLong, parse

# pale fills, by table in the order in which tables appear
COLOURS = ["#dbeafe", "#fde2c8", "#d9f2d9", "#fbd5e0", "#e6dcf7", "#fff3bf", "#d3f1ee", "#e8e3d9"]

FIRST_SCRIPT = re.compile(r"^```flecsq\n(.*?)^```$", re.M | re.S)

# (a mention of both tags, so that no entity is left out)
ALL = "query ?Prefab, ?Disabled"


class Undrawn(Exception):
    """Why there is nothing to draw."""


def shown_in(output):
    """The entities that the lines of `show` show. A later line takes the place of an earlier one."""
    world = {}
    for number, line in enumerate(output.split("\n"), 1):
        try:
            shown = parse(line) if line else None
        except ValueError:
            raise Undrawn(f"its line {number} is no line of an output") from None
        if isinstance(shown, Shown):
            world.pop(shown.entity, None)
            world[shown.entity] = shown
    return list(world.values())


def lines_of(script, until):
    """The lines of a script, those before the first that is `until`."""
    lines = script.split(b"\n")
    if until is None:
        return lines
    texts = [line.strip() for line in lines]
    if until.strip().encode() not in texts:
        raise Undrawn(f"no line of the script is {until!r}")
    return lines[: texts.index(until.strip().encode())]


def world_of(program, lines):
    """What the live entities hold after these lines: of those that aren't built in, and aren't only named by others."""
    with Session(program) as session:
        live = lambda: [row.variables["$this"] for row in session.send(ALL).rows]
        built_in = set(live())
        for line in lines:
            session.send(line)
        world = [session.send(f"show {entity}").shown for entity in live() if entity not in built_in]
    return without_names(world)


def without_names(world):
    """All but those that somebody has as component, tag or relationship and that have no other part in the world: boxes and arrows name them."""
    ids = {fact.id for shown in world for fact in shown.facts}
    targets = {it.target for it in ids if isinstance(it, Pair)}
    named = {it.relationship if isinstance(it, Pair) else it for it in ids} - targets
    return [shown for shown in world if shown.entity not in named or set(shown.facts) - {Fact("Component", None)}]


def program_of(given):
    programs = [given] if given else [*filter(os.path.isfile, (build.PROVED, build.UNPROVED)), shutil.which("flecsq")]
    if not programs[0]:
        raise Undrawn("a script needs the program: `make run` builds one, or --program names one")
    return programs[0]


def read_world(options):
    """The entities to draw."""
    name = options.file
    if name is None or name.endswith(".output"):
        if options.until:
            raise Undrawn("--until is for scripts, and this is an output")
        with open(name or 0, encoding="utf-8") as file:
            return shown_in(file.read())
    with open(name, "rb") as file:
        script = file.read()
    if name.endswith(".md"):
        found = FIRST_SCRIPT.search(script.decode("utf-8"))
        if not found:
            raise Undrawn("the page has no block that begins with ```flecsq")
        script = found[1].encode("utf-8")
    return world_of(program_of(options.program), lines_of(script, options.until))


def quoted(text):
    return '"' + text.replace("\\", "\\\\").replace('"', '\\"') + '"'


def with_values(name, values):
    return name if values is None else f"{name} {', '.join(map(str, values))}"


def label_of(shown):
    """The text of an entity's box: its name, and a line for each id that isn't drawn as an arrow."""
    return "\\n".join([shown.entity, *(with_values(it.id, it.values) for it in shown.facts if not isinstance(it.id, Pair))])


def colours_of(world):
    """A colour for each entity: one for each table."""
    tables = {}
    for shown in world:
        tables.setdefault(frozenset(fact.id for fact in shown.facts), COLOURS[len(tables) % len(COLOURS)])
    return {shown.entity: tables[frozenset(fact.id for fact in shown.facts)] for shown in world}


def picture(world):
    if not world:
        raise Undrawn("it leaves no entity to draw (a file that has what a script printed ends in .output)")
    colours, names = colours_of(world), {shown.entity for shown in world}
    arrows = [(shown.entity, fact) for shown in world for fact in shown.facts if isinstance(fact.id, Pair)]
    text = ["digraph world {", "  rankdir=BT;", '  node [shape=box, style="rounded,filled", fontname="Helvetica", fontsize=11];']
    text += ['  edge [fontname="Helvetica", fontsize=10, color="#555555", fontcolor="#333333"];']
    for shown in world:
        text.append(f'  {quoted(shown.entity)} [label="{label_of(shown)}", fillcolor="{colours[shown.entity]}"];')
    # (a target that is not among the entities)
    for target in dict.fromkeys(fact.id.target for _, fact in arrows if fact.id.target not in names):
        text.append(f'  {quoted(target)} [fillcolor="#ffffff"];')
    for entity, fact in arrows:
        text.append(f"  {quoted(entity)} -> {quoted(fact.id.target)} [label={quoted(with_values(fact.id.relationship, fact.values))}];")
    return "\n".join([*text, "}", ""])


def main(words):
    parser = argparse.ArgumentParser(prog="picture.py", description=__doc__, formatter_class=argparse.RawDescriptionHelpFormatter)
    parser.add_argument("file", nargs="?", metavar="FILE")
    parser.add_argument("--until", metavar="LINE", help="draw the world before the first line of the script that is LINE")
    parser.add_argument("--program", help="the program that runs the script")
    options = parser.parse_args(words)
    try:
        print(picture(read_world(options)), end="")
        return 0
    except (Undrawn, Ended, TooLong, OSError, UnicodeDecodeError) as error:
        print(f"picture.py: {options.file or '(standard input)'} can't be drawn: {error}", file=sys.stderr)
        return 2


if __name__ == "__main__":
    sys.exit(main(sys.argv[1:]))
