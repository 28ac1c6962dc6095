"""What one more of something costs: the instructions of some scripts, each added or taken away, by how many there are of it."""
from functools import partial

OBSERVERS = 1_000
COMMANDS = 1_000
STORED = 1_024


def tagged(count):
    """Entities to be observed or changed, and tags."""
    yield from (f"entity T{number}" for number in range(count))
    yield "entity Other"
    yield "entity Sun"


def observers(count):
    yield from (f"on add o{number} T{number}" for number in range(count))


def changes(count):
    """Commands of which the observers are told nothing."""
    for number in range(count // 2):
        yield from ("add Sun Other", "remove Sun Other")


def kept(count):
    yield from (f"keep k{number} T0" for number in range(count))


def rows(count):
    yield from (f"rows k{number}" for number in range(count))


def untold():
    """An observer of another id, at a command."""
    tags = [*tagged(OBSERVERS)]
    stored, told = [*observers(OBSERVERS)], [*changes(COMMANDS)]
    return [(1, tags + stored + told), (-1, tags + stored), (-1, tags + told), (1, tags)], OBSERVERS * COMMANDS


# by a name, a line that stores a query
DROPPED = {"dropped": "keep k{} T0", "dropped_monitors": "monitor k{} T0, !Sun", "dropped_up": "monitor k{} T0(up), !Sun"}


def from_midst(count):
    """Half of so many numbers, from the midst on, one below it and one above it in turn."""
    return [count // 2 + (turn // 2 if turn % 2 else -1 - turn // 2) for turn in range(count // 2)]


def dropped(line, numbers):
    """A `drop` line of one of 1,024 stored queries that are alike, until half of them are left."""
    stored = [*tagged(1), *(line.format(number) for number in range(STORED))]
    return [(1, stored + [f"drop k{number}" for number in numbers]), (-1, stored)], len(numbers)


def asked():
    """A `rows` line of one of 1,024 kept queries, which nobody answers: the first of each."""
    stored = [*tagged(1), *kept(STORED)]
    return [(1, stored + [*rows(STORED)]), (-1, stored)], STORED


def asked_again():
    """A `rows` line of a kept query that was asked before, which nobody answers."""
    stored = [*tagged(1), "keep k T0", "rows k"]
    return [(1, stored + ["rows k"] * COMMANDS), (-1, stored)], COMMANDS


def made_tables():
    """An `add` that makes a table, against one that finds it."""
    world = [*tagged(COMMANDS), *(f"entity E{number}" for number in range(COMMANDS))]
    made, found = ([f"add E{number} T{number if each else 0}" for number in range(COMMANDS)] for each in (True, False))
    return [(1, world + made), (-1, world + found)], COMMANDS


def moving(text, count):
    """A command that takes one entity out of so many rows of a monitor, or puts it back."""
    world = ["component Position x:i32 y:i32", *(f"entity {name}" for name in ("Planet", "Hot", "Likes", "Sun")), "add Sun Hot"]
    for number in range(count):
        world += [f"entity E{number}", f"add E{number} (ChildOf,Sun)", f"add E{number} (Likes,Sun)", f"set E{number} Position {number} 1"]
    world.append(f"monitor m {text}")
    moves = []
    for number in range(COMMANDS // 2):
        entity = f"E{number * 7919 % count}"
        moves += [f"remove {entity} Position", f"add {entity} Position"]
    return [(1, world + moves), (-1, world)], COMMANDS


# by a name, a query that goes up, has a variable, a group or wildcards
MONITORS = {
    "up": "Hot(up), Position",
    "pair": "(Likes,$x), Hot($x), Position",
    "group": "Position, !{ (Likes,$x), Planet($x) }",
    "any": "(Likes,*), Position, Hot(up) || Planet",
}
ROWS = [500, 8_000, 64_000]


def in_teams(leaders, count):
    """A command on one of so many entities in teams of ten, or on one of their leaders, where a monitor looks at all in the team of each leader."""
    world = [f"entity {name}" for name in ("InTeam", "Leader", "Stunned")] + [f"entity T{number}" for number in range(count // 10)]
    for number in range(count):
        world += [f"entity E{number}", f"add E{number} (InTeam,T{number // 10})"] + [f"add E{number} Leader"] * (number % 10 == 0)
    world.append("monitor m Leader, (InTeam,$t), !{ InTeam($u,$t), Stunned($u), Leader($u) }")
    moves = []
    for number in range(COMMANDS // 2):
        number = number * 7919 % count
        entity = f"E{number - number % 10 if leaders else number}"
        moves += [f"add {entity} Stunned", f"remove {entity} Stunned"]
    # all are given once before, so that none makes a table
    world += moves
    return [(1, world + moves), (-1, world)], COMMANDS


def beside(kind, text):
    """A command that concerns none of 1,000 stored queries, against the same without them."""
    def difference():
        world, told = [*tagged(1)], [*changes(COMMANDS)]
        stored = [f"{kind} q{number} {text}" for number in range(OBSERVERS)]
        return [(1, world + stored + told), (-1, world + stored), (-1, world + told), (1, world)], COMMANDS
    return difference


def beside_many():
    """A command that concerns none of 1,000 event observers, each of another id, against the same without them."""
    tags = [*tagged(OBSERVERS)]
    stored, told = [*observers(OBSERVERS)], [*changes(COMMANDS)]
    return [(1, tags + stored + told), (-1, tags + stored), (-1, tags + told), (1, tags)], COMMANDS


def switched(relationship):
    """A line that adds a pair in whose place another one of its entity goes."""
    world = [f"entity {name}" for name in ("Sun", "Moon", "Likes", "Earth")] + ["add Likes Exclusive", f"add Earth ({relationship},Sun)"]
    lines = []
    for _ in range(COMMANDS // 2):
        lines += [f"add Earth ({relationship},{target})" for target in ("Moon", "Sun")]
    return [(1, world + lines), (-1, world)], COMMANDS


# queries that nobody answers, by what they ask of ancestors, of reach or of others; no list of tables leads the last three
BY_TABLES = {
    "up": "[none] Position, Flying(up)",
    "reach": "Position, !(In,Root)",
    "lacks_up": "Position, !Boss(up IsA)",
    "either": "Position, Flying(up IsA) || Other",
    "others": "Position, !{ (In,$x), Boss($x) }",
    "up_alone": "Flying(self|up)",
    "either_alone": "Flying || Other",
    "any_up": "Flying(up IsA) || Other(up) || Flying",
}
ENTITIES = [1_000, 4_000, 16_000]
# So often that what the hashes of the world vary by is little of it.
ASKED = 100


def in_tables(text, count):
    """A query of so many entities in ten tables."""
    world = ["component Position x:i32 y:i32", *(f"entity {name}" for name in ("Flying", "Other", "Boss", "In", "Root")), "add In Transitive"]
    for number in range(10):
        world += [f"entity G{number}", f"entity P{number}", f"add P{number} Boss", f"entity B{number}", f"add B{number} Boss"]
        world.append(f"add P{number} (In,P{number - 1})" if number else "add P0 (In,Root)")
    for number in range(count):
        entity, part = f"E{number}", number % 10
        world += [f"entity {entity}", f"set {entity} Position 1 1", f"add {entity} G{part}", f"add {entity} (In,P{part})", f"add {entity} (IsA,B{part})"]
    return [(1, world + ASKED * [f"query {text}"]), (-1, world)], ASKED


LAYER = 20


def before(number):
    return range(max(number - 1, 0), number)


def two_before(number):
    return range(max(number - 2, 0), number)


def the_first(number):
    return range(min(number, 1))


def layer_before(number):
    begun = number - number % LAYER
    return range(max(begun - LAYER, 0), begun)


# queries of entities that lead to those before them: by a name, to whom each leads, by which relationship, and what is asked
ALONG = {
    "chain_last": (before, "ChildOf", "T, P(E{last}|up)"),
    "chain_pair": (before, "ChildOf", "T, Q($this|up,$x), U($x)"),
    "chain_both_ways": (before, "IsA", "T, T($y), IsA($this,$y), IsA($y,$this), $this != $y"),
    "chain_depths": (before, "In", "T(cascade In)"),
    "ladder_depths": (two_before, "In", "T(cascade In)"),
    "layers_depths": (layer_before, "In", "T(cascade In)"),
    "ladder_top": (two_before, "In", "Q($this|up In,X)"),
    "base_targets": (the_first, "IsA", "[none] Q($this|up IsA,$x)"),
}
LENGTHS = [500, 1_000, 2_000]


def along(leads_to, relationship, text, count):
    """A query of so many entities that lead to those before them."""
    world = [f"entity {name}" for name in ("T", "P", "Q", "U", "X")] + ["add X U"]
    world += ["entity In", "add In Traversable"] * (relationship == "In")
    for number in range(count):
        world += [f"entity E{number}", f"add E{number} T"]
        world += [f"add E{number} ({relationship},E{target})" for target in leads_to(number)] or [f"add E{number} (Q,X)"]
    return [(1, [*world, f"query {text.format(last=count - 1)}"]), (-1, world)], 1


DIFFERENCES = {
    "untold": untold,
    "made_tables": made_tables,
    "asked": asked,
    "asked_again": asked_again,
    "beside_kept": beside("keep", "T0"),
    "beside_local": beside("monitor", "T0"),
    "beside_up": beside("monitor", "T0(up)"),
    "beside_tied": beside("monitor", "(T0,$x), T0($x)"),
    "beside_observers": beside("on add", "T0"),
    "beside_many": beside_many,
    "switched_parent": partial(switched, "ChildOf"),
    "switched_pair": partial(switched, "Likes"),
}
DIFFERENCES.update((name, partial(dropped, line, range(STORED // 2))) for name, line in DROPPED.items())
DIFFERENCES.update((f"{name}_midst", partial(dropped, line, from_midst(STORED))) for name, line in DROPPED.items())
DIFFERENCES.update((f"moved_{name}_{count}", partial(moving, text, count)) for name, text in MONITORS.items() for count in ROWS)
DIFFERENCES.update((f"moved_team_{count}", partial(in_teams, False, count)) for count in ROWS)
DIFFERENCES.update((f"moved_leader_{count}", partial(in_teams, True, count)) for count in ROWS)
DIFFERENCES.update((f"tables_{name}_{count}", partial(in_tables, text, count)) for name, text in BY_TABLES.items() for count in ENTITIES)
DIFFERENCES.update((f"{name}_{count}", partial(along, *asked_of, count)) for name, asked_of in ALONG.items() for count in LENGTHS)


def scripts(name):
    """The scripts with their signs, and by how many the sum of their instructions is to be divided."""
    parts, count = DIFFERENCES[name]()
    return [(sign, "\n".join([*lines, ""])) for sign, lines in parts], count
