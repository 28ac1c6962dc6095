"""Scripts with monitors: of local queries, many entities, and commands of every kind with a twin of each monitor; of others, commands that don't
concern them; and many stored queries of every sort at once."""
import random

LOCAL = [
    "Position, !Planet",
    "Hot || Planet",
    "Position, Hot, ?Planet",
    "!{ Planet, !{ Hot } }, Position",
    "(Likes,*), !Hot",
    "(Likes,$this), Planet",
    "(*,_), !(Likes,Sun)",
    "Position, $this != Sun",
    "Planet, ?Disabled",
    "!Position, !{ Hot, !Planet }, *",
]

# of ancestors, and of others whom `$this` holds as a target
OTHERS = [
    "Hot(up), Position",
    "Planet(self|up), !Hot",
    "(Likes,$x), Planet($x), Hot",
    "Hot, !{ (Likes,$x), Planet($x) }",
    "(Likes,$x), !Hot($x), Position",
    "(Likes,$x), (Likes,$y), $x != $y, Hot($y)",
    "(ChildOf,$x), Planet($x), !{ (Likes,$y), Hot($y), !Planet($y) }",
    "(Likes,$x), ?Planet($x), Hot(up)",
    "(Likes,$x), Likes($x,$this)",
    "(Likes,$x), Hot($x) || Planet($x)",
    "Hot(up) || Planet, Position",
    "*(up), Hot, !Planet",
    "(*,_), Hot(up), ?Disabled",
    "Prefab, Planet(up)",
    "?Prefab, ?Disabled, Hot(up), Position",
    "Position, !{ Hot(up), !{ Planet } }",
    "!{ (Likes,$x), !{ Hot($x) } }, Planet",
    "(_,$x), Planet($x), !Hot",
    "(Likes,$x), (Likes,$y), Planet($x), Hot($y), $this != $x",
    "(Likes,$x), Hot(up), !Planet(up)",
]

# of others with whom `$this` has pairs in common, over one or more entities
LINKED = [
    "Hot, (Likes,$x), !{ Likes($y,$x), Planet($y), Position($y) }",
    "Position, Likes($x,$this), Hot($x)",
    "(Likes,$x), Likes($x,$y), Planet($y), !Hot",
    "Planet, !{ (Likes,$a), Likes($a,$b), Hot($b), !{ Likes($c,$b), Position($c) } }",
    "(ChildOf,$p), ChildOf($c,$p), Hot($c), $c != $this",
    "(Likes,$x) || Likes($x,$this), Planet($x), Hot(up)",
    "(Likes,$x), (ChildOf,$p), Likes($p,$y), Hot($y)",
    "Position, (Likes,$x), (ChildOf,$p), Likes($p,$y), !Hot($y)",
]

# of others with whom `$this` has nothing in common: any of them may matter for it
UNTIED = [
    "Hot, Planet($x), Position($x)",
    "_, Likes($a,$b), Hot($a), Planet($b)",
    "Position, !{ Hot($x), Planet($x), Disabled($x) }",
    "Planet, Hot($x), Position($y), $x != $y",
    "Planet, !{ Likes($a,$b), Likes($b,$a) }",
]


def making(names):
    return ["component Position x:i32 y:i32"] + [f"entity {name}" for name in names]


def bytes_of(lines):
    return ("\n".join(lines) + "\n").encode()


def many_entities(entities, commands):
    """So many entities, a third of them with a position, ten local monitors, and then so many commands on entities chosen at random."""
    draw = random.Random(7)
    lines = making(["Planet", "Hot", "Likes", "Sun"])
    for number in range(entities):
        lines.append(f"entity E{number}")
        if number % 3 == 0:
            lines.append(f"set E{number} Position {number} 1")
    lines += [f"monitor m{number} {text}" for number, text in enumerate(LOCAL)]
    for _ in range(commands):
        lines.append(f"{draw.choice(['add', 'remove'])} E{draw.randrange(entities)} {draw.choice(['Planet', 'Hot', 'Position'])}")
    return bytes_of(lines)


def unconcerned(entities, commands):
    """A monitor that asks ancestors, so many entities, a third of them among its rows, and then so many commands that set values and bring tags
    which its query doesn't mention; and at last three that change its rows."""
    draw = random.Random(13)
    lines = making(["Planet", "Hot", "Sun"]) + ["add Sun Hot"]
    for number in range(entities):
        lines.append(f"entity E{number}")
        if number % 3 == 0:
            lines += [f"add E{number} (ChildOf,Sun)", f"set E{number} Position {number} 1"]
    lines.append("monitor m Hot(up), Position")
    for _ in range(commands):
        entity = 3 * draw.randrange(entities // 3)
        lines.append(draw.choice([f"set E{entity} Position 2 {entity}", f"add E{entity} Planet", f"remove E{entity} Planet"]))
    lines += ["set E1 Position 1 1", "add E1 (ChildOf,Sun)", "add E3 Disabled", "remove E0 Position"]
    return bytes_of(lines)


# of the rows of many entities, of which a command on one moves that one alone
MANY_ROWS = [
    "Hot(up), Position",
    "(Likes,$x), Hot($x), Position",
    "Position, !{ (Likes,$x), Planet($x) }",
    "(Likes,*), Position, Hot(up) || Planet",
]


def many_rows(text, rows, commands):
    """A world of so many rows of the monitor, each a child of Sun that likes it, and commands that take Position from one of them or give it back."""
    lines = making(["Planet", "Hot", "Likes", "Sun"]) + ["add Sun Hot"]
    for number in range(rows):
        lines += [f"entity E{number}", f"add E{number} (ChildOf,Sun)", f"add E{number} (Likes,Sun)", f"set E{number} Position {number} 1"]
    lines.append(f"monitor m {text}")
    draw = random.Random(17)
    for _ in range(commands // 2):
        entity = f"E{draw.randrange(rows)}"
        lines += [f"remove {entity} Position", f"add {entity} Position"]
    return bytes_of(lines)


def of_anybody(variables):
    """A monitor of somebody with any id, beside so many others with any id."""
    return bytes_of(["monitor m _, " + ", ".join(f"_($v{number})" for number in range(variables))])


def kept_over_tables(kept, tags, text):
    """So many kept queries, each asked once, over a table for each set of so many tags, through all of which one entity passed."""
    lines = making([f"T{tag}" for tag in range(tags)]) + ["entity E"]
    held = 0
    for step in range(1, 1 << tags):
        bit = (step & -step).bit_length() - 1
        lines.append(f"{'remove' if held >> bit & 1 else 'add'} E T{bit}")
        held ^= 1 << bit
    names = [f"k{number}" for number in range(kept)]
    return bytes_of(lines + [f"keep {name} {text}" for name in names] + [f"rows {name}" for name in names])


def of_three(entities):
    """A monitor with three variables that are anybody with a tag, and so many entities that have it."""
    lines = making(["A", "T"])
    for number in range(entities):
        lines += [f"entity E{number}", f"add E{number} A", f"add E{number} T"]
    return bytes_of(lines + ["monitor m A, T($a), T($b), T($c)", "remove E0 T", "remove E1 A"])


def command(draw, count):
    """A command on one of so many entities."""
    entity, other = (f"E{draw.randrange(count)}" for _ in range(2))
    ids = ["Planet", "Hot", "Position", "Disabled", "Prefab", "(Likes,Sun)", f"(Likes,{other})", f"(Likes,{entity})"]
    kind = draw.randrange(20)
    if kind < 9:
        return [f"add {entity} {draw.choice(ids)}"]
    if kind < 17:
        return [f"remove {entity} {draw.choice(ids)}"]
    if kind < 18:
        return [f"set {entity} Position {draw.randrange(99)} {draw.randrange(99)}"]
    if kind < 19:
        return [f"add {entity} (ChildOf,{other})"]
    return [f"delete {entity}", f"entity {entity}"]


def pair_of(number, text, more):
    """A monitor of a text beside a twin whose query has more terms, which make no difference to who matches."""
    return [f"monitor m{number} {text}", f"monitor n{number} {text}, {more}"]


def twins(texts, more, commands):
    """Commands of every kind, with a monitor of each text and its twin. Now and then both are dropped, and stored again."""
    draw = random.Random(11)
    lines = making(["Planet", "Hot", "Likes", "Sun"]) + [f"entity E{number}" for number in range(24)]
    for number, text in enumerate(texts):
        lines += pair_of(number, text, more)
    for _ in range(commands):
        lines += command(draw, 24)
        if draw.randrange(50) == 0:
            number = draw.randrange(len(texts))
            lines += [f"drop n{number}", f"drop m{number}"] + pair_of(number, texts[number], more)
    return bytes_of(lines)


OBSERVED = ["Planet", "Hot", "Position", "*", "(Likes,Sun)", "(Likes,*)", "(*,Sun)", "(*,*)", "(_,_)", "_", "Disabled"]


def stored_at_once(count, commands):
    """So many stored queries of every sort, each stored and dropped at lines drawn at random, some of them twice, beside so many commands on one
    world. Gives the commands, and of each stored query its name and its own lines, each before which command it stands."""
    draw = random.Random(17)
    world = making(["Planet", "Hot", "Likes", "Sun"]) + [f"entity E{number}" for number in range(24)]
    moves = [line for _ in range(commands) for line in command(draw, 24)]
    stored = []
    for number in range(count):
        name, kind = f"q{number}", draw.choice(["keep", "monitor", "monitor", "monitor", "on add", "on remove", "on set"])
        text = draw.choice(OBSERVED if kind.startswith("on") else LOCAL + OTHERS)
        begun, ended, again = sorted(draw.randrange(len(moves)) for _ in range(3))
        lines = [(0 if number % 2 else begun, f"{kind} {name} {text}")]
        lines += [(ended, f"drop {name}")] * (number % 3 > 0) + [(again, f"{kind} {name} {text}")] * (number % 3 > 1)
        stored.append((name, lines))
    return world, moves, stored


def with_stored(world, moves, stored):
    """The script of these commands with the lines of these stored queries."""
    before = {}
    for _, lines in stored:
        for at, line in lines:
            before.setdefault(at, []).append(line)
    return bytes_of(world + [line for at, move in enumerate(moves) for line in (*before.get(at, []), move)])


def told_to(output, watch):
    """What the watch of a name was told, without its name."""
    return told_to_each(output).get(watch, [])


def told_to_each(output):
    """What each watch was told, by its name."""
    told = {}
    for line in output.decode().splitlines():
        words = line.split()
        if len(words) > 2 and words[0] in ("enter", "leave", "add", "remove", "set"):
            told.setdefault(words[1], []).append((words[0], words[2:]))
    return told
