#!/usr/bin/env python3
"""engine.py NAME SIZE: a workload as a game gives it to an engine, as a script on standard output.

Equal names and sizes always give the same bytes, whose output under a plain engine stands in plain_engine.txt.
"""
import argparse
import os
import sys

HERE = os.path.dirname(os.path.realpath(__file__))
MASK = 2**64 - 1


class Chooser:
    """xorshift64*, so that scripts don't hang on Python's own generator."""

    def __init__(self, seed):
        self.state = (seed * 0x9E3779B97F4A7C15 + 0x1234567) & MASK or 1

    def below(self, bound):
        state = self.state
        state ^= state >> 12
        state = (state ^ (state << 25)) & MASK
        state ^= state >> 27
        self.state = state
        return ((state * 0x2545F4914F6CDD1D & MASK) >> 33) % bound

    def chance(self, some, of_all):
        return self.below(of_all) < some


def components(names):
    """Every other one has two fields."""
    for place, name in enumerate(names):
        yield f"component {name} " + ("x:i32 y:i32" if place % 2 == 0 else "v:i64")


def value(entity, name, place, number):
    """Sets a component that stands at this place of the list that `components` had."""
    if place % 2 == 0:
        return f"set {entity} {name} {number % 2001 - 1000} {number % 77}"
    return f"set {entity} {name} {number * 1000003 - 500000}"


def entities(names):
    return (f"entity {name}" for name in names)


def tags(count):
    return [f"Tag{number}" for number in range(count)]


def plain(size, chosen):
    """Commands and a query of plain names alone."""
    names = ["Position", "Mass", "Velocity", "Charge"]
    yield from components(names)
    yield from entities(tags(64))
    for number in range(size):
        entity = f"E{number}"
        yield f"entity {entity}"
        for place, name in enumerate(names[:3]):
            yield value(entity, name, place, chosen.below(1 << 20))
        yield f"add {entity} Tag{chosen.below(8)}"
        if number % 3 == 0:
            yield f"remove {entity} Mass"
        if chosen.chance(1, 4):
            yield f"set E{chosen.below(number + 1)} Position {chosen.below(1000)} {chosen.below(1000)}"
    yield "entity Full"
    yield from (f"add Full {tag}" for tag in tags(64))
    yield from ("show Full" for _ in range(size // 20))
    yield "query Position, Mass, Velocity"


def fill(size, chosen):
    """A world is filled with values, tags and children, and asked once."""
    names = ["Position", "Mass", "Velocity", "Charge"]
    yield from components(names)
    yield from entities(tags(8))
    for number in range(size):
        entity = f"E{number}"
        yield f"entity {entity}"
        for place, name in enumerate(names):
            if chosen.chance(2, 3):
                yield value(entity, name, place, chosen.below(1 << 20))
        yield f"add {entity} Tag{chosen.below(8)}"
        if number >= 10 and chosen.chance(1, 3):
            yield f"add {entity} (ChildOf,E{chosen.below(min(number, 200))})"
        if chosen.chance(1, 4):
            yield f"set E{chosen.below(number + 1)} Position {chosen.below(1000)} {chosen.below(1000)}"
    yield "query Tag0, Charge, Mass, !Velocity"
    yield f"show E{size - 1}"


def scan(size, chosen):
    """Terms of plain ids, of which some are rare."""
    names = ["Position", "Mass", "Velocity", "Charge", "Health", "Speed"]
    yield from components(names)
    yield from entities([*tags(12), "Rare", "Rarer"])
    for number in range(size):
        entity = f"E{number}"
        yield f"entity {entity}"
        for place, name in enumerate(names):
            if chosen.chance(2, 3):
                yield value(entity, name, place, chosen.below(1 << 20))
        for _ in range(3):
            yield f"add {entity} Tag{chosen.below(12)}"
        if number % 997 == 5:
            yield f"add {entity} Rare"
        if number % 4999 == 7:
            yield f"add {entity} Rarer"
    for turn in range(60):
        yield "query Rare, Position"
        yield "query Position, Mass, Rarer"
        yield "query Rare, Rarer"
        yield f"query Tag{turn % 12}, Rare, !Health"
        yield "query Position, Velocity, Health, Rare, [none] Tag3"
    for turn in range(6):
        yield "query Position, Velocity"
        yield f"query [none] Mass, Tag{turn}"
        yield "query Charge, !Health, Tag1, [none] Speed"


def join(size, chosen):
    """Variables that several terms share."""
    yield from components(["Position"])
    yield from entities(["Planet", "Star", "Moon", "Likes", "Orbits", "Hot"])
    stars, planets = max(2, size // 100), max(4, size // 10)
    for number in range(size):
        entity = f"E{number}"
        yield f"entity {entity}"
        if number < stars:
            yield f"add {entity} Star"
        elif number < stars + planets:
            yield f"add {entity} Planet"
            yield f"add {entity} (ChildOf,E{chosen.below(stars)})"
        else:
            yield f"add {entity} Moon"
            yield f"add {entity} (ChildOf,E{stars + chosen.below(planets)})"
        if chosen.chance(1, 2):
            yield value(entity, "Position", 0, chosen.below(5000))
        if number % 50 == 3:
            yield f"add {entity} Hot"
    for _ in range(size // 2):
        yield f"add E{chosen.below(size)} (Likes,E{chosen.below(max(20, size // 10))})"
    for _ in range(3):
        yield "query (ChildOf,$p), Planet($p)"
        yield "query (ChildOf,$p), ChildOf($p,$s), Star($s), Hot"
        yield "query Hot($s), (ChildOf,$s), (Likes,$x), Position($x)"
        yield "query Likes($a,$b), Likes($b,$c), Likes($c,$a)"
        yield "query (Likes,$x), Likes($x,$y), Planet($y), Hot"
        yield "query (Likes,$x), Likes($x,$this)"
        yield "query (*,$x), Hot, Hot($x)"
        yield "query (ChildOf,$p), ChildOf($q,$p), Hot, Hot($q), $q != $this"


def up(size, chosen):
    """What ancestors have, in deep chains and bushy trees."""
    yield from components(["Position", "Mass"])
    yield from entities(["Tag", "Rare", "InZone"])
    yield "add InZone Traversable"
    chains = max(2, size // 500)
    for number in range(size):
        entity = f"E{number}"
        yield f"entity {entity}"
        if number >= chains:
            parent = number - chains if number < size // 2 else chosen.below(size // 2)
            yield f"add {entity} (ChildOf,E{parent})"
        if number < chains or number % 211 == 0:
            yield value(entity, "Position", 0, chosen.below(9999))
        if number % 37 == 0:
            yield f"add {entity} Tag"
        if number == 3 or number % 1500 == 9:
            yield f"add {entity} Rare"
        if number % 7 == 0 and number > 40:
            yield f"add {entity} (InZone,E{chosen.below(number // 2)})"
    for turn in range(4):
        yield "query [none] Position(self|up)"
        yield "query Position(up), Tag"
        yield "query Position(self|up), !Rare(self|up), Tag"
        yield "query Mass(self|up), Tag"
        yield "query Position(up InZone), Tag"
        for _ in range(40):
            yield f"query Position(E{chosen.below(size)}|up)"
            yield "query Rare, Position(up)"
        yield f"set E{size // 4} Mass {turn}"
        yield f"remove E{chains + turn} Rare"


def transitive(size, chosen):
    """Relationships that are followed."""
    yield from entities(["Tag", "Rare", "In"])
    yield "add In Transitive"
    yield "component Near d:u16"
    yield "add Near Transitive"
    yield "add Near Reflexive"
    # Nothing is copied from a base: the relationships alone are measured.
    yield from (f"add {name} (OnInstantiate,DontInherit)" for name in ["Tag", "Rare", "In", "Near"])
    for number in range(size):
        entity = f"E{number}"
        yield f"entity {entity}"
        if number:
            yield f"add {entity} (IsA,E{(number - 1) // 3})"
            if chosen.chance(1, 10):
                yield f"add {entity} (IsA,E{chosen.below(number)})"
            if number % 64:
                yield f"add {entity} (In,E{number - 1})"
            if number % 16:
                yield f"set {entity} (Near,E{number - 1}) {number % 60000}"
        if number % 29 == 0:
            yield f"add {entity} Tag"
        if number % 501 == 2:
            yield f"add {entity} Rare"
    for _ in range(3):
        yield "query (IsA,E0), Tag"
        yield "query (IsA,E1)"
        yield "query (In,$x), Rare"
        yield "query (In,$x), Rare($x)"
        yield "query (Near,$x), Rare, Tag($x)"
        yield "query Rare, (IsA,$x), Tag($x)"
        yield "query Tag, !(IsA,E2)"
        for _ in range(60):
            yield f"query IsA(E{chosen.below(size)},$x)"
            yield f"query (In,E{chosen.below(size)})"
            yield f"query In(E{chosen.below(size)},E{chosen.below(size)})"
            yield f"query Near($x,E{chosen.below(size)})"


def negated(size, chosen):
    """Negated terms and groups."""
    yield from components(["Position", "Mass"])
    yield from entities(["Planet", "Likes", "Hot", "Cold"])
    for number in range(size):
        entity = f"E{number}"
        yield f"entity {entity}"
        if number % 3:
            yield value(entity, "Position", 0, chosen.below(9999))
        if number % 11 == 0:
            yield f"add {entity} Planet"
        if number % 41 == 0:
            yield f"add {entity} Hot"
        if number % 5 == 0:
            yield f"add {entity} Cold"
        if number > 30 and chosen.chance(2, 3):
            yield f"add {entity} (ChildOf,E{chosen.below(max(30, number // 20))})"
    for _ in range(size // 3):
        yield f"add E{chosen.below(size)} (Likes,E{chosen.below(max(30, size // 20))})"
    for _ in range(4):
        yield "query [none] Position, !{ (Likes,$x), Planet($x) }, Cold"
        yield "query Hot, !{ (Likes,$x), Planet($x) }, !{ (ChildOf,$x), Position($x) }"
        yield "query Hot, !{ (Likes,$x), !{ (ChildOf,$x), Cold } }"
        yield "query (ChildOf,$p), Hot, !Likes($this,$p), !{ Likes($q,$p), Hot($q) }"
        yield "query Planet, !(ChildOf,*), !Likes($z,$this)"
        yield "query Hot, !{ Likes($y,$this), ChildOf($y,$z), Planet($z) }"
        yield "query Cold, !Position, !Planet(up)"


def optional(size, chosen):
    """Optional terms and alternatives."""
    names = ["Position", "Mass", "Velocity"]
    yield from components(names)
    yield from entities(["Planet", "Likes", "Sun", "Hot"])
    for number in range(size):
        entity = f"E{number}"
        yield f"entity {entity}"
        for place, name in enumerate(names):
            if chosen.chance(1, 2):
                yield value(entity, name, place, chosen.below(1 << 16))
        if chosen.chance(1, 4):
            yield f"add {entity} Planet"
        if chosen.chance(1, 4):
            yield f"add {entity} (Likes,Sun)"
        if number > 20 and chosen.chance(1, 4):
            yield f"add {entity} (ChildOf,E{chosen.below(20)})"
        if number % 300 == 1:
            yield f"add {entity} Hot"
    for _ in range(3):
        yield "query Position, ?Planet, ?(Likes,Sun)"
        yield "query Planet, ?Velocity, ?Mass, ?Position(up)"
        yield "query Position || Mass || Planet, [none] ?Velocity"
        yield "query Hot, ?(ChildOf,*), ?(Likes,_), Mass || Velocity"
        yield from ("query Hot, ?Position, ?Mass, ?Velocity(self|up)" for _ in range(50))


class Family:
    """Who is whose child: a child falls with its parent."""

    def __init__(self):
        self.parents, self.children = {}, {}

    def adopt(self, child, parent):
        if child in self.parents:
            self.children[self.parents[child]].discard(child)
        self.parents[child] = parent
        self.children.setdefault(parent, set()).add(child)

    def fall(self, first):
        """Those that fall with one, itself among them. They have no parents and no children any more."""
        if first in self.parents:
            self.children[self.parents.pop(first)].discard(first)
        fallen = [first]
        for each in fallen:
            fallen.extend(sorted(self.children.pop(each, ())))
        for each in fallen:
            self.parents.pop(each, None)
        return fallen


CHURN_TAGS = 16


def churn_step(step, base, chosen, family):
    """A change of a world in which entities gain and lose ids, children come and go, and whole families fall."""
    kind, entity = chosen.below(20), chosen.below(base)
    name, names = f"E{entity}", ["Position", "Mass", "Velocity"]
    if kind < 5:
        yield f"add {name} Tag{chosen.below(CHURN_TAGS)}"
    elif kind < 11:
        yield f"remove {name} Tag{chosen.below(CHURN_TAGS)}"
    elif kind < 13:
        place = chosen.below(3)
        yield value(name, names[place], place, step)
    elif kind < 14:
        yield f"remove {name} {names[chosen.below(3)]}"
    elif kind < 15:
        word = "add" if chosen.chance(1, 4) else "remove"
        yield f"{word} {name} (Likes,E{chosen.below(base)})"
    elif kind < 16:
        # A child of an older one, so that there is no cycle.
        parent = chosen.below(base)
        if entity > parent:
            yield f"add {name} (ChildOf,E{parent})"
            family.adopt(entity, parent)
    elif kind < 18:
        yield from (f"entity X{step}", f"add X{step} (ChildOf,{name})", f"add X{step} Tag5", f"set X{step} Mass {step}", f"delete X{step}")
    elif kind < 19 or not chosen.chance(1, 4):
        yield "new" if step % 3 == 0 else f"set {name} Position {step % 999} 1"
    else:
        yield f"delete {name}"
        for each in family.fall(entity):
            yield f"entity E{each}"
            yield f"add E{each} Tag{chosen.below(CHURN_TAGS)}"
            if each % 97 == 0:
                yield f"add E{each} Hot"


def churn(size, chosen):
    """Kept queries of a world that changes."""
    yield from components(["Position", "Mass", "Velocity"])
    yield from entities([*tags(CHURN_TAGS), "Likes"])
    base = max(64, min(4000, size // 20))
    for number in range(base):
        yield f"entity E{number}"
        yield f"add E{number} Tag{number % CHURN_TAGS}"
        if number % 2:
            yield value(f"E{number}", "Position", 0, number)
    yield "entity Hot"
    yield from (f"add E{number} Hot" for number in range(0, base, 97))
    yield "keep a Position, Tag0, Tag1, Tag2"
    yield "keep b Hot, Tag2, Tag3, !Tag4"
    yield "keep c Mass, Velocity, (Likes,*), Hot"
    yield "keep d (ChildOf,$p), Tag5, Hot($p)"
    yield "keep e Hot, Tag7, ?Mass, Tag8"
    yield "keep f (Likes,$x), Hot($x), Tag1"
    family = Family()
    for step in range(size):
        yield from churn_step(step, base, chosen, family)
        if step % 5 == 0:
            yield "rows " + "bcdef"[step // 5 % 5]
        if step % 500 == 0:
            yield "rows a"


def monitor(size, chosen):
    """Monitors and observers of a world that changes."""
    names = ["Position", "Mass"]
    yield from components(names)
    yield from entities(["Planet", "Hot", "Cold", "Likes", "Base"])
    base = max(20, min(400, size // 50))
    for number in range(base):
        yield f"entity E{number}"
        if number % 2:
            yield value(f"E{number}", "Position", 0, number)
        if number > 4 and number % 3 == 0:
            yield f"add E{number} (ChildOf,E{number // 4})"
    yield "monitor l1 Position, !Planet"
    yield "monitor l2 Hot || Cold"
    yield "monitor l3 Mass, Position, ?Hot"
    yield "monitor l4 !{ Planet, !{ Hot } }, Position"
    yield "monitor n1 Hot(up), Position"
    yield "monitor n2 (Likes,$x), Planet($x), Cold"
    yield "monitor n3 Hot, !{ (Likes,$x), Planet($x) }"
    yield "on add a Planet"
    yield "on add b (Likes,*)"
    yield "on remove c Hot"
    yield "on set s Position"
    yield "on set t Mass"
    for step in range(size):
        kind, entity = chosen.below(16), f"E{chosen.below(base)}"
        if kind < 8:
            word = "add" if kind < 4 else "remove"
            yield f"{word} {entity} " + ["Planet", "Hot", "Cold"][chosen.below(3)]
        elif kind < 11:
            place = chosen.below(2)
            yield value(entity, names[place], place, step)
        elif kind < 12:
            yield f"remove {entity} {names[chosen.below(2)]}"
        elif kind < 14:
            word = "add" if kind < 13 else "remove"
            yield f"{word} {entity} (Likes,E{chosen.below(base)})"
        else:
            yield from (f"entity X{step}", f"add X{step} Hot", f"add X{step} (ChildOf,{entity})", f"delete X{step}")


def prefab(kind, chosen):
    """A prefab, from the fifth on an instance of an earlier one."""
    name = f"P{kind}"
    yield f"entity {name}"
    yield f"add {name} Prefab"
    if kind >= 4:
        yield f"add {name} (IsA,P{chosen.below(kind // 4 + 1)})"
    yield f"set {name} Health {kind}"
    yield f"set {name} Speed {kind} {kind % 7}"
    if kind % 2:
        yield f"set {name} Armor {kind}"
    yield f"set {name} Icon {kind}"
    if kind % 3 == 0:
        yield f"add {name} Hull"
    yield f"set {name} Sound {kind}"
    yield f"add {name} (Faction,Side{kind % 4})"


def instances(size, chosen):
    """Units made from prefabs in three levels: most components are copied, some are inherited, some are neither."""
    yield from components(["Position", "Health", "Speed", "Armor"])
    yield from entities(["Hull", "Owner", "Faction", "Slot", "Selected"])
    yield from ("component Icon id:u32", "component Sound id:u32")
    yield from ("add Hull (OnInstantiate,Inherit)", "add Icon (OnInstantiate,Inherit)", "add Sound (OnInstantiate,DontInherit)", "add Faction Exclusive")
    yield from entities(f"Side{side}" for side in range(4))
    kinds = max(4, min(60, size // 60))
    for kind in range(kinds):
        yield from prefab(kind, chosen)
    for number in range(size):
        entity = f"E{number}"
        yield f"entity {entity}"
        yield f"add {entity} (IsA,P{chosen.below(kinds)})"
        yield value(entity, "Position", 0, chosen.below(1 << 16))
        if chosen.chance(1, 4):
            yield f"set {entity} Health {chosen.below(100)}"
        if chosen.chance(1, 8):
            yield f"add {entity} (Faction,Side{chosen.below(4)})"
        if chosen.chance(1, 16):
            yield f"add {entity} Selected"
    for turn in range(6):
        yield "query Position, Icon, Selected"
        yield "query Selected, Hull, Health, Speed"
        yield f"query (Faction,Side{turn % 4}), Selected, ?Armor, ?Icon(self)"
        yield f"query (IsA,P{chosen.below(kinds)}), Selected"
        yield "query Icon(self|up IsA), !Hull, Selected"
        yield from (f"show E{chosen.below(size)}" for _ in range(20))


def cascade(size, chosen):
    """A scene: rows of parents before those of their children, again and again, while some move."""
    yield from components(["Local", "World"])
    yield from entities(["Root", "Mesh", "Dirty"])
    roots = max(2, size // 200)
    for number in range(size):
        entity = f"E{number}"
        yield f"entity {entity}"
        if number < roots:
            yield f"add {entity} Root"
        else:
            # The later half hangs below all, so most are some eight deep.
            yield f"add {entity} (ChildOf,E{chosen.below(roots if number < 4 * roots else number)})"
        yield value(entity, "Local", 0, chosen.below(1 << 12))
        if chosen.chance(1, 2):
            yield value(entity, "World", 1, chosen.below(1 << 12))
        if chosen.chance(1, 5):
            yield f"add {entity} Mesh"
    yield "keep transforms Local, World(cascade)"
    yield "keep meshes Mesh, Local, ?World(self|cascade)"
    for _ in range(6):
        yield "query [none] Local, World(cascade)"
        yield "query Local(self|cascade), Mesh"
        yield "rows meshes"
        for _ in range(max(1, size // 100)):
            moved = chosen.below(size - roots) + roots
            yield f"add E{moved} (ChildOf,E{chosen.below(roots)})"
            yield f"add E{chosen.below(size)} Dirty"
        yield "query Dirty, World(self|cascade)"
        yield "rows transforms"


def wide(size, chosen):
    """A table for each entity."""
    yield from entities(["C", "U"])
    for number in range(1, size + 1):
        yield from (f"entity T{number}", f"entity E{number}", f"add E{number} C", f"add E{number} T{number}")
    yield "add E7 U"
    yield "keep k C, U"
    for _ in range(2000):
        yield "query C, U"
        yield f"query C, T{chosen.below(size) + 1}"
        yield "rows k"
    yield from ("query C, !U, ?U, T5 || U" for _ in range(20))


WORKLOADS = {
    "plain": plain,
    "fill": fill,
    "scan": scan,
    "join": join,
    "up": up,
    "transitive": transitive,
    "not": negated,
    "optional": optional,
    "churn": churn,
    "monitor": monitor,
    "wide": wide,
    "instances": instances,
    "cascade": cascade,
}


def script(name, size):
    chosen = Chooser(size * 1000003 + sum(name.encode()))
    return "".join(f"{line}\n" for line in WORKLOADS[name](size, chosen))


def plain_engine():
    """The instructions of a plain engine and the SHA-256 of its output, by workload and size."""
    with open(os.path.join(HERE, "plain_engine.txt"), encoding="ascii") as lines:
        rows = [line.split() for line in lines if line.strip() and not line.startswith("#")]
    return {(name, int(size)): (int(count), digest) for name, size, count, digest in rows}


if __name__ == "__main__":
    parser = argparse.ArgumentParser(description=__doc__, formatter_class=argparse.RawDescriptionHelpFormatter)
    parser.add_argument("name", choices=WORKLOADS)
    parser.add_argument("size", type=int)
    given = parser.parse_args()
    sys.stdout.write(script(given.name, given.size))
