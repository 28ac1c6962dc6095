#!/usr/bin/env python3
"""workloads.py NAME SIZE [--sql]: a workload on standard output, as a script or as SQL for the sqlite3 shell.

A workload is one list of commands, and both texts say each of them in turn, in one line of the script and one statement of
the SQL. Both answer with the same lines, but for the counts of rows, which SQL leaves out.
"""
import argparse
import itertools
import random
import sys

SCHEMA = """pragma foreign_keys = on;
create table entity (made integer primary key, name text not null unique);
create table held (entity integer references entity, id integer references entity, primary key (entity, id)) without rowid;
create index holders on held (id, entity);
create table Position (entity integer primary key references entity, x integer not null, y integer not null);
begin;
"""


def number_of(name):
    return f"(select made from entity where name = '{name}')"


class Component:
    """Makes the component Position, the only one: all other ids are tags."""

    def line(self):
        return "component Position x:i32 y:i32"

    def statement(self):
        return "insert into entity (name) values ('Position');"


class Entity:
    def __init__(self, name):
        self.name = name

    def line(self):
        return f"entity {self.name}"

    def statement(self):
        return f"insert into entity (name) values ('{self.name}');"


class Add:
    """Adds a tag."""

    def __init__(self, entity, tag):
        self.entity, self.tag = entity, tag

    def line(self):
        return f"add {self.entity} {self.tag}"

    def statement(self):
        return f"insert or ignore into held values ({number_of(self.entity)}, {number_of(self.tag)});"


class Remove:
    """Removes a tag."""

    def __init__(self, entity, tag):
        self.entity, self.tag = entity, tag

    def line(self):
        return f"remove {self.entity} {self.tag}"

    def statement(self):
        return f"delete from held where entity = {number_of(self.entity)} and id = {number_of(self.tag)};"


class Set:
    """Sets the Position."""

    def __init__(self, entity, x, y):
        self.entity, self.x, self.y = entity, x, y

    def line(self):
        return f"set {self.entity} Position {self.x} {self.y}"

    def statement(self):
        values = f"insert into Position values ({number_of(self.entity)}, {self.x}, {self.y})"
        return f"{values} on conflict (entity) do update set x = excluded.x, y = excluded.y;"


class Show:
    """Shows an entity that holds tags alone."""

    def __init__(self, entity):
        self.entity = entity

    def line(self):
        return f"show {self.entity}"

    def statement(self):
        tags = f"select id from held where entity = {number_of(self.entity)} order by id"
        parts = f"select group_concat(' [' || name || ']', '') from ({tags}) join entity on made = id"
        return f"select 'show {self.entity}' || coalesce(({parts}), '');"


class Query:
    """Asks for the entities that hold a Position and these tags."""

    def __init__(self, *tags):
        self.tags = tags

    def line(self):
        return "query " + ", ".join(["Position", *self.tags])

    def statement(self):
        parts = "'row $this=' || name || ' [Position@' || name || '=' || x || ',' || y || ']'"
        parts += "".join(f" || ' [{tag}@' || name || ']'" for tag in self.tags)
        joins = "".join(
            f" join held as held{at} on held{at}.entity = Position.entity and held{at}.id = {number_of(tag)}" for at, tag in enumerate(self.tags)
        )
        return f"select {parts} from Position{joins} join entity on made = Position.entity order by made;"


def names(count):
    return [f"Entity{number}" for number in range(count)]


def positions(chosen, count):
    return [(chosen.randrange(-1000, 1001), chosen.randrange(-1000, 1001)) for _ in range(count)]


def births(size, chosen):
    """Entities get names, and every tenth of them is shown."""
    yield from map(Entity, names(size))
    yield from map(Show, names(size)[::10])


def values(size, chosen):
    """Each entity gets a Position and then, in another order, a new one; they are asked for once."""
    yield Component()
    yield from map(Entity, names(size))
    again = names(size)
    chosen.shuffle(again)
    for name, (x, y) in zip(names(size) + again, positions(chosen, 2 * size)):
        yield Set(name, x, y)
    yield Query()


def moves(size, chosen):
    """Entities with a Position get and lose three tags, so that each goes through several archetypes."""
    yield Component()
    tags = ["Red", "Green", "Blue"]
    yield from map(Entity, tags + names(size))
    for name, (x, y) in zip(names(size), positions(chosen, size)):
        yield Set(name, x, y)
    for tag in tags:
        yield from (Add(name, tag) for name in names(size))
    for name in names(size):
        yield Remove(name, chosen.choice(tags))
    yield Query("Red", "Green")


def questions(size, chosen):
    """A thousand entities, half of them planets, are asked for again and again."""
    yield Component()
    yield from map(Entity, ["Planet", *names(1000)])
    for name, (x, y) in zip(names(1000), positions(chosen, 1000)):
        yield Set(name, x, y)
    yield from (Add(name, "Planet") for name in names(1000)[::2])
    yield from itertools.repeat(Query("Planet"), size)


def shows(size, chosen):
    """Entities with 60 tags each are shown again and again."""
    tags = [f"Tag{number}" for number in range(60)]
    yield from map(Entity, tags + names(100))
    yield from (Add(name, tag) for name in names(100) for tag in tags)
    yield from map(Show, itertools.islice(itertools.cycle(names(100)), size))


WORKLOADS = {"births": births, "values": values, "moves": moves, "questions": questions, "shows": shows}
SIZES = {"births": 50_000, "values": 20_000, "moves": 10_000, "questions": 400, "shows": 10_000}


def commands(name, size):
    return WORKLOADS[name](size, random.Random(name))


def script(name, size):
    return "".join(f"{it.line()}\n" for it in commands(name, size))


def sql(name, size):
    return SCHEMA + "".join(f"{it.statement()}\n" for it in commands(name, size)) + "commit;\n"


if __name__ == "__main__":
    parser = argparse.ArgumentParser(description=__doc__, formatter_class=argparse.RawDescriptionHelpFormatter)
    parser.add_argument("name", choices=WORKLOADS)
    parser.add_argument("size", type=int)
    parser.add_argument("--sql", action="store_true")
    given = parser.parse_args()
    sys.stdout.write((sql if given.sql else script)(given.name, given.size))
