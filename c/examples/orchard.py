"""Trees grow year by year, and are felled where they are high enough. What all trees do goes by columns; a monitor tells which of them are gone.

    make library && PYTHONPATH=tools python3 c/examples/orchard.py out/libflecsq.so
"""
import sys
from array import array

from flecsq import LIBRARY, Session

TREES = {"Ash": (20, 3), "Birch": (12, 5), "Cedar": (30, 2), "Elm": (7, 4)}
HIGH = 32


def grow(trees, height, growth):
    for table in trees.tables():
        grown = array("H", map(sum, zip(table.column(height), table.column(growth))))
        table.set(height, grown)


def main(library=LIBRARY):
    with Session(library) as world:
        height, growth = world.component("Height", feet="u16"), world.component("Growth", feet="u16")
        world.line("monitor standing Height")
        for name, (feet, more) in TREES.items():
            tree = world.entity(name)
            world.set(tree, height, feet)
            world.set(tree, growth, more)
        trees, year = world.query("Height, Growth"), 0
        print(world.told(), end="")
        while rows := trees.rows(height):
            year += 1
            grow(trees, height, growth)
            for tree, (feet,) in trees.rows(height):
                if feet >= HIGH:
                    world.delete(tree)
            print(f"year {year}, {len(rows)} trees\n{world.told()}", end="")
    return 0 if year == 7 else 1


if __name__ == "__main__":
    sys.exit(main(*sys.argv[1:]))
