#!/usr/bin/env python3
"""untied.py NAME SIZE: queries whose parts nothing ties to one another, of which one has no answer, as a script on standard output.

What is multiplied before that part is asked grows with each part, so the order in which a query's items are dealt with tells. In `dead` no order
can know which part that is, and it tells how far a search goes back from a dead end.
"""
import argparse
import sys

TIED_TO_NOTHING = ", ".join(f"T(${letter})" for letter in "abcdefgh")


def world(size, tags):
    """Entities with these tags each."""
    yield from (f"entity {word}" for word in ["T", "A", "R", "S", "U"])
    for number in range(size):
        yield f"entity E{number}"
        yield from (f"add E{number} {tag}" for tag in tags)


def untied(size):
    """A part that fails stands behind seven that only multiply."""
    yield from world(size, ["T"])
    yield "add E0 A"
    yield f"query {TIED_TO_NOTHING}, !T($h)"
    yield f"query {TIED_TO_NOTHING}, U($h|up)"
    yield f"query {TIED_TO_NOTHING}, R($a,$x) || S($a,$x)"
    yield f"query A, !{{ {TIED_TO_NOTHING}, !{{ T($h) }} }}"
    yield f"query A, !{{ {TIED_TO_NOTHING}, R($a,$x) || S($a,$x) }}"
    yield f"query {', '.join(f'A($x), R($x,${letter})' for letter in 'abcdefgh')}, !T($h)"


def either(size):
    """Alternatives that bind a variable, which nobody has."""
    yield from world(size, ["T", "A"])
    yield "query A, T($y), R($y,$x) || S($y,$x)"
    yield "query A($this|self|up), T($y), T($z), R($this,$x) || S($this,$x)"


def cut(size):
    """The only entities that could be `$this` are none, by Prefab or Disabled."""
    yield from world(size, ["T"])
    yield from (f"add E{number} {tag}" for number in range(size) for tag in ["A", "Prefab"])
    yield "query T($y), A, $y != $this"
    yield "query A, T($a), T($b), T($c), T($d)"


def dead(size):
    """Behind one of several branches a search ends dead, whatever the others are."""
    yield from (f"entity {word}" for word in ["T", "A", "R", "S", "U"])
    yield from (f"entity {kind}{number}" for kind in "OHXW" for number in range(size))
    for number in range(size):
        yield from (f"add O{number} {tag}" for tag in ["U", f"(U,O{number})"])
        yield from (f"add H{number} {tag}" for tag in ["T", "A"])
        yield from (f"add H{number} (R,X{target})" for target in range(size))
        yield f"add X{number} (S,W{number})"
    branches = ", ".join([f"R($a,${letter})" for letter in "bcdefgh"] + [f"S(${letter},$x{letter})" for letter in "bcdefgh"])
    yield f"query T($a), {branches}, U($xh)"
    yield f"query T($a), {branches}, U($xh|up)"
    yield f"query A, !{{ {branches.replace('$a', '$this')}, U($xh) }}"
    yield f"query {', '.join(f'R($p{letter},$q{letter}), S($q{letter},$r{letter})' for letter in 'abc')}, S($y,$z), R($z,$u)"


WORKLOADS = {"untied": (untied, [10, 20]), "either": (either, [400, 1600]), "cut": (cut, [20, 40]), "dead": (dead, [4, 8])}


def script(name, size):
    return "".join(f"{line}\n" for line in WORKLOADS[name][0](size))


def main():
    parser = argparse.ArgumentParser(description=__doc__, formatter_class=argparse.RawDescriptionHelpFormatter)
    parser.add_argument("name", choices=WORKLOADS)
    parser.add_argument("size", type=int)
    chosen = parser.parse_args()
    sys.stdout.write(script(chosen.name, chosen.size))


if __name__ == "__main__":
    main()
