#!/usr/bin/env python3
"""hostile.py names|others COUNT, hostile.py walk STEPS ENTITIES, hostile.py dead BRANCHES TARGETS: scripts on standard output that try to
wear the program out.

The names are those of an enemy who knows the hash function of std's maps and the state that they begin with where nobody gives
another: a number is multiplied by another, and the two halves of the product are folded into one by exclusive or. The text is
taken 16 bytes at a time, and the last 16 bytes at the end, whatever was taken before.
"""
import random
import sys

MASK = (1 << 64) - 1
FACTOR = 0x9E3779B97F4A7C15
SEED = 0x243F6A8885A308D3
LETTERS = b"abcdefghijklmnopqrstuvwxyzABCDEFGHIJKLMNOPQRSTUVWXYZ0123456789_."
NAME_LENGTH = 48


def folded(left, right):
    product = left * right
    return (product & MASK) ^ (product >> 64)


def word(text, at):
    return int.from_bytes(text[at : at + 8], "little")


def hash_of(text):
    """The hash of a text of more than 16 bytes."""
    state, at = (SEED + len(text)) & MASK, 0
    while len(text) - at > 16:
        state = folded(word(text, at) ^ state, word(text, at + 8) ^ FACTOR)
        at += 16
    return folded(word(text, len(text) - 16) ^ state, word(text, len(text) - 8) ^ FACTOR)


def first_letters():
    """The 24 letters that all colliding names begin with: the last eight are the state after the first 16, so that the next
    product has a factor of zero, and the state behind it is zero whatever the other factor is."""
    chosen = random.Random(1)
    while True:
        start = bytes([chosen.choice(LETTERS[:52])]) + bytes(chosen.choices(LETTERS, k=15))
        state = folded(word(start, 0) ^ ((SEED + NAME_LENGTH) & MASK), word(start, 8) ^ FACTOR).to_bytes(8, "little")
        if all(it in LETTERS for it in state):
            return start + state


def numbered(count):
    """Eight letters for each number, all different."""
    for number in range(count):
        yield bytes(LETTERS[number >> 6 * at & 63] for at in range(8))


def colliding_names(count):
    """Names of 48 letters that all have one hash."""
    start = first_letters()
    return [start + it + b"and_all_the_same" for it in numbered(count)]


def other_names(count):
    """As many names that are as long and as alike, and have hashes of their own."""
    start = first_letters()
    return [start[:16] + start[:15:-1] + it + b"and_all_the_same" for it in numbered(count)]


def script_of_names(names):
    """Makes an entity of each name, and then asks for the last one."""
    return b"\n".join([*(b"entity " + it for it in names), b"query " + names[-1], b""])


def walk_through_tables(steps, entities):
    """Entities with 48 components of 64 bytes, which all go from table to table: each step adds or removes one of 16 tags so that
    it leads to a set of ids that none before it had."""
    lines = [f"component C{number} " + " ".join(f"{it}:u64" for it in "abcdefgh") for number in range(48)]
    lines += [f"entity T{number}" for number in range(16)]
    lines += [f"entity E{number}" for number in range(entities)]
    lines += [f"add E{entity} C{number}" for entity in range(entities) for number in range(48)]
    tags = 0
    for step in range(1, steps + 1):
        turned = tags ^ step ^ step >> 1
        tags ^= turned
        verb, number = "add" if tags & turned else "remove", turned.bit_length() - 1
        lines += [f"{verb} E{entity} T{number}" for entity in range(entities)]
    return ("\n".join(lines) + "\n").encode()


def dead_branches(branches, targets):
    """Two entities with a branch of two steps to each of some targets, as often as is said. Behind the last branch a search ends dead, whatever the
    others are: by a tag, by `up`, and in a group. In the last query a part ends dead that nothing ties to the others."""
    lines = [f"entity {word}" for word in ("T", "R", "S", "U", "H0", "H1")]
    lines += [f"entity {kind}{number}" for kind in "XW" for number in range(targets)] + [f"entity O{number}" for number in range(4)]
    lines += ["add H0 T", "add H1 T"] + [f"add O{number} {tag}" for number in range(4) for tag in ("U", f"(U,O{number})")]
    for number in range(targets):
        lines += [f"add H0 (R,X{number})", f"add H1 (R,X{number})", f"add X{number} (S,W{number})"]
    several = ", ".join([f"R($a,$b{it})" for it in range(branches)] + [f"S($b{it},$c{it})" for it in range(branches)])
    last = f"$c{branches - 1}"
    lines.append(f"query T($a), {several}, U({last})")
    lines.append(f"query T($a), {several}, U({last}|up)")
    lines.append(f"query T, !{{ {several.replace('$a', '$this')}, U({last}) }}")
    lines.append("query " + ", ".join(f"R($a{it},$b{it}), S($b{it},$c{it})" for it in range(branches)) + ", S($y,$x), R($x,$z)")
    return ("\n".join(lines) + "\n").encode()


def main():
    kind, numbers = sys.argv[1], [int(it) for it in sys.argv[2:]]
    if kind == "walk":
        script = walk_through_tables(*numbers)
    elif kind == "dead":
        script = dead_branches(*numbers)
    else:
        script = script_of_names({"names": colliding_names, "others": other_names}[kind](*numbers))
    sys.stdout.buffer.write(script)


if __name__ == "__main__":
    main()
