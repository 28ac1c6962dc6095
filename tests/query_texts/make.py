#!/usr/bin/env python3
"""Writes `cases`: texts made from the grammar, half of them with one token changed, each with its answer by `rules`.

A line is the text as a JSON string, a tab, and `ok` or the fault. The same seed gives the same cases.
"""

import json
import pathlib
import random
import string

from rules import GRAMMAR, MOST_TERMS, MOST_VARIABLES, fault_of

WORLD = {"ChildOf": True, "IsA": True, "Sun": False, "Moon": False, "Planet": False, "Position": False, "Likes": False}
WORDS = ["Sun", "Moon", "Planet", "Position", "Likes", "ChildOf", "IsA"]
MARKS = [",", "||", "|", "!=", "!", "?", "==", "(", ")", "{", "}", "[", "]", "*", "_"]


def written(dice, symbol, depth):
    """The tokens of a symbol, made at random. Deep down, the shortest rule is taken."""
    if symbol == "end":
        return []
    if symbol == "word":
        return [dice.choice(WORDS) if dice.random() < 0.97 else dice.choice(["Mars", "in", "none", "Sun.day_1"])]
    if symbol == "variable":
        return [dice.choice(["$this", "$x", "$x", "$y", "$z"])]
    if symbol not in GRAMMAR:
        return [symbol]
    rules = GRAMMAR[symbol]
    if symbol == "ref":
        rule = dice.choices(rules, [60, 30, 6, 4])[0]
    elif symbol == "item":
        rule = dice.choices(rules, [50, 14, 6, 14 if depth < 18 else 0, 16])[0]
    elif symbol in ("items", "chain"):
        rule = dice.choices(rules, [55, 45 if depth < 14 else 0] if symbol == "items" else [75, 25])[0]
    else:
        rule = dice.choice(rules)
    return [token for part in rule for token in written(dice, part, depth + 1)]


def changed(dice, tokens):
    """The same with one token left out, doubled, or replaced."""
    at = dice.randrange(len(tokens))
    other = dice.choice(MARKS + ["self", "up", "cascade", "$x", "Sun", "Mars", "$", "=", "7", "\u00e9", "."])
    return tokens[:at] + dice.choice([[], [tokens[at]] * 2, [other], [tokens[at], other]]) + tokens[at + 1:]


def joined(dice, tokens):
    text = ""
    for token in tokens:
        glued = text and (text[-1].isalnum() or text[-1] in "_.") and (token[0].isalnum() or token[0] in "_.")
        text += dice.choice(["", "", " ", "  ", "\t"] if not glued else [" ", "  ", "\t"]) + token
    return text.strip(" \t")


def cases(dice):
    found, count = {}, {}
    while len(found) < 200:
        tokens = written(dice, "query", 0)
        if len(found) % 2:
            tokens = changed(dice, tokens)
        text = joined(dice, tokens)
        # a change of one token may give what a text between blanks can't tell from another
        if not text or text in found or len(text.encode()) > 300:
            continue
        answer = str(fault_of(text.encode(), WORLD) or "ok")
        kind = answer.split()[0]
        if count.get(kind, 0) >= (90 if kind == "ok" else 36):
            continue
        count[kind] = count.get(kind, 0) + 1
        found[text] = answer
    return found, count


def limits():
    """Texts at the limits of counts and depth."""
    names = string.ascii_letters[:MOST_VARIABLES + 1]
    most = ",".join(["Sun"] * MOST_TERMS)
    yield most
    yield most + ", [in] ?Sun($this, Moon)"
    yield most + ",Mars"
    yield "||".join(["Sun"] * (MOST_TERMS + 1))
    yield ",".join(f"Likes(${name})" for name in names[:-1]) + ", $this == Sun"
    yield ",".join(f"Likes(${name})" for name in names)
    yield ",".join(f"!{{ Likes(${name}), Sun(${name}) }}" for name in names)
    yield ",".join(f"!Likes($x, ${name})" for name in names[:-1]) + ",$x == Sun, $G != $x"
    yield "!{" * 4 + "Sun" + "}" * 4
    yield "!{" * 5 + "Sun" + "}" * 5
    yield "!{" * 4 + "!Sun" + "}" * 4
    yield "!{ Likes($x) }, !{ Likes($x), !{ Sun($x) } }"
    yield "?Likes($x), !{ Sun($x) }, (Likes,$x)"
    yield "!{ Sun($x) }, ?Likes($x)"
    yield "Likes($x) || (Likes,$x), Sun($x)"
    yield "Likes($x) || Sun, Sun"
    yield "$this == $x"
    yield "$x == Mars"
    yield "(*, $x), $x != *"
    yield "Sun(self|cascade), ?Moon($this|up)"
    yield "Sun(cascade IsA) || Moon(cascade)"
    yield "!{ Sun(cascade) }"
    yield "!Sun(cascade(ChildOf))"
    yield "Sun($x|cascade), Likes($x)"
    yield "?Sun(cascade Moon), Sun(*|cascade)"


if __name__ == "__main__":
    here = pathlib.Path(__file__).parent
    found, count = cases(random.Random(20261122))
    for text in limits():
        found[text] = str(fault_of(text.encode(), WORLD) or "ok")
    lines = [f"{json.dumps(text)}\t{answer}\n" for text, answer in found.items()]
    (here / "cases").write_text("".join(lines))
    print(len(lines), count)
