"""Refused lines, and how `flecsq --explain` explains each: one at least for each kind of refusal.

A case is a script that follows WORLD and whose last line is refused: the kind, that line as it is quoted, the marks under it, and words that the sentence has,
or that are all of it.
"""
import collections

Case = collections.namedtuple("Case", "script kind quote marks word is_all", defaults=[False])

WORLD = b"""component Position x:i32 y:i32
component Weight kg:u8
entity Tag
entity Sun
entity Earth
add Earth (ChildOf,Sun)
set Earth Position 10 -3
"""


def case(line, kind, at=None, word="", before=""):
    """A case of a line that is marked under AT, a part of it."""
    script = f"{before}{line}\n".encode()
    if at is None:
        return Case(script, kind, f"  {line.rstrip()}", None, word)
    front = "".join("\t" if it == "\t" else " " for it in line[: line.index(at)])
    return Case(script, kind, f"  {line.rstrip()}", f"  {front}{'^' * max(1, len(at))}", word)


def end(line, kind, word, before=""):
    """A case of a line that is marked behind its end."""
    return case(line, kind, None, word, before)._replace(marks="  " + " " * len(line) + "^")


def whole(line, kind, at, sentence, before=""):
    """A case whose sentence has nothing after it."""
    return case(line, kind, at, sentence, before)._replace(is_all=True)


def line_of(one):
    """The number of the line that is refused last."""
    return (WORLD + one.script).count(b"\n")


MANY = "".join(f"entity T{n}\nadd Sun T{n}\n" for n in range(64))
STORED = "".join(f"keep k{n} Tag\n" for n in range(1024))
PANIC = "entity Guard\nadd Guard (OnDeleteTarget,Panic)\nadd Earth (Guard,Tag)\n"
TERMS = ", ".join(["Tag"] * 64)
UNKNOWN = "No entity has the name that stands here."
OUTSIDE = "A value is outside the range of its field's kind."
NO_NAME = "The new name is no name: 1 to 64 ASCII letters, digits, `_` or `.`, the first a letter, and none of `self`, `up`, `cascade`, `desc`."
# (WORLD has three entities, and the first 1,024 are kept)
FULL = "".join(f"entity F{n}\n" for n in range(1021)) + "entity Venus\n"
VARIABLES = ", ".join(f"Tag($v{n})" for n in range(32))

CASES = {
    "unknown command": case("querry Tag", "BadLine", "querry", "`query TERM, ..`"),
    "capital command": case("Entity Moon", "BadLine", "Entity", "`entity NAME`"),
    "no command": case("fly Earth", "BadLine", "fly", "like none"),
    "float kind": case("component Speed x:f32", "BadLine", "x:f32", "no floats"),
    "no kind": case("component Speed x", "BadLine", "x", "FIELD:KIND")._replace(marks="  " + " " * 16 + "^"),
    "fraction": case("set Earth Position 1.5 2", "BadLine", "1.5", "whole numbers"),
    "no value": case("set Earth Position 1 two", "BadLine", "two", "no value"),
    "comment": case("add Earth Tag // a tag", "BadLine", "//", "A comment is a line of its own"),
    "comment of a value": case("set Earth Weight 1 # kg", "BadLine", "#", "A comment is a line of its own"),
    "too many words": case("entity Moon Sun", "BadLine", "Sun", "too many"),
    "missing word": end("add Earth", "BadLine", "`add ENTITY ID`"),
    "no values": end("set Earth Position", "BadLine", "`set ENTITY ID VALUE ..`"),
    "odd handle": case("show #64", "BadLine", "#64", "`#index.generation`"),
    "great generation": case("show #64.65536", "BadLine", "#64.65536", "`#index.generation`"),
    "odd pair": case("add Earth (ChildOf Sun)", "BadLine", "(ChildOf Sun)", "no pair"),
    "open pair": case("add Earth (ChildOf,Sun", "BadLine", "(ChildOf,Sun", "no pair"),
    "pair and more": case("add Earth (ChildOf,Sun)x", "BadLine", "(ChildOf,Sun)x", "no pair"),
    "odd entity": case("show Sun(Earth)", "BadLine", "Sun(Earth)", "neither a name nor a handle"),
    "odd event": case("on change c Tag", "BadLine", "change", "add, remove or set"),
    "byte order mark": case("\ufeffentity Moon", "BadLine", "\ufeff", "byte order mark"),
    "not UTF-8": Case(b"entity M\xffn\n", "BadLine", "  entity M?n", "  " + " " * 8 + "^", "UTF-8"),
    "control byte": Case(b"entity \x1b[1m Moon\n", "BadLine", "  entity ?[1m Moon", "  " + " " * 12 + "^^^^", "too many"),
    "LineTooLong": Case(b"/" * 4097 + b"\n", "LineTooLong", "  " + "/" * 160 + " ..", None, "4,096"),
    "TooManyFields": case("component Big " + " ".join(f"f{n}:i8" for n in range(9)), "TooManyFields", None, "eight"),
    "NoFields": case("component Nothing", "NoFields", None, "at least one"),
    "BadField": case("component Twice x:i8 x:i8", "BadField", None, "twice"),
    "Dead": case("show #900.0", "Dead", None, "live"),
    "UnknownName": whole("show Moon", "UnknownName", "Moon", UNKNOWN),
    "BadName": whole("entity 9a", "BadName", "9a", NO_NAME),
    "NameTaken": case("entity Sun", "NameTaken", None, "already"),
    "BuiltIn": case("add ChildOf Tag", "BuiltIn", None, "built-in"),
    "NoData": case("set Earth Tag 1", "NoData", None, "no values"),
    "Count": case("set Earth Position 1", "Count", None, "number of values"),
    "Range": case("set Earth Weight 256", "Range", "256", "u8 takes 0 to 255."),
    "TraitFixed": case("add ChildOf Exclusive", "BuiltIn", None, "built-in"),
    "TraitFixed of use": case("add Tag Exclusive", "TraitFixed", None, "trait", "add Earth Tag\n"),
    "InUse": case("delete Tag", "InUse", None, "stored query", "keep k Tag\n"),
    "Cycle": case("add Sun (ChildOf,Earth)", "Cycle", None, "acyclic"),
    "TooManyIds": case("add Sun Tag", "TooManyIds", None, "64", MANY),
    "Panic": case("delete Tag", "Panic", None, "`Panic`", PANIC),
    "UnknownQuery": case("rows k", "UnknownQuery", "k", "kept query")._replace(marks="  " + " " * 5 + "^"),
    "QueryTaken": case("keep k Sun", "QueryTaken", None, "already", "keep k Tag\n"),
    "TooManyStored": case("keep k Tag", "TooManyStored", None, "1,024", STORED),
    "Lex": case("query Tag & Sun", "Lex", "&", "character"),
    "Syntax": case("query   Tag,, Sun", "Syntax", "", "No query goes on")._replace(marks="  " + " " * 12 + "^"),
    "Syntax at the end": end("keep k Tag,", "Syntax", "No query goes on"),
    "UnknownName in a query": case("\tmonitor m Moon", "UnknownName", "Moon", "No entity"),
    "NotTraversable": case("on add a Tag(up Sun)", "NotTraversable", "Sun", "`Traversable`"),
    "UnboundVariable": case("query Tag, ?(ChildOf,$x)", "UnboundVariable", "$x", "binds"),
    "WildcardSource": case("query Tag(*)", "WildcardSource", "*", "source"),
    "WildcardEquality": case("query Tag, $this == _", "WildcardEquality", "_", "`==`"),
    "TooManyTerms": case(f"query {TERMS}, Sun", "TooManyTerms", "Sun", "64"),
    "TooManyVariables": case(f"query {VARIABLES}, Tag($w)", "TooManyVariables", "$w", "32")._replace(quote=f"  query {VARIABLES}, Tag($w .."),
    "TooDeep": case("query !{ !{ !{ !{ !{ Tag } } } } }", "TooDeep", None, "four")._replace(marks="  " + " " * 19 + "^"),
    "NoThis": case("monitor m Position(Sun)", "NoThis", "Position(Sun)", "`$this`"),
    "NotOneTerm": case("on add a Position, Tag", "NotOneTerm", "Position, Tag", "one plain term"),
    "CascadePlace": case("query !{ Tag(cascade) }", "CascadePlace", "cascade", "`cascade`"),
}

# Names that are near, and what is known of a name.
CASES |= {
    "letter missing": case("show Erth", "UnknownName", "Erth", "Did you mean `Earth`?"),
    "letter too many": case("add Earth (ChildOff,Sun)", "UnknownName", "ChildOff", "Did you mean `ChildOf`?"),
    "letters swapped": case("query Positoin", "UnknownName", "Positoin", "Did you mean `Position`?"),
    "two edits": case("query Tag, Pozitio", "UnknownName", "Pozitio", "Did you mean `Position`?"),
    "other case": case("delete earth", "UnknownName", "earth", "Did you mean `Earth`?"),
    "case comes first": case("show moon", "UnknownName", "moon", "Did you mean `Moon`?", "entity Noon\nentity Moon\n"),
    "nearest of two": case("show Planett", "UnknownName", "Planett", "Did you mean `Planet`?", "entity Planes\nentity Planet\n"),
    "two edits of five letters": whole("show Earxx", "UnknownName", "Earxx", UNKNOWN),
    "three edits": whole("query Pozitioxx", "UnknownName", "Pozitioxx", UNKNOWN),
    "two letters": whole("show Ac", "UnknownName", "Ac", UNKNOWN, "entity Ab\n"),
    "two letters in another case": case("show aB", "UnknownName", "aB", "Did you mean `Ab`?", "entity Ab\n"),
    "name of a refused line": whole("show Plutp", "UnknownName", "Plutp", UNKNOWN, "entity Pluto Mars\n"),
    "unknown entity beside others": case("add Erth (ChildOf,Sun)", "UnknownName", "Erth", "Did you mean `Earth`?"),
    "unknown target": case("remove Earth (ChildOf, Sum)", "UnknownName", "Sum", "Did you mean `Sun`?"),
    "beyond the names kept": whole("show Venux", "UnknownName", "Venux", UNKNOWN, FULL),
    "unknown among names that aren't kept": whole("add Venus (ChildOf,Venux)", "UnknownName", None, UNKNOWN, FULL),
    "deleted": case("show Tag", "UnknownName", "Tag", "it was deleted since", "delete Tag\n"),
    "near query": case("rows neer", "UnknownQuery", "neer", "Did you mean `near`?", "keep near Tag\n"),
    "near monitor": case("drop neer", "UnknownQuery", "neer", "Did you mean `near`?", "monitor near Tag\n"),
    "near observer": case("drop neer", "UnknownQuery", "neer", "Did you mean `near`?", "on add near Tag\n"),
    "rows of what is near a monitor": case("rows neer", "UnknownQuery", "neer", "kept query", "monitor near Tag\n"),
    "rows of a monitor": case("rows near", "UnknownQuery", "near", "have no rows", "monitor near Tag\n"),
    "dropped": case("rows near", "UnknownQuery", "near", "it was dropped since", "keep near Tag\ndrop near\n"),
}

# The range of a field's kind.
BITS = {f"{sign}{bits}": (-(2 ** (bits - 1)), 2 ** (bits - 1) - 1) if sign == "i" else (0, 2**bits - 1) for sign in "iu" for bits in (8, 16, 32, 64)}
CASES |= {
    f"{word} of {kind}": case(f"set Earth K {value}", "Range", str(value), f" {kind} takes {least} to {most}.", f"component K v:{kind}\n")
    for kind, (least, most) in BITS.items()
    for word, value in (("least", least - 1), ("most", most + 1))
}
CASES |= {
    "second value": case("set Earth Position 1 2147483648", "Range", "2147483648", "i32 takes -2147483648 to 2147483647."),
    "pair of a component": case("set Earth (Weight,Tag) 300", "Range", "300", "u8 takes 0 to 255."),
    "pair with a component": case("set Earth (Tag, Weight ) -1", "Range", "-1", "u8 takes 0 to 255."),
    "component by its handle": whole("set Earth #65.0 256", "Range", None, OUTSIDE),
    "component made again": case("set Earth Weight 70000", "Range", "70000", "u16 takes 0 to 65535.", "delete Weight\ncomponent Weight g:u16\n"),
}

# What is missing, and what separates.
CASES |= {
    "monitor without a name": case("monitor Position, Tag", "BadName", "Position,", "The query's name is missing: the form is `monitor NAME TERM, ..`."),
    "keep without a name": case("keep (ChildOf,$x) , Tag", "BadName", "(ChildOf,$x)", "The query's name is missing: the form is `keep NAME TERM, ..`."),
    "on without a name": end("on add Position", "Syntax", "The query's name or its text is missing: the form is `on EVENT NAME TERM`."),
    "keep without a text": end("keep Position", "Syntax", "The query's name or its text is missing: the form is `keep NAME TERM, ..`."),
    "query of an odd name": whole("keep 9a Tag", "BadName", "9a", NO_NAME),
    "commas of fields": case("component Speed x:i32,y:i32", "BadLine", "x:i32,y:i32", "has a comma, and spaces separate fields"),
    "comma after a field": case("component Speed x:i32, y:i32", "BadLine", "x:i32,", "has a comma"),
    "commas of values": case("set Earth Position 1,2", "BadLine", "1,2", "has a comma"),
}


def hint(line, kind, at, word, before=""):
    """A case of what Flecs writes: the first part AT is marked, if it isn't given by its place."""
    if isinstance(at, int):
        return case(line, kind, None, word, before)._replace(marks="  " + " " * at + "^" * (2 if line[at : at + 2] == "||" else 1))
    return case(line, kind, at, word, before)


# What Flecs has and scripts don't.
CASES |= {
    "singleton": hint("query Tag, Position($)", "Lex", "$", "`Game(Game)`"),
    "up before self": hint("query Position( up | self )", "Syntax", "|", "`Position(self|up)`"),
    "up along a relationship before self": hint("query Position(up IsA|self)", "Syntax", "|", "`Position(self|up)`"),
    "scope": hint("query { Tag, Sun }", "Syntax", "{", "`!{ A, B }`"),
    "optional scope": hint("query Tag, ?{ Sun }", "Syntax", "{", "`!{ A, B }`"),
    "match of names": hint('query $this ~= "Su"', "Lex", "~", "`$this == Sun`"),
    "no source": hint("query Position( )", "Syntax", ")", "`C(Sun)`"),
    "child of a variable": hint("query Tag($x), Tag($x.name)", "Lex", ".", "`ChildOf($child,$this)`"),
    "child of this": hint("query $this.cockpit", "Lex", ".", "`ChildOf($child,$this)`"),
    "and from": hint("query and | Tag", "Syntax", "|", "There is no `and |`"),
    "or from": hint("query Tag, OR | Tag", "Syntax", "|", "There is no `or |`"),
    "not from": hint("query not | Tag", "Syntax", "|", "There is no `not |`"),
    "a name that ends as or": hint("query Door | Tag", "Syntax", "|", "Alternatives stand with `||`"),
    "and": hint("query Tag and Sun", "Syntax", "and", "with `,` between"),
    "or": hint("query Tag or Sun", "Syntax", "or", "`||` between"),
    "a name that begins as or": whole("query Tag orbit", "Syntax", "orbit", "No query goes on like this here: terms stand with `,` or `||` between, as `Position, (ChildOf,$p), !Planet`."),
    "not": hint("query not Tag", "Syntax", "Tag", "`!Planet`"),
    "ampersands": hint("query Tag && Sun", "Lex", 10, "with `,` between"),
    "alternative of a negation": hint("query !Tag || Sun", "Syntax", "||", "without `!` and `?`"),
    "alternative with a negation": hint("query Tag || !Sun", "Syntax", "!", "without `!` and `?`"),
    "alternative of an equality": hint("query $this == Sun || Tag", "Syntax", "||", "no equalities"),
    "one bar": hint("query Tag | Sun", "Syntax", "|", "`||` between"),
    "number in a query": hint("query (ChildOf,500)", "Lex", "5", "give the entity a name"),
    "handle in a query": hint("query (ChildOf,#64.0)", "Lex", "#", "no handles"),
    "nobody as a target": hint("query (ChildOf, 0 )", "Lex", "0", "`!(ChildOf,*)`"),
    "text in a query": hint('query Position("Sun")', "Lex", 15, "without quotes"),
    "path in a query": hint("query Sun::Earth", "Lex", 9, "no paths"),
    "comment in a query": hint("query Tag // all", "Lex", 10, "A comment is a line of its own"),
    "one equals sign": hint("query $this = Sun", "Lex", "=", "`==` and `!=`"),
    "name on the left": hint("query Sun == $this", "Syntax", "==", "a variable on its left"),
    "descending": hint("query Position(cascade desc)", "Syntax", "desc", "Leave `desc` out"),
    "other access": hint("query [filter] Tag", "Syntax", "filter", "`[none]`"),
    "number": hint("show 500", "UnknownName", "500", "`#64.0`"),
    "nobody as a parent": hint("add Earth (ChildOf,0)", "UnknownName", "0", "takes an entity from its parent"),
    "path": hint("add Sun.Earth Tag", "UnknownName", "Sun.Earth", "A dot is a letter of a name"),
    "path with colons": hint("add Sun::Earth Tag", "UnknownName", "Sun::Earth", "no paths"),
    "field": hint("query Position.left", "UnknownName", "Position.left", "A dot is a letter of a name"),
}
