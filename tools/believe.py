#!/usr/bin/env python3
"""believe.py [--check]: makes what is made of docs/BELIEVE.md, and docs/definitions.txt: what one has to read to know what the contract of
`world_script::run` says.

It begins with the clauses of `run` and the members of the traits that bound its types, and goes down: each definition of specs/ that one of these or
a definition names, and each type of the code. Names are found by the `use` lines of each file, so nothing is listed that isn't named, and a name that
isn't found is an error. docs/definitions.txt has all of them in the order in which a reader comes to them. In docs/BELIEVE.md the blocks between
`<!-- KIND: NAMES -->` and `<!--end-->` are made anew, and the text around them is left as it is:

- `contract: NAME ..`: these clauses of `run`
- `quoted: NAME ..`: definitions with their links, without comments and types; `FILE:NAME` where a name is that of several
- `counts`: how much is reached, and how much of it is in each part
- `laws`: the laws in place of functions

With --check it writes nothing, and says what isn't as it would be written, and which link of docs/BELIEVE.md or docs/LANGUAGE.md, such as
[`effect_of`](../crates/ecs_model/specs/Output.antt), is to a file that has no such definition: status 1 if there is any.
"""
import collections
import glob
import os
import re
import sys

TOP = os.path.realpath(os.path.join(os.path.dirname(os.path.realpath(__file__)), ".."))
PAGE, INDEX = "docs/BELIEVE.md", "docs/definitions.txt"
LINKING = (PAGE, "docs/LANGUAGE.md")
ROOT_FILE, ROOT_FUNCTION = "crates/world_script/src/runs.rt", "run"

# The parts of the index, and the files that each has, as CRATE/FILE. A file is in the first part that has it.
PARTS = [
    ("The contract", r"(world_script|script_streams)/.*"),
    ("Output", r"ecs_model/(Output|Print)"),
    ("Lines", r"ecs_model/(Script|Text)"),
    ("Notifications", r"ecs_model/stored/.*|watch_concerns/Since"),
    ("Rows", r"ecs_model/(rows/.*|Query|Depth|Links|AncestorLine|Reach|Cycles)"),
    ("Queries", r"query_model/.*|query_.*"),
    ("Commands", r".*"),
]
ORDER = ["The contract", "Output", "Lines", "Commands", "Queries", "Rows", "Notifications"]

# Laws by which a relation can be read in place of a function, and that function
LAWS = {
    "TokensAreSpelled": "tokens_of",
    "PartsAreGrammatical": "parts_of",
    "AddedIsLeast": "added",
    "FactsAfterAdd": "facts_after_add",
    "ValuesAfterAdd": "facts_after_add",
    "CopiesHaveValues": "facts_after_add",
    "DeletedIsLeast": "deleted",
    "CycleIsTold": "has_cycle",
    "ReachIsComputed": "reaches",
    "LinesUnfold": "ancestor_line",
    "DepthsAreOfLongestChains": "depth",
}
# what such laws presume, which is no relation to be read
PREMISES = ("OfLive", "EndsInEnd", "AreLinks", "IsAcyclic", "IsWellFormed", "IsLive")

HEAD = re.compile(r"^(\s*)((?:abbrev |unfoldable |pub |mutual )*)(?:(record|data) (\S+)|(\S+) : |(\S+) :$)")
USED = re.compile(r"^(?:ghost )?(?:pub )?use ([\w.\-]+?)(?:\.\{(.*)\})?(?: as (\S+?))?;?$")
TOKEN = re.compile(r"[^\s(){},;\[\]]+")
MEMBER = re.compile(r"\s*(?:ghost (\w+): |fn (\w+)\()")
LIBRARY = ("Rattle.std", "Rattle.core", "denote", "lib")
BLOCK = re.compile(r"^<!-- (\w+)(?:: ([^\n]*))? -->\n(.*?)^<!--end-->$", re.M | re.S)
LINK = re.compile(r"\[`(\w+)`\]\((\.\./crates/\w+/specs/[\w/]+\.antt)\)")
MODIFIERS = re.compile(r"^(\s*)(?:(?:abbrev|unfoldable|pub) )+")
LAW = re.compile(r"pub fn (\w+)\([^)]*\)\s+ensures \{ (\w+) \}\s*\{\s*\}")

Place = collections.namedtuple("Place", "module name")


class Definition:
    """A definition of specs/, or a type or a member of a trait of the code. Around it may stand modules whose arguments it takes."""

    def __init__(self, module, name, file, line, comment, text, constructors=(), around=()):
        self.place, self.file, self.line, self.comment = Place(module, name), file, line, comment
        self.text, self.constructors, self.around = text, constructors, around
        self.lines = len([it for it in text if it.strip()])


class Module:
    """A file: what it defines, and what its names stand for."""

    def __init__(self, name):
        self.name, self.definitions, self.names, self.aliases = name, {}, {}, {}


def lines_of(path):
    with open(os.path.join(TOP, path), encoding="utf-8") as file:
        return file.read().split("\n")


def read_uses(module, lines):
    for line in lines:
        found = USED.match(line.strip())
        if not found or not found[1].startswith(("Rattle.", "denote.", "lib.")):
            continue
        if found[2] is None:
            module.aliases[found[3] or found[1].rsplit(".", 1)[-1]] = found[1]
            continue
        for word in found[2].split(","):
            name, _, other = word.strip().partition(" as ")
            module.names[other or name] = Place(found[1], name)


def block_end(lines, start, indent):
    """The line behind a definition: the next one that begins another, or a comment, no deeper than it."""
    for at in range(start + 1, len(lines)):
        line = lines[at]
        if not line.strip():
            continue
        deep = len(line) - len(line.lstrip())
        if deep < indent or (deep == indent and (line.lstrip().startswith(("--", "module ")) or HEAD.match(line))):
            return at
    return len(lines)


def constructors_of(text):
    """The constructors of a data type."""
    names = []
    for line in text[1:]:
        found = re.match(r"^\s+([^():]+?) :", line)
        if found:
            names += found[1].replace("pub ", "").split()
    return tuple(names)


def comment_above(lines, at, mark="--"):
    """What the comment right above says. Attributes may stand between."""
    said = []
    while at and lines[at - 1].strip().startswith((mark, "#[")):
        at -= 1
        if lines[at].strip().startswith(mark):
            said.insert(0, lines[at].strip()[len(mark) :].strip())
    return " ".join(filter(None, said))


def read_specs(path):
    """A file of specs/ as a module."""
    crate, rest = re.fullmatch(r"crates/(\w+)/specs/(.*)\.antt", path).groups()
    module, lines = Module(f"Rattle.{crate}.specs.{rest.replace('/', '.')}"), lines_of(path)
    read_uses(module, lines)
    at, around = 0, []
    while at < len(lines):
        line, indent = lines[at].strip(), len(lines[at]) - len(lines[at].lstrip())
        if line.startswith("module "):
            around = [it for it in around if it[0] < indent] + [(indent, line)]
        found = HEAD.match(lines[at])
        if not found or line.startswith(("--", "use ", "module ", "pub mod ")):
            at += 1
            continue
        name, end = found[4] or found[5] or found[6], block_end(lines, at, indent)
        text = lines[at:end]
        built = constructors_of(text) if found[3] == "data" else ()
        heads = [head for deep, head in around if deep < indent]
        module.definitions[name] = Definition(module.name, name, path, at + 1, comment_above(lines, at), text, built, heads)
        at = end
    return module


def sources_of(crate):
    return sorted(os.path.relpath(it, TOP) for it in glob.glob(os.path.join(TOP, "crates", crate, "src", "**", "*.rt"), recursive=True))


def read_declared(place):
    """A type of the code: `Rattle.CRATE.specs.declared.MODULE.TYPE` by its name."""
    crate, name = place.module.split(".")[1], place.module.removesuffix(".TheVariants").rsplit(".", 1)[-1]
    return read_type(crate, name)


def read_type(crate, name):
    for path in sources_of(crate):
        lines = lines_of(path)
        for at, line in enumerate(lines):
            if re.match(rf"\s*pub (?:struct|enum|union) {re.escape(name)}\b", line):
                end = next((it for it in range(at, len(lines)) if lines[it].startswith("}") or lines[it].endswith(";")), at) + 1
                return Definition(f"Rattle.{crate}.src", name, path, at + 1, comment_above(lines, at, "///"), lines[at:end])
    return None


def used_types(path):
    """The names that a file of code uses, each with the crate that it comes from."""
    own, text = path.split("/")[1], "\n".join(lines_of(path))
    for found in re.finditer(r"^use (\w+)::([^;]*);", text, re.M):
        for name in re.findall(r"\b[A-Z]\w*", found[2]):
            yield name, own if found[1] == "crate" else found[1]
    for name in re.findall(r"^\s*pub (?:struct|enum|union) (\w+)", text, re.M):
        yield name, own


def read_trait(crate, name):
    """A trait of the code: what its names stand for, and its members."""
    for path in sources_of(crate):
        lines = lines_of(path)
        start = next((at for at, line in enumerate(lines) if re.match(rf"pub trait {name}\b", line)), None)
        if start is None:
            continue
        module, at, members = Module(f"Rattle.{crate}.src.{name}"), start, []
        end = lines.index("}", start)
        read_uses(module, lines[start:end])
        while at < end:
            found = MEMBER.match(lines[at])
            if found:
                last = next(it for it in range(at, end) if lines[it].endswith(";"))
                said = comment_above(lines, at, "///") or comment_above(lines, at, "//")
                members.append(Definition(module.name, f"{name}.{found[1] or found[2]}", path, at + 1, said, lines[at : last + 1]))
                at = last
            at += 1
        return module, members
    return None


class Reader:
    """Goes down from the contract, and lists what it comes to."""

    def __init__(self, other=None):
        self.reached, self.types, self.words = {}, {}, {}
        if other:
            self.modules, self.lines, self.types = other.modules, other.lines, other.types
            return
        files = sorted(glob.glob(os.path.join(TOP, "crates", "*", "specs", "**", "*.antt"), recursive=True))
        modules = [read_specs(os.path.relpath(it, TOP)) for it in files]
        self.modules = {it.name: it for it in modules}
        self.lines = sum(len([line for line in lines_of(os.path.relpath(it, TOP)) if line.strip()]) for it in files)

    def target(self, place):
        """The definition that a place names: one of specs/, itself or by a constructor, or a type of the code."""
        module = self.modules.get(place.module)
        if module:
            if place.name in module.definitions:
                return module.definitions[place.name]
            built = next((it for it in module.definitions.values() if place.name in it.constructors), None)
            return built or (self.target(module.names[place.name]) if place.name in module.names else None)
        if ".specs.declared." in place.module and os.path.isdir(os.path.join(TOP, "crates", place.module.split(".")[1])):
            return self.types.setdefault(place.module.removesuffix(".TheVariants"), read_declared(place))
        return None

    def named(self, module, token):
        """What a token names in a module: a place, or None."""
        first, *rest = token.split(".")
        if first in module.definitions:
            return Place(module.name, first)
        if any(first in it.constructors for it in module.definitions.values()):
            return Place(module.name, first)
        if first in module.aliases and rest:
            return Place(module.aliases[first], rest[0])
        return module.names.get(first)

    def cites(self, module, text):
        """The places that a text names, in their order. A variable with the name of a definition counts as one."""
        tokens = TOKEN.findall("\n".join(line for line in text if not line.lstrip().startswith(("--", "//"))))
        places = [place for place in (self.named(module, it) for it in tokens) if place]
        signs = {name.replace("◌", " ").split()[0]: place for name, place in module.names.items() if "◌" in name}
        places += [place for sign, place in signs.items() if sign in tokens]
        return list(dict.fromkeys(places))

    def reach(self, found):
        """A definition, and all below it."""
        if found.place in self.reached:
            return
        self.reached[found.place] = found
        if found.place.module in self.modules:
            self.go_down(self.modules[found.place.module], [*found.text, *found.around])
        elif found.file.endswith(".rt"):
            tokens = set(re.findall(r"\w+", "\n".join(line for line in found.text if not line.lstrip().startswith("//"))))
            types = (read_type(crate, name) for name, crate in used_types(found.file) if name in tokens)
            for it in types:
                if it is not None:
                    self.reach(it)

    def go_down(self, module, text):
        for place in self.cites(module, text):
            found = self.target(place)
            if found is not None:
                self.reach(found)
            elif place.module.startswith(LIBRARY):
                self.words.setdefault(place, len(self.words))
            else:
                sys.exit(f"{place.module} has no {place.name}")

    def read_contract(self):
        """All that the contract says, with the traits that bound the types of `run`."""
        module, text, _ = contract()
        self.go_down(module, text)
        crates = dict(used_types(ROOT_FILE))
        bounds = re.findall(r"\w+: ([\w +]+)", "\n".join(text).split("(", 1)[0])
        for name in " ".join(bounds).replace("+", " ").split():
            if not os.path.isdir(os.path.join(TOP, "crates", crates.get(name, "-"))):
                continue
            trait, members = read_trait(crates[name], name)
            for it in members:
                self.reached[it.place] = it
                self.go_down(trait, it.text)


def contract():
    """The clauses of `run`, as a module that uses what its file uses, and as text."""
    lines = lines_of(ROOT_FILE)
    module = Module("root")
    read_uses(module, lines)
    start = next(at for at, line in enumerate(lines) if line.startswith(f"pub fn {ROOT_FUNCTION}<"))
    end = next(at for at in range(start, len(lines)) if lines[at] == "{")
    return module, lines[start:end], start + 1


def part_of(definition):
    crate = definition.file.split("/")[1]
    rest = re.sub(r"^crates/\w+/(specs|src)/|\.(antt|rt)$", "", definition.file)
    return next(name for name, pattern in PARTS if re.fullmatch(pattern, f"{crate}/{rest}"))


def said_of(definition):
    """What is said above a definition, or its first line where nothing is."""
    return definition.comment or MODIFIERS.sub(r"\1", definition.text[0]).strip()


def link(definition):
    return f"[`{definition.place.name}`](../{definition.file}#L{definition.line})"


def laws_of(reader):
    """Each law of LAWS that stands, with the function that it is about and the relations that say the same."""
    for path in sorted(glob.glob(os.path.join(TOP, "crates", "*", "src", "**", "*.rt"), recursive=True)):
        path = os.path.relpath(path, TOP)
        lines = lines_of(path)
        module = Module("laws")
        read_uses(module, lines)
        for _, name in LAW.findall("\n".join(lines)):
            law = reader.target(module.names[name]) if name in LAWS and name in module.names else None
            if law is None:
                continue
            cited = [reader.target(it) for it in reader.cites(reader.modules[law.place.module], law.text)]
            cited = {it.place.name: it for it in cited if it is not None}
            function = cited.get(LAWS[name])
            others = [it for key, it in cited.items() if key[0].isupper() and key not in (name, *PREMISES)]
            relations = [it for it in others if it.place not in reader.reached and it.file.endswith(".antt")]
            if function and function.place in reader.reached:
                yield law, function, relations, spared(reader, function)


def spared(reader, function):
    """The definitions that are reached by a function alone, with itself."""
    other = Reader(reader)
    other.reached[function.place] = function
    other.read_contract()
    return [it for place, it in reader.reached.items() if place not in other.reached or it is function]


def counts_of(reader):
    """How many definitions each part has, and how many lines these have."""
    parts = {part: [it for it in reader.reached.values() if part_of(it) == part] for part in ORDER}
    return "By part, with their lines: " + ", ".join(f"{part} {len(own)} ({sum(it.lines for it in own)})" for part, own in parts.items())


def index_of(reader):
    """A line for each definition: its part, its name, where it stands, and what it is. And one for each word of the library."""
    found = sorted(reader.reached.values(), key=lambda it: ORDER.index(part_of(it)))
    entries = [(part_of(it), it.place.name, f"{it.file}:{it.line}", said_of(it)) for it in found]
    entries += sorted(("Words", it.name, it.module, "a word of the toolchain's library") for it in reader.words)
    wide = [max(len(it[at]) for it in entries) for at in range(3)]
    text = ["# What the contract of world_script::run names, and what that names in turn, from the top down. Made by tools/believe.py."]
    text += [f"# {counts_of(reader)}.", "# A line has a part, a name, a place, and what it is; BELIEVE.md goes through the main ones."]
    text += ["  ".join([*(word.ljust(size) for word, size in zip(it, wide)), it[3]]) for it in entries]
    return "\n".join([*text, ""])


def fenced(links, lines):
    return ["", links, "", "```text", *lines, "```", ""]


def bare(definition):
    """The text of a definition without comments, the line of a function's type, and the words on who may use it and how it unfolds."""
    lines = [line.rstrip() for line in definition.text if line.strip() and not line.lstrip().startswith("--")]
    indent = len(lines[0]) - len(lines[0].lstrip())
    has_type = len(lines) > 1 and re.match(rf"\s*{re.escape(definition.place.name)}\b", lines[1])
    return [MODIFIERS.sub(r"\1", line[indent:]) for line in lines[1 if has_type else 0 :]]


def quoted(reader, names):
    """Definitions as they stand, with links to them."""
    found = []
    for name in names.split():
        file, _, own = name.rpartition(":")
        end = f"{file}.antt" if file else ""
        fitting = [it for it in reader.reached.values() if it.place.name == own and it.file.endswith(end)]
        if len(fitting) != 1:
            sys.exit(f"{PAGE}: {name} names {len(fitting)} definitions that are reached")
        found += fitting
    lines = [line for it in found for line in ["", *bare(it)]][1:]
    return fenced(",\n".join(map(link, found)) + ":", lines)


def quoted_contract(_, names):
    _, text, start = contract()
    clauses, wanted = [], names.split()
    for line in text:
        found = re.match(r"\s*ensures (\w+)", line)
        if found:
            clauses.append((found[1], []))
        if clauses and line.strip():
            clauses[-1][1].append(line[4:])
    if missing := set(wanted).difference(name for name, _ in clauses):
        sys.exit(f"{PAGE}: {ROOT_FUNCTION} has no clause {missing}")
    return fenced(f"[`{ROOT_FUNCTION}`](../{ROOT_FILE}#L{start}):", [line for name, own in clauses if name in wanted for line in own])


def said_counts(reader, _):
    found = list(reader.reached.values())
    specs = [it for it in found if it.file.endswith(".antt")]
    members = [it for it in found if "." in it.place.name]
    types = len(found) - len(specs) - len(members)
    return [
        f"{len(specs)} definitions, {sum(it.lines for it in specs)} lines of the {reader.lines} in `specs/`;",
        f"of the code {types} types and {len(members)} members of traits; {len(reader.words)} words of the toolchain's library.",
        f"{counts_of(reader)}.",
    ]


def said_laws(reader, _):
    laws = collections.defaultdict(list)
    for law, function, relations, left_out in laws_of(reader):
        laws[function.place].append((sum(it.lines for it in left_out), function, law, relations))
    text = []
    for found in sorted(laws.values(), key=lambda it: -it[0][0]):
        relations = list(dict.fromkeys(link(it) for _, _, _, own in found for it in own))
        said = [f"- {link(found[0][1])} ({found[0][0]}):", *(f"  {it}," for it in relations)]
        said += [f"  {'by ' if relations and at == 0 else ''}{link(law)}," for at, (_, _, law, _) in enumerate(found)]
        text += [*said[:-1], said[-1].removesuffix(",")]
    return ["", *text, ""]


MAKERS = {"quoted": quoted, "contract": quoted_contract, "counts": said_counts, "laws": said_laws}


def page_of(reader, page):
    """The page with its blocks made anew."""

    def made(found):
        kind, names = found[1], found[2] or ""
        if kind not in MAKERS:
            sys.exit(f"{PAGE}: no block is made by the name of {kind}")
        return "\n".join([f"<!-- {kind}{': ' + names if names else ''} -->", *MAKERS[kind](reader, names), "<!--end-->"])

    return BLOCK.sub(made, page)


def read(path):
    with open(os.path.join(TOP, path), encoding="utf-8") as file:
        return file.read()


def strange_links(reader, page):
    """The links of a page to files of specs/ that have no definition of the name that is linked."""
    modules = {}
    for module in reader.modules.values():
        for it in module.definitions.values():
            modules.setdefault(it.file, set()).update((it.place.name, *it.constructors))
    for found in LINK.finditer(read(page)):
        if found[1] not in modules.get(found[2].removeprefix("../"), ()):
            yield f"{page}: {found[2]} has no {found[1]}"


def main(words):
    if words not in ([], ["--check"]):
        sys.exit(__doc__)
    sys.setrecursionlimit(10_000)
    reader = Reader()
    reader.read_contract()
    made = {PAGE: page_of(reader, read(PAGE)), INDEX: index_of(reader)}
    if not words:
        for path, text in made.items():
            with open(os.path.join(TOP, path), "w", encoding="utf-8") as file:
                file.write(text)
        print(f"{len(reader.reached)} definitions")
        return 0
    stale = [path for path, text in made.items() if not os.path.isfile(os.path.join(TOP, path)) or read(path) != text]
    wrong = [f"{path} isn't what tools/believe.py writes: run that" for path in stale]
    wrong += [it for page in LINKING for it in strange_links(reader, page)]
    print("".join(f"{it}\n" for it in wrong), end="")
    return 1 if wrong else 0


if __name__ == "__main__":
    sys.exit(main(sys.argv[1:]))
