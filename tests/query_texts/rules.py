"""The rules of query text once more, apart from the program: what is wrong with a text, if anything is.

The tokens, the grammar and the faults are written as the reference of queries words them: the grammar is a table of rules, a syntax
fault is the first token at which a recognizer that follows all rules at once has none left, and the check walks a tree.
"""

import re

NUMBERS = ("Lex", "Syntax", "UnknownName", "NotTraversable", "UnboundVariable", "WildcardSource", "WildcardEquality",
           "TooManyTerms", "TooManyVariables", "TooDeep", "CascadePlace")
MOST_TERMS = 64
MOST_VARIABLES = 32
RESERVED = ("self", "up", "cascade", "desc")
TOKEN = re.compile(rb"[A-Za-z][A-Za-z0-9_.]*|\$[A-Za-z][A-Za-z0-9_]*|\|\||!=|==|[,|!?(){}\[\]*_]")
BLANK = re.compile(rb"[ \t\r\n]*")

GRAMMAR = {
    "query": [["items", "end"]],
    "items": [["item"], ["item", ",", "items"]],
    "item": [["chain"], ["op", "aterm"], ["access", "op", "body"], ["!", "{", "items", "}"], ["equality"]],
    "chain": [["aterm"], ["aterm", "||", "chain"]],
    "aterm": [["body"], ["access", "body"]],
    "op": [["!"], ["?"]],
    "access": [["[", "in", "]"], ["[", "out", "]"], ["[", "inout", "]"], ["[", "none", "]"]],
    "body": [["ref"], ["(", "ref", ",", "ref", ")"], ["ref", "(", "args", ")"]],
    "args": [["source"], ["source", ",", "ref"]],
    "source": [["ref"], ["flags"], ["ref", "|", "flags"]],
    "flags": [["self"], ["rise"], ["self", "|", "rise"]],
    "rise": [["up"], ["up", "word"], ["up", "(", "word", ")"], ["cascade"], ["cascade", "word"], ["cascade", "(", "word", ")"]],
    "ref": [["word"], ["variable"], ["*"], ["_"]],
    "equality": [["variable", "==", "ref"], ["variable", "!=", "ref"]],
}


class Fault(Exception):
    def __init__(self, kind, start, end):
        self.kind, self.start, self.end = kind, start, end

    def order(self):
        return self.start, NUMBERS.index(self.kind)

    def __str__(self):
        return f"{self.kind} {self.start}..{self.end}"


def tokens_of(text):
    """The tokens as (spelling, start, end), the last being the end of the text."""
    at, tokens = 0, []
    while True:
        at = BLANK.match(text, at).end()
        if at == len(text):
            return tokens + [("", at, at)]
        found = TOKEN.match(text, at)
        if not found:
            character = text[at:].decode("utf-8")[0]
            raise Fault("Lex", at, at + len(character.encode("utf-8")))
        tokens.append((found.group().decode(), at, found.end()))
        at = found.end()


def fits(symbol, token):
    spelling = token[0]
    if symbol == "end":
        return spelling == ""
    if symbol == "word":
        return spelling[:1].isalpha() and spelling not in RESERVED
    if symbol == "variable":
        return spelling[:1] == "$"
    return spelling == symbol


def refused_at(tokens):
    """The place of the first token that no query allows, or None."""
    states = {("query", tuple(rule), 0, 0) for rule in GRAMMAR["query"]}
    columns = [states]
    for place, token in enumerate(tokens):
        todo, states = list(columns[place]), columns[place]
        while todo:
            head, rule, done, origin = todo.pop()
            if done == len(rule):
                grown = [(h, r, d + 1, o) for h, r, d, o in columns[origin] if d < len(r) and r[d] == head]
            elif rule[done] in GRAMMAR:
                grown = [(rule[done], tuple(r), 0, place) for r in GRAMMAR[rule[done]]]
            else:
                continue
            for state in grown:
                if state not in states:
                    states.add(state)
                    todo.append(state)
        columns.append({(h, r, d + 1, o) for h, r, d, o in states if d < len(r) and fits(r[d], token)})
        if not columns[-1]:
            return place
    return None


def trees(symbol, tokens, at):
    """Each tree of a symbol from a place on, with the place after it."""
    if symbol not in GRAMMAR:
        if at < len(tokens) and fits(symbol, tokens[at]):
            yield tokens[at], at + 1
        return
    for rule in GRAMMAR[symbol]:
        partial = [((), at)]
        for part in rule:
            partial = [(done + (tree,), after) for done, place in partial for tree, after in trees(part, tokens, place)]
        for parts, after in partial:
            yield (symbol, parts), after


def leaves(tree):
    if len(tree) == 3:
        return [tree]
    return [leaf for part in tree[1] for leaf in leaves(part)]


def within(tree, symbol):
    """The outermost trees of a symbol in a tree, from left to right."""
    if len(tree) == 3:
        return []
    if tree[0] == symbol:
        return [tree]
    return [found for part in tree[1] for found in within(part, symbol)]


class Level:
    def __init__(self, outer):
        self.outer = outer
        self.names = set()

    def way(self):
        """This level and those around it, from the outermost."""
        return (self.outer.way() if self.outer else []) + [self]


class Check:
    """What is found on a walk through the items of a query."""

    def __init__(self, world):
        self.world = world  # the entities by name, and whether each can be traversed
        self.faults = []
        self.occurrences = []  # (name, level, start, end)
        self.bound = []  # (name, level) of what binds
        self.terms = []  # spans
        self.cascades = 0
        self.whole = Level(None)

    def reference(self, leaf, level):
        spelling, start, end = leaf
        if spelling[:1] == "$":
            self.occurrences.append((spelling, level, start, end))
            level.names.add(spelling)
        elif spelling[:1].isalpha() and spelling not in self.world:
            self.faults.append(Fault("UnknownName", start, end))

    def wildcard(self, kind, leaf):
        if leaf[0] in ("*", "_"):
            self.faults.append(Fault(kind, leaf[1], leaf[2]))

    def body(self, tree, level):
        """Walks through a term, and answers the variables that it names."""
        parts = leaves(tree)
        self.terms.append((parts[0][1], parts[-1][2]))
        named = [leaves(ref)[0] for ref in within(tree, "ref")]
        for rise in within(tree, "rise"):
            named += [leaf for leaf in leaves(rise) if fits("word", leaf)]
            for leaf in leaves(rise):
                if fits("word", leaf) and leaf[0] in self.world and not self.world[leaf[0]]:
                    self.faults.append(Fault("NotTraversable", leaf[1], leaf[2]))
        for leaf in sorted(named, key=lambda leaf: leaf[1]):
            self.reference(leaf, level)
        for source in within(tree, "source"):
            for ref in within(source, "ref"):
                self.wildcard("WildcardSource", leaves(ref)[0])
        self.cascade(tree, level)
        return {leaf[0] for leaf in named if leaf[0][:1] == "$"}

    def cascade(self, tree, level):
        """A term has `cascade` of `$this` alone, outside groups and Not terms, and no other term has one."""
        for source in within(tree, "source"):
            others = [ref for ref in within(source, "ref") if leaves(ref)[0][0] != "$this"]
            for leaf in leaves(source):
                if leaf[0] == "cascade":
                    self.cascades += 1
                    if level is not self.whole or others or self.cascades > 1:
                        self.faults.append(Fault("CascadePlace", leaf[1], leaf[2]))

    def bind(self, names, level):
        self.bound += [(name, level) for name in names]

    def item(self, tree, level, groups):
        parts = tree[1]
        if parts[0][0] == "!" and len(parts[0]) == 3:
            brace = parts[1]
            if groups >= 4:
                self.faults.append(Fault("TooDeep", brace[1], brace[2]))
            inner = Level(level)
            self.items(parts[2], inner, groups + 1)
        elif parts[0][0] == "chain":
            alternatives = [self.body(body, level) for body in within(parts[0], "body")]
            self.bind(set.intersection(*alternatives), level)
        elif parts[0][0] == "equality":
            left, sign, right = leaves(parts[0])
            self.terms.append((left[1], right[2]))
            self.reference(left, level)
            self.reference(right, level)
            self.wildcard("WildcardEquality", right)
            if sign[0] == "==" and fits("word", right):
                self.bind({left[0]}, level)
        else:
            negated = leaves(within(tree, "op")[0])[0][0] == "!"
            own = Level(level) if negated else level
            names = self.body(within(tree, "body")[0], own)
            if negated:
                self.bind(names, own)

    def items(self, tree, level, groups):
        while True:
            self.item(tree[1][0], level, groups)
            if len(tree[1]) == 1:
                return
            tree = tree[1][2]

    def owner(self, name, level):
        if name == "$this":
            return self.whole
        return next(outer for outer in level.way() if name in outer.names)

    def judge(self):
        names = []
        for name, level, start, end in self.occurrences:
            if name != "$this":
                if name not in names:
                    names.append(name)
                    if len(names) == MOST_VARIABLES + 1:
                        self.faults.append(Fault("TooManyVariables", start, end))
                if (name, self.owner(name, level)) not in self.bound:
                    self.faults.append(Fault("UnboundVariable", start, end))
        if len(self.terms) > MOST_TERMS:
            self.faults.append(Fault("TooManyTerms", *self.terms[MOST_TERMS]))
        return min(self.faults, key=Fault.order, default=None)


def fault_of(text, world):
    """The first fault of a text, or None."""
    try:
        tokens = tokens_of(text)
    except Fault as fault:
        return fault
    refused = refused_at(tokens)
    if refused is not None:
        return Fault("Syntax", tokens[refused][1], tokens[refused][2])
    check = Check(world)
    tree = next(tree for tree, after in trees("query", tokens, 0) if after == len(tokens))
    check.items(tree[1][0], check.whole, 0)
    return check.judge()
