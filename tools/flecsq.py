"""flecsq.py: flecsq in a Python program, by its library for C.

    >>> from flecsq import Refused, Session, run
    >>> with Session() as world:
    ...     for line in ("component Position x:i32 y:i32", "entity Sun", "entity Earth", "add Earth (ChildOf,Sun)", "set Earth Position 10 -3"):
    ...         assert world.line(line) == ""
    ...     print(world.line("query Position, (ChildOf,$parent)"))
    ...     try:
    ...         world.line("query Position, Plannet")
    ...     except Refused as refused:
    ...         print(refused.number, refused.reason)
    row $this=Earth $parent=Sun [Position@Earth=10,-3] [(ChildOf,Sun)@Earth]
    rows 1
    7 UnknownName 10..17
    >>> run("entity Sun\\nshow Sun\\nfly\\n")
    b'show Sun\\nerror 3 BadLine\\n'

A session is as one of flecsq_pipe, without a program at the other end of a pipe, fences, or an end at 16,777,216 bytes. What a line prints is text;
flecsq_pipe makes data of it:

    >>> from flecsq_pipe import answer_of, parse
    >>> with Session() as world:
    ...     answer_of([parse(it) for it in world.line("show ChildOf").splitlines()]).shown.facts[0]
    Fact(id='Exclusive', values=None)

Commands and queries take numbers in place of text. An entity is a number, a component one with its fields, and the rows of a query are tuples or
dictionaries:

    >>> from array import array
    >>> with Session() as world:
    ...     height = world.component("Height", feet="u16")
    ...     oak, elm = world.entity("Oak"), world.entity("Elm")
    ...     world.set(oak, height, 7)
    ...     world.set(elm, height, 9)
    ...     trees = world.query("Height")
    ...     for table in trees.tables():
    ...         grown = array("H", [feet + 1 for feet in table.column(height)])
    ...         table.set(height, grown)
    ...     print(trees.rows(height), trees.dictionaries(height), oak in trees)
    [(65, (8,)), (66, (10,))] [{'entity': 65, 'Height': {'feet': 8}}, {'entity': 66, 'Height': {'feet': 10}}] True

A column is a memoryview of what the engine lends. The next line or command ends it: who reads it then gets a ValueError. While a slice or an array still
uses it, the line or command isn't carried out and raises BufferError.

It needs Python 3.8 or later, and libflecsq.so.0.1 where the system finds it, or at a place that is given: Session("out/libflecsq.so.0.1").
"""
import ctypes
import functools
import os
import struct
import threading
import weakref

LIBRARY = "libflecsq.so.0.1"

OK, REFUSED, MEMORY, UNKNOWN, ROOM = 0, 1, 2, 4, 5

# how `array`, `struct` and memoryviews call the kinds of fields
FORMATS = {"i8": "b", "u8": "B", "i16": "h", "u16": "H", "i32": "i", "u32": "I", "i64": "q", "u64": "Q"}


class Handle(ctypes.Structure):
    _fields_ = [("at", ctypes.c_void_p), ("is_open", ctypes.c_bool)]


class Span(ctypes.Structure):
    _fields_ = [("at", ctypes.c_void_p), ("len", ctypes.c_size_t)]

    def text(self):
        return ctypes.string_at(self.at, self.len).decode("ascii")


class Ran(ctypes.Structure):
    _fields_ = [("written", ctypes.c_size_t), ("lines", ctypes.c_size_t), ("refused", ctypes.c_size_t)]


class Entity(ctypes.Structure):
    _fields_ = [("index", ctypes.c_uint32), ("generation", ctypes.c_uint16)]


class Key(ctypes.Structure):
    """A table, as the library gives it."""

    _fields_ = [
        *(("entities", ctypes.c_void_p), ("count", ctypes.c_size_t)),
        *(("serial_low", ctypes.c_uint64), ("serial_high", ctypes.c_uint64), ("slot", ctypes.c_uint32)),
    ]


class Values(ctypes.Structure):
    _fields_ = [("at", ctypes.c_void_p), ("len", ctypes.c_size_t), ("size", ctypes.c_size_t)]


SEED = (ctypes.c_uint64, ctypes.c_uint64)
BYTES = (ctypes.c_char_p, ctypes.c_size_t)
HANDLE, SPAN, KEY = ctypes.POINTER(Handle), ctypes.POINTER(Span), ctypes.POINTER(Key)
NUMBER, SIZE = ctypes.POINTER(ctypes.c_uint64), ctypes.POINTER(ctypes.c_size_t)
STATUS = ctypes.c_int32

# what each function answers, and takes
FUNCTIONS = {
    "flecsq_open": (STATUS, *SEED, HANDLE),
    "flecsq_close": (None, HANDLE),
    "flecsq_line": (STATUS, HANDLE, *BYTES),
    "flecsq_output": (STATUS, HANDLE, SPAN),
    "flecsq_copy": (ctypes.c_size_t, HANDLE, *BYTES),
    "flecsq_forget": (STATUS, HANDLE),
    "flecsq_find": (STATUS, HANDLE, *BYTES, NUMBER),
    "flecsq_new": (STATUS, HANDLE, NUMBER),
    "flecsq_add": (STATUS, HANDLE, ctypes.c_uint64, ctypes.c_uint64),
    "flecsq_set": (STATUS, HANDLE, ctypes.c_uint64, ctypes.c_uint64, ctypes.POINTER(ctypes.c_int64), ctypes.c_size_t),
    "flecsq_remove": (STATUS, HANDLE, ctypes.c_uint64, ctypes.c_uint64),
    "flecsq_delete": (STATUS, HANDLE, ctypes.c_uint64),
    "flecsq_entity_named": (STATUS, HANDLE, *BYTES, NUMBER),
    "flecsq_query": (STATUS, HANDLE, *BYTES, NUMBER),
    "flecsq_drop": (STATUS, HANDLE, ctypes.c_uint64),
    "flecsq_tables": (STATUS, HANDLE, ctypes.c_uint64, KEY, ctypes.c_size_t, SIZE),
    "flecsq_column": (STATUS, HANDLE, KEY, ctypes.c_uint64, ctypes.POINTER(Values)),
    "flecsq_set_column": (STATUS, HANDLE, KEY, ctypes.c_uint64, *BYTES),
    "flecsq_matches": (STATUS, HANDLE, ctypes.c_uint64, ctypes.c_uint64, ctypes.POINTER(ctypes.c_bool)),
    "flecsq_run": (STATUS, *SEED, *BYTES, *BYTES, ctypes.POINTER(Ran)),
    "flecsq_version": (None, SPAN),
    "flecsq_explain": (None, STATUS, SPAN),
}


@functools.lru_cache(maxsize=None)
def load(library):
    loaded = ctypes.CDLL(library)
    for name, (answers, *takes) in FUNCTIONS.items():
        function = getattr(loaded, name)
        function.restype, function.argtypes = answers, takes
    return loaded


class Refused(Exception):
    """A line or command was refused, and changed nothing. Of a line: its number, and the reason, as `UnknownName` or `Syntax 4..5`; as text it is the line
    that was printed. Of a command both are None."""

    def __init__(self, printed="refused"):
        super().__init__(printed)
        self.number = self.reason = None
        if printed.startswith("error "):
            number, self.reason = printed.split(" ", 2)[1:]
            self.number = int(number)


def check(library, status):
    if status == OK:
        return
    if status == MEMORY:
        raise MemoryError
    if status == REFUSED:
        raise Refused
    why = Span()
    library.flecsq_explain(status, why)
    raise (LookupError if status == UNKNOWN else ValueError)(why.text())


def seed():
    return (int.from_bytes(os.urandom(8), "little") for _ in SEED)


def encoded(text):
    return text.encode() if isinstance(text, str) else text


def id_of(number):
    """The id of a tag or component by its entity; a pair is one already."""
    return number if number >> 63 else number & 0xFFFFFFFF


def pair(relationship, target):
    """The id of a pair, by its entities."""
    return 1 << 63 | id_of(relationship) << 32 | id_of(target)


class Component(int):
    """The id of a component, or of a pair that has a component's fields, with these: Component(pair(eats, apple), "Eats", {"count": "u8"})."""

    def __new__(cls, number, name, fields):
        made = super().__new__(cls, number)
        made.name, made.fields = name, dict(fields)
        made.layout = struct.Struct("<" + "".join(FORMATS[it] for it in made.fields.values()))
        return made


class Session:
    """A world with its queries. It is closed by `close`, or at the end of a `with`, and stays on the thread that opened it."""

    def __init__(self, library=LIBRARY):
        self._library, self._handle, self._thread = load(library), Handle(), threading.get_ident()
        self._told, self._turn, self._lent = "", 0, {}
        check(self._library, self._library.flecsq_open(*seed(), self._handle))

    def __enter__(self):
        return self

    def __exit__(self, *_):
        self.close()

    def line(self, line):
        """Runs a line, without its line feed, and gives what it printed, without the last line feed. Raises Refused where it was refused."""
        line = encoded(line)
        self._end_loans()
        self._told += self._printed()
        status = self._call("flecsq_line", line, len(line))
        if status not in (OK, REFUSED):
            check(self._library, status)
        text = self._printed()[:-1]
        if status == REFUSED:
            raise Refused(text)
        return text

    def told(self):
        """What monitors and observers have told of commands since this was asked last, as lines of text."""
        text, self._told = self._told + self._printed(), ""
        return text

    def component(self, name, **fields):
        """Makes a component: component("Position", x="i32", y="i32")."""
        self.line(f"component {name} {' '.join(f'{field}:{kind}' for field, kind in fields.items())}")
        return Component(id_of(self.find(name)), name, fields)

    def find(self, name):
        """The live entity of a name. Raises LookupError where there is none."""
        return self._number("flecsq_find", encoded(name), len(encoded(name)))

    def entity(self, name=None):
        """Makes an entity, with a name or without."""
        self._end_loans()
        return self._number("flecsq_new") if name is None else self._number("flecsq_entity_named", encoded(name), len(encoded(name)))

    def add(self, entity, what):
        self._command("flecsq_add", entity, id_of(what))

    def set(self, entity, component, *values):
        self._command("flecsq_set", entity, id_of(component), (ctypes.c_int64 * len(values))(*values), len(values))

    def remove(self, entity, what):
        self._command("flecsq_remove", entity, id_of(what))

    def delete(self, entity):
        self._command("flecsq_delete", entity)

    def query(self, text):
        """Reads a query, which has `$this`. Raises Refused with the reason where its text has a fault."""
        try:
            return Query(self, self._number("flecsq_query", encoded(text), len(encoded(text))))
        except Refused:
            self.line(b"query " + encoded(text))
            raise

    def close(self):
        self._end_loans()
        self._call("flecsq_close")

    def _call(self, function, *given):
        self._stay()
        return getattr(self._library, function)(self._handle, *given)

    def _stay(self):
        if self._thread != threading.get_ident():
            raise ValueError("a session stays on the thread that opened it")

    def _command(self, function, *given):
        self._end_loans()
        check(self._library, self._call(function, *given))

    def _number(self, function, *given):
        number = ctypes.c_uint64()
        check(self._library, self._call(function, *given, number))
        return number.value

    def _printed(self):
        printed = Span()
        check(self._library, self._call("flecsq_output", printed))
        text = printed.text()
        self._call("flecsq_forget")
        return text

    def _lend(self, at, size):
        """A view of bytes of the engine. They are known here as long as it or another view of them lives."""
        lent, known = (ctypes.c_ubyte * size).from_address(at), self._lent
        number = id(lent)
        known[number] = weakref.ref(lent, lambda _: known.pop(number)), lambda: None
        return memoryview(lent).cast("B").toreadonly()

    def _end_loans(self):
        """Ends what is lent, before it changes."""
        self._stay()
        for _, view in [*self._lent.values()]:
            if view() is not None:
                view().release()
        if self._lent:
            raise BufferError("a column is used still that this line or command would end")
        self._turn += 1


class Query:
    """A query that was read, with `$this` for the entity of a row. Its rows come where they come by table (see flecsq_tables in the header)."""

    def __init__(self, session, number):
        self._session, self._number = session, number

    def tables(self):
        """The tables that have the rows."""
        session, count, room = self._session, ctypes.c_size_t(), 16
        while True:
            keys = (Key * room)()
            status = session._call("flecsq_tables", self._number, keys, room, count)
            if status != ROOM:
                check(session._library, status)
                return [Table(session, it) for it in keys[: count.value]]
            room = count.value

    def rows(self, *components):
        """A tuple for each row: its entity, and the values of each of these components as a tuple."""
        return [row for table in self.tables() for row in zip(table.entities, *map(table.values, components))]

    def dictionaries(self, *components):
        """A dictionary for each row: its entity, and the values of each of these components by their fields."""
        return [
            {"entity": entity, **{it.name: dict(zip(it.fields, value)) for it, value in zip(components, values)}}
            for entity, *values in self.rows(*components)
        ]

    def __contains__(self, entity):
        found = ctypes.c_bool()
        check(self._session._library, self._session._call("flecsq_matches", self._number, entity, found))
        return found.value

    def drop(self):
        """Frees the query."""
        check(self._session._library, self._session._call("flecsq_drop", self._number))


class Table:
    """A table: its entities, and the columns of all components that they hold."""

    def __init__(self, session, key):
        self._session, self._key, self._turn = session, key, session._turn

    def __len__(self):
        return self._key.count

    @property
    def entities(self):
        """The entities by row, before the next line or command."""
        if self._turn != self._session._turn:
            raise ValueError("the entities of a table are lent until the next line or command")
        lent = ctypes.string_at(self._key.entities, self._key.count * ctypes.sizeof(Entity))
        return [generation << 32 | index for index, generation in struct.iter_unpack("<IHxx", lent)]

    def column(self, component):
        """The values of a component, lent: numbers, for several fields of one kind a row of numbers for each entity, else bytes for each."""
        view, size = self._bytes(component)
        kinds = {FORMATS[it] for it in component.fields.values()}
        rows = len(view) // size
        if len(kinds) > 1:
            shaped = view.cast("B", [rows, size]) if rows else view
        else:
            shaped = view.cast(*kinds, [rows, len(component.fields)]) if rows and len(component.fields) > 1 else view.cast(*kinds)
        lent = self._session._lent
        lent[id(view.obj)] = lent[id(view.obj)][0], weakref.ref(shaped)
        return shaped

    def values(self, component):
        """A copy of the values of a component: a tuple for each entity."""
        return [*component.layout.iter_unpack(self._bytes(component)[0])]

    def set(self, component, values):
        """Sets the values of a component for all entities: bytes or an array, such as a column has."""
        given = memoryview(values).tobytes()
        self._session._command("flecsq_set_column", self._key, component, given, len(given))

    def _bytes(self, component):
        found = Values()
        check(self._session._library, self._session._call("flecsq_column", self._key, component, found))
        return self._session._lend(found.at, found.len), found.size


def run(script, library=LIBRARY):
    """Runs a whole script in a session of its own, and gives its output, in which refused lines print why."""
    script = encoded(script)
    library, ran, room = load(library), Ran(), 65_536
    while True:
        output = ctypes.create_string_buffer(room)
        status = library.flecsq_run(*seed(), script, len(script), output, room, ran)
        if status != ROOM:
            check(library, status)
            return ctypes.string_at(output, ran.written)
        room *= 4
