"""flecsq_pipe.py: a client of flecsq over a pipe. It sends a line, and gives the answer to it as data.

    >>> from flecsq_pipe import Pair, Session, TooLong
    >>> world = Session("flecsq")
    >>> for line in ("component Position x:i32 y:i32", "entity Sun", "entity Earth", "add Earth (ChildOf,Sun)", "set Earth Position 10 -3"):
    ...     assert world.send(line).refusal is None
    >>> answer = world.send("query Position, (ChildOf,$parent)")
    >>> answer.count, answer.rows[0].variables
    (1, {'$this': 'Earth', '$parent': 'Sun'})
    >>> answer.rows[0].fields[0]
    Field(id='Position', source='Earth', values=(10, -3))
    >>> answer.rows[0].fields[1].id == Pair("ChildOf", "Sun")
    True
    >>> world.send("add Earth Plannet").refusal
    Refusal(line=7, kind='UnknownName', span=None)
    >>> world.send("query Position, Plannet").refusal
    Refusal(line=8, kind='UnknownName', span=(10, 17))
    >>> world.send("new").handle
    '#67.0'
    >>> world.send("on set moved Position").events
    ()
    >>> world.send("set #67.0 Position 7 7").events
    (Event(kind='set', watch='moved', entity='#67.0', id='Position', values=(7, 7)),)
    >>> world.send("show Earth").shown.facts
    (Fact(id='Position', values=(10, -3)), Fact(id=Pair(relationship='ChildOf', target='Sun'), values=None))
    >>> print(world.send("show Earth"))
    show Earth [Position=10,-3] [(ChildOf,Sun)]
    >>> world.close()
    1

An entity is text: its name or its handle. An id is such text, or a Pair of two. str() makes of both what a line takes: f"add {entity} {id}".

A fence tells where an answer ends: the line `show Panic`, which is sent after each line. Panic is built in, so it is always there, keeps its name and
holds nothing. So the fence always prints `show Panic`, and it changes nothing. No answer can be taken for it: only a line whose first word is `show`
prints a line that begins with `show`, and such a line prints exactly one line, accepted or refused. Its answer is the next line, whatever that is
(`show Panic` and `show #18.0` print what the fence prints). The answer to any other line is all that comes before the fence.

Fences are lines and bytes of the script. The number of a Refusal is that of its line among the lines that were sent, as if there were no fences: the
program printed 2 * line - 1. A session ends at 16,777,216 bytes, fences included. `left` is how many bytes are left, and `send` raises TooLong for a
line that doesn't fit with its fence. It isn't sent then, and the session can go on.

Where the program ends by itself, `send` and `close` raise Ended, with its status and its standard error. This needs Python 3.8 or later, and Linux.
"""
import collections
import os
import re
import selectors
import subprocess
import tempfile
from dataclasses import dataclass
from typing import Dict, NamedTuple, Optional, Tuple, Union

LIMIT = 16_777_216
FENCE = b"show Panic"

# A line whose first word is `show`, which prints exactly one line. (Blanks are these alone.)
OF_SHOW = re.compile(rb"[ \t\r]*show(?![^ \t\r])")


class Pair(NamedTuple):
    """A pair, the id of a relationship and a target."""

    relationship: str
    target: str

    def __str__(self):
        return f"({self.relationship},{self.target})"


Id = Union[str, Pair]
Values = Optional[Tuple[int, ...]]


def valued(ident: Id, values: Values) -> str:
    return str(ident) if values is None else f"{ident}={','.join(map(str, values))}"


@dataclass(frozen=True)
class Field:
    """A field of a row: an id, the entity that has it, and its values, None where it has none."""

    id: Id
    source: str
    values: Values

    def __str__(self):
        return f"[{valued(f'{self.id}@{self.source}', self.values)}]"


@dataclass(frozen=True)
class Row:
    """A row: the entity of each variable, `$this` first, and the fields in the order of the text, None for an unset one (`[-]`)."""

    variables: Dict[str, str]
    fields: Tuple[Optional[Field], ...]

    def __str__(self):
        words = [f"{name}={entity}" for name, entity in self.variables.items()]
        return " ".join(["row", *words, *("[-]" if it is None else str(it) for it in self.fields)])


@dataclass(frozen=True)
class Count:
    """The line `rows N`, which ends the rows of a query."""

    rows: int

    def __str__(self):
        return f"rows {self.rows}"


@dataclass(frozen=True)
class Fact:
    """What an entity holds: an id, and its values, None where it has none."""

    id: Id
    values: Values

    def __str__(self):
        return f"[{valued(self.id, self.values)}]"


@dataclass(frozen=True)
class Shown:
    """What `show` prints: an entity with all that it holds."""

    entity: str
    facts: Tuple[Fact, ...]

    def __str__(self):
        return " ".join(["show", self.entity, *map(str, self.facts)])


@dataclass(frozen=True)
class Handle:
    """What `new` prints: the handle of the entity that it made."""

    entity: str

    def __str__(self):
        return self.entity


@dataclass(frozen=True)
class Event:
    """An event of a monitor (enter, leave) or of an observer (add, remove, set), whose name is `watch`. A monitor's has no id."""

    kind: str
    watch: str
    entity: str
    id: Optional[Id] = None
    values: Values = None

    def __str__(self):
        return " ".join([self.kind, self.watch, self.entity, *([] if self.id is None else [valued(self.id, self.values)])])


@dataclass(frozen=True)
class Refusal:
    """Why a line was refused: its number, the kind, and for a fault of a query's text where in it, in bytes from its start."""

    line: int
    kind: str
    span: Optional[Tuple[int, int]] = None

    def __str__(self):
        return " ".join(["error", str(self.line), self.kind, *([] if self.span is None else ["{}..{}".format(*self.span)])])


Line = Union[Row, Count, Shown, Handle, Event, Refusal]


@dataclass(frozen=True)
class Answer:
    """What one line printed. As text it is that, line by line."""

    rows: Tuple[Row, ...] = ()
    count: Optional[int] = None
    shown: Optional[Shown] = None
    handle: Optional[str] = None
    refusal: Optional[Refusal] = None
    events: Tuple[Event, ...] = ()

    def lines(self) -> Tuple[Line, ...]:
        count = [] if self.count is None else [Count(self.count)]
        handle = [] if self.handle is None else [Handle(self.handle)]
        return (*self.rows, *count, *(it for it in (self.shown, self.refusal) if it), *handle, *self.events)

    def __str__(self):
        return "\n".join(map(str, self.lines()))


# The lines of an output.
NAME = r"[A-Za-z][A-Za-z0-9_.]{0,63}"
ENTITY = rf"(?:{NAME}|#[0-9]+\.[0-9]+)"
ID = rf"(?:{ENTITY}|\({ENTITY},{ENTITY}\))"
VALUES = r"-?[0-9]+(?:,-?[0-9]+)*"
VARIABLE = r"\$[A-Za-z][A-Za-z0-9_]*"

BINDING = re.compile(rf" ({VARIABLE})=({ENTITY})")
FIELD = re.compile(rf" \[(?:-|({ID})@({ENTITY})(?:=({VALUES}))?)\]")
FACT = re.compile(rf" \[({ID})(?:=({VALUES}))?\]")
ROW = re.compile(f"row((?:{BINDING.pattern})*)((?:{FIELD.pattern})*)")
SHOWN = re.compile(f"show ({ENTITY})((?:{FACT.pattern})*)")
COUNT = re.compile(r"rows ([0-9]+)")
HANDLE = re.compile(r"#[0-9]+\.[0-9]+")
OF_MONITOR = re.compile(rf"(enter|leave) ({NAME}) ({ENTITY})")
OF_OBSERVER = re.compile(rf"(add|remove|set) ({NAME}) ({ENTITY}) ({ID})(?:=({VALUES}))?")
REFUSAL = re.compile(r"error ([0-9]+) ([A-Za-z]+)(?: ([0-9]+)\.\.([0-9]+))?")


def id_of(text: str) -> Id:
    return Pair(*text[1:-1].split(",")) if text.startswith("(") else text


def values_of(text: Optional[str]) -> Values:
    return tuple(map(int, text.split(","))) if text else None


def parse(line: str) -> Line:
    """A line of output as data, from which str() makes the same line. Raises ValueError where it is none."""
    found = ROW.fullmatch(line)
    if found:
        fields = FIELD.findall(line, found.end(1))
        made = tuple(Field(id_of(ident), source, values_of(values)) if ident else None for ident, source, values in fields)
        return Row(dict(BINDING.findall(found[1])), made)
    found = COUNT.fullmatch(line)
    if found:
        return Count(int(found[1]))
    found = SHOWN.fullmatch(line)
    if found:
        facts = FACT.findall(line, found.end(1))
        return Shown(found[1], tuple(Fact(id_of(ident), values_of(values)) for ident, values in facts))
    found = HANDLE.fullmatch(line)
    if found:
        return Handle(line)
    found = OF_MONITOR.fullmatch(line)
    if found:
        return Event(*found.groups())
    found = OF_OBSERVER.fullmatch(line)
    if found:
        return Event(found[1], found[2], found[3], id_of(found[4]), values_of(found[5]))
    found = REFUSAL.fullmatch(line)
    if found:
        return Refusal(int(found[1]), found[2], (int(found[3]), int(found[4])) if found[3] else None)
    raise ValueError(f"this is no line of flecsq's output: {line!r}")


def answer_of(lines) -> Answer:
    """The answer that these lines of data are: its own output, and then its events. Raises ValueError where they are the answer to no line."""
    found = {kind: tuple(it for it in lines if isinstance(it, kind)) for kind in (Row, Count, Shown, Handle, Refusal, Event)}
    count, shown, handle, refusal = (found[kind][0] if found[kind] else None for kind in (Count, Shown, Handle, Refusal))
    answer = Answer(found[Row], count and count.rows, shown, handle and handle.entity, refusal, found[Event])
    if answer.lines() != tuple(lines) or len(answer.rows) != (answer.count or 0):
        raise ValueError("these lines of output are the answer to no line:\n" + "\n".join(map(str, lines)))
    return answer


class TooLong(Exception):
    """The line was not sent: with it and its fence the script would have more bytes than a session may."""


class Ended(Exception):
    """The program has ended by itself: its status (negative for a signal), its standard error, and what came of its last answer."""

    def __init__(self, program: str, status: int, complaint: str, lines: Tuple[str, ...] = ()):
        how = f"with status {status}" if status >= 0 else f"by signal {-status}"
        super().__init__(f"{program} ended {how}: {complaint.strip() or 'its standard error is empty'}")
        self.status, self.complaint, self.lines = status, complaint, lines


class Session:
    """A run of the program, which answers the lines that are sent to it. It is closed by `close`, or at the end of a `with`."""

    def __init__(self, program: str = "flecsq", limit: int = LIMIT):
        self.program, self.limit = program, limit
        self.sent_lines = self.sent_bytes = 0
        self._unwritten, self._unread = memoryview(b""), b""
        self._lines = collections.deque()
        self._status: Optional[int] = None
        self._is_at_a_fence = True
        self._complaint = tempfile.TemporaryFile()
        try:
            pipes = {"stdin": subprocess.PIPE, "stdout": subprocess.PIPE, "stderr": self._complaint}
            self._running = subprocess.Popen([program], bufsize=0, **pipes)
        except OSError:
            self._complaint.close()
            raise
        os.set_blocking(self._running.stdin.fileno(), False)
        self._ready = selectors.DefaultSelector()
        self._ready.register(self._running.stdout, selectors.EVENT_READ)

    def __enter__(self):
        return self

    def __exit__(self, kind, error, trace):
        if kind is None:
            self.close()
        else:
            self._stop()

    @property
    def left(self) -> int:
        """How many bytes are left of the session."""
        return self.limit - self.sent_bytes

    def send(self, line: Union[str, bytes]) -> Answer:
        """Sends a line, without its line feed, and gives the answer to it. A refusal is an answer, not an error."""
        line = line.encode() if isinstance(line, str) else line
        if b"\n" in line:
            raise ValueError("a line has no line feed in it")
        if self._status is not None or not self._is_at_a_fence:
            raise ValueError("the session is closed, or the answer to an earlier line was given up")
        data = line + b"\n" + FENCE + b"\n"
        if len(data) > self.left:
            what = f"line {self.sent_lines + 1} and its fence have {len(data)} bytes"
            raise TooLong(f"{what}, and {self.left} are left of the session's {self.limit}")
        self.sent_lines += 1
        self.sent_bytes += len(data)
        self._is_at_a_fence, self._unwritten = False, memoryview(data)
        self._ready.register(self._running.stdin, selectors.EVENT_WRITE)
        lines = self._answer(prints_one=bool(OF_SHOW.match(line)))
        self._is_at_a_fence = True
        return answer_of([self._counted(parse(it.decode("ascii"))) for it in lines])

    def close(self) -> int:
        """Ends the session, and gives the program's status: 0, or 1 where a line was refused."""
        if self._status is None:
            self._running.stdin.close()
            # (there is nothing more to read, unless an answer was given up)
            while self._running.stdout.read(65_536):
                pass
            self._stop(kill=False)
            if self._status not in (0, 1):
                raise Ended(self.program, self._status, self._complained)
        return self._status

    def _answer(self, prints_one):
        """The lines of the answer to the line that was sent last: the next one, or all before the fence."""
        lines = []
        while True:
            line = self._next_line()
            if line is None:
                self._stop(kill=False)
                raise Ended(self.program, self._status, self._complained, tuple(it.decode("ascii", "replace") for it in lines))
            if line == FENCE and (lines or not prints_one):
                return lines
            lines.append(line)

    def _counted(self, line):
        """A line of an answer, where a refusal has the number of its line among those that were sent."""
        if not isinstance(line, Refusal):
            return line
        if line.line != 2 * self.sent_lines - 1:
            raise ValueError(f"the refusal of line {self.sent_lines} has the number {line.line}")
        return Refusal(self.sent_lines, line.kind, line.span)

    def _next_line(self):
        """The next line that the program prints, None at the end. What is left to write is written meanwhile, so neither waits for the other."""
        while self._unwritten or not self._lines:
            for key, _ in self._ready.select():
                if key.fileobj is self._running.stdin:
                    self._write()
                else:
                    data = os.read(key.fd, 65_536)
                    if not data:
                        return self._lines.popleft() if self._lines else None
                    *lines, self._unread = (self._unread + data).split(b"\n")
                    self._lines.extend(lines)
        return self._lines.popleft()

    def _write(self):
        try:
            self._unwritten = self._unwritten[os.write(self._running.stdin.fileno(), self._unwritten) :]
        except BrokenPipeError:
            # (the program has ended, which the end of its output tells)
            self._unwritten = memoryview(b"")
        if not self._unwritten:
            self._ready.unregister(self._running.stdin)

    def _stop(self, kill=True):
        """Waits for the end of the program, and keeps what it has said."""
        if self._status is None:
            if kill:
                self._running.kill()
            self._running.stdin.close()
            self._running.stdout.close()
            self._status = self._running.wait()
            self._ready.close()
            self._complaint.seek(0)
            self._complained = self._complaint.read().decode("utf-8", "replace")
            self._complaint.close()
