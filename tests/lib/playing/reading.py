"""A row file, read: what is done with an office, one step after the other, what is sent to it, and
what must come. A line that says anything else is `Unread`."""
import dataclasses
import re

from .wording import Unread, answer, request, unescaped, words_of

ENDS = ("read", "write")  # of a stream, either of which may fail
FAULTS = {"Version": "version", "Damaged": "damaged", "Store": "store", "NoMemory": "memory"}
FRAMED = re.compile(rb"HTTP/1\.1 [^\r\n]*\r\n(?:[^\r\n]+\r\n)*?Content-Length: (\d+)\r\n\r\n")
FRAMING_FAULT = re.compile(rb'\{"error":"\w+","number":[1-5]\}')  # it counts no request


@dataclasses.dataclass
class Told:
    """What must come: these pieces, each with the line that tells it, or any text but none."""

    pieces: list = dataclasses.field(default_factory=list)
    is_any: bool = False

    def whole(self):
        return b"".join(text for _, text in self.pieces)


@dataclasses.dataclass
class Talk:
    """A stream of requests with its answers; or, where it has words, a run of the program with what
    it reads and prints. It begins at this line of the row."""

    line: int
    words: list | None = None
    taken: int | None = None  # a port on which another program listens meanwhile
    sent: bytes = b""
    breaks: bool = False  # the source fails after its last byte
    room: int | None = None  # bytes that the output takes before it fails
    requests: int = 0  # that are dealt with
    failed: str | None = None  # the end of the stream that fails
    out: Told = dataclasses.field(default_factory=Told)
    err: Told = dataclasses.field(default_factory=Told)
    status: int = 0
    is_over: bool = False  # no more lines of the row add to it


@dataclasses.dataclass
class Sql:
    """Another tool changes the tables."""

    line: int
    sql: str


@dataclasses.dataclass
class Opening:
    """The tables are opened again, and refused with a fault where one is named."""

    line: int
    fault: str | None = None


@dataclasses.dataclass
class File:
    """A file is written."""

    line: int
    name: str
    text: str = ""


@dataclasses.dataclass
class Folder:
    """A folder is made."""

    line: int
    name: str


@dataclasses.dataclass
class Alter:
    """Another tool changes the database in a file."""

    line: int
    name: str
    sql: str


@dataclasses.dataclass
class Lacks:
    """There is no such file."""

    line: int
    name: str


@dataclasses.dataclass
class Holds:
    """There is such a file with this text."""

    line: int
    name: str
    text: str = ""


@dataclasses.dataclass
class Row:
    """What a row file says."""

    name: str
    steps: list = dataclasses.field(default_factory=list)
    is_bare: bool = False  # its database has no table at first

    def talks(self):
        return [it for it in self.steps if isinstance(it, Talk)]

    def runs_program(self):
        """Whether it runs the program with words of its own."""
        return any(it.words is not None for it in self.talks())

    def needs_file(self):
        """Whether it begins without any table, or another tool changes the tables."""
        return self.is_bare or any(isinstance(it, Sql) for it in self.steps)


def number(text, most):
    """The number that stands there."""
    if not re.fullmatch(r"[0-9]{1,10}", text) or int(text) > most:
        raise Unread(f"no number up to {most}: {text}")
    return int(text)


def named(text):
    """The name that stands there."""
    if not text:
        raise Unread("a name is missing")
    return text


def alone(text):
    """Nothing stands there."""
    if text:
        raise Unread(f"more than its word: {text}")


class Reader:
    """Reads a row file line by line."""

    def __init__(self, name):
        self.row, self.line = Row(name), 0

    def add(self, step):
        self.row.steps.append(step)

    def last(self):
        return self.row.steps[-1] if self.row.steps else None

    def talk(self):
        """The stream or run that goes on, or a stream that begins."""
        if not isinstance(self.last(), Talk) or self.last().is_over:
            self.add(Talk(self.line))
        return self.last()

    def run(self):
        """The run that goes on."""
        if not isinstance(self.last(), Talk) or self.last().words is None:
            raise Unread("there is no run to which it belongs")
        return self.last()

    def send(self, sent, requests):
        talk = self.talk()
        talk.sent += sent
        talk.requests += requests

    def come(self, told, text):
        told.pieces.append((self.line, text))

    def print_line(self, told, rest):
        """A line that the program prints, or any text."""
        if told.is_any or rest == "*" and told.pieces:
            raise Unread("any text, and more of it")
        if rest == "*":
            told.is_any = True
        else:
            self.come(told, f"{rest}\n".encode())

    def end(self, failed, requests):
        """The stream ends, or one of its ends fails."""
        talk = self.talk()
        if talk.words is not None:
            raise Unread("a run does not tell how many requests it dealt with")
        talk.failed, talk.requests = failed, number(requests, 2**32 - 1)
        talk.is_over = True

    def fail(self, rest):
        end, _, requests = rest.partition(" ")
        if end not in ENDS:
            raise Unread(f"no end of a stream: {end}")
        self.end(end, requests)

    def refuse(self, rest):
        if rest not in FAULTS:
            raise Unread(f"no fault of an opening: {rest}")
        self.add(Opening(self.line, FAULTS[rest]))

    def open_again(self, rest):
        alone(rest)
        self.add(Opening(self.line))

    def bare(self, rest):
        alone(rest)
        if self.row.steps:
            raise Unread("a row is bare from its first line on")
        self.row.is_bare = True

    def breaks(self, rest):
        alone(rest)
        self.talk().breaks = True

    def alter(self, rest):
        name, is_there, sql = rest.partition(" sql ")
        if not is_there:
            raise Unread(f"no name and SQL: {rest}")
        self.add(Alter(self.line, named(name), named(sql)))

    def write(self, rest):
        """A line of a file."""
        if not isinstance(self.last(), (File, Holds)):
            raise Unread("there is no file to which it belongs")
        self.last().text += f"{rest}\n"

    def room(self, rest):
        self.talk().room = number(rest, 2**31 - 1)

    def taken(self, rest):
        self.run().taken = number(rest, 65_535)

    def status(self, rest):
        self.run().status = number(rest, 255)

    TAKES = {
        ">": lambda it, rest: it.send(request(rest), 1),
        ">>": lambda it, rest: it.send(unescaped(rest), 0),
        "<": lambda it, rest: it.come(it.talk().out, answer(rest)),
        "<<": lambda it, rest: it.come(it.talk().out, unescaped(rest)),
        "out": lambda it, rest: it.print_line(it.run().out, rest),
        "err": lambda it, rest: it.print_line(it.run().err, rest),
        "status": status,
        "taken": taken,
        "room": room,
        "breaks": breaks,
        "served": lambda it, rest: it.end(None, rest),
        "fails": fail,
        "run": lambda it, rest: it.add(Talk(it.line, words_of(rest))),
        "sql": lambda it, rest: it.add(Sql(it.line, named(rest))),
        "opens": open_again,
        "refuses": refuse,
        "bare": bare,
        "file": lambda it, rest: it.add(File(it.line, named(rest))),
        "folder": lambda it, rest: it.add(Folder(it.line, named(rest))),
        "lacks": lambda it, rest: it.add(Lacks(it.line, named(rest))),
        "holds": lambda it, rest: it.add(Holds(it.line, named(rest))),
        "alter": alter,
        "|": write,
    }

    def take(self, text):
        """Adds what a line says."""
        self.line += 1
        if not text or text.startswith("#"):
            return
        word, _, rest = text.partition(" ")
        try:
            if word not in self.TAKES:
                raise Unread(f"an unknown word: {word}")
            self.TAKES[word](self, rest)
        except Unread as it:
            raise Unread(f"line {self.line}: {it}") from None


def answers_in(text):
    """How many whole answers stand there, how many of them tell a fault of framing, and whether
    more stands there than whole answers."""
    count = faults = at = 0
    while head := FRAMED.match(text, at):
        body = text[head.end():head.end() + int(head[1])]
        if len(body) < int(head[1]):
            break
        at, count = head.end() + len(body), count + 1
        faults += bool(FRAMING_FAULT.fullmatch(body))
    return count, faults, at < len(text)


def check_count(talk):
    """Each request that a stream dealt with has its answer, but one that its output did not take
    whole; and an answer that tells a fault of framing has no request."""
    count, faults, is_more = answers_in(talk.out.whole())
    wanted = (count - faults,)
    if talk.room is not None:
        wanted = count - faults, count - faults + 1
    elif is_more:
        raise Unread(f"line {talk.line}: its answers are not whole")
    if talk.requests not in wanted:
        told = f"{talk.requests} requests, and answers to {wanted[-1]}"
        raise Unread(f"line {talk.line}: a stream of {told}")


def check_steps(row):
    """A row either runs the program, or has streams and changes the tables."""
    if not row.talks():
        raise Unread("neither a request nor a run")
    runs = row.runs_program()
    for step in row.steps:
        is_run = isinstance(step, (File, Folder, Alter, Lacks, Holds)) or (
            isinstance(step, Talk) and step.words is not None)
        if is_run != runs or row.is_bare and runs:
            raise Unread(f"line {step.line}: a row has runs and files, or streams and tables")
        if isinstance(step, Talk) and not runs:
            check_count(step)


def read_row(name, data):
    """Reads the bytes of a row file."""
    reader = Reader(name)
    try:
        text = data.decode()
    except UnicodeDecodeError:
        raise Unread("it is not UTF-8") from None
    lines = text.split("\n")
    for line in lines[:-1] if lines[-1] == "" else lines:
        reader.take(line.removesuffix("\r"))
    check_steps(reader.row)
    return reader.row
