"""The completed listing of microcode, as docs/MICROCODE.md, "Written by hand", has it: a heading of the hardware and of
what it starts with, and behind it what `silc list` prints. `listing_of` and `image_of_listing` are the two directions.
BadListing tells the first fault of a text with its place."""
import re
from collections.abc import Callable, Iterator
from dataclasses import dataclass, field
from typing import Any, NoReturn

from silc.sure import sure

from .image import (MODES, MOST_BUSES, MOST_CELLS, MOST_LATENCY, MOST_MOVES, MOST_PERIOD, MOST_REGISTERS, MOST_UNITS,
                    MOST_WIDTH, MOST_WORDS, RAW, SHIFTS, UNROLLS, Format, Image, Issue, Take, Unit, Word,
                    argument_range)
from .operations import FORMATTED, KINDS, OF_KIND, PORTS, WITH_ARGUMENT, reads

# How many first words stand in a line.
A_ROW = 8
TOKEN, NUMBER = re.compile(r"[^ \t]+"), re.compile(r"0|-?[1-9][0-9]*")
PLACE = re.compile(r"(0|[1-9]\d?)\.(0|[1-9]\d?)", re.A)
# No number of a listing has so many digits, and none of so many is read. So much of a word is shown where it is
# refused.
MANY, SHOWN, LINES_BETWEEN = 20, 40, 20_000
HEADING, WORDS = ("input", "unit", "first", "period"), ("word", "issue", "drive", "take")
NO_HEADING = ("the heading is missing: a line for each input word and each unit, as `tools/assemble --listing` prints "
              "them")


class BadListing(Exception):
    """The first fault of a text that is no listing, with its line and its column, both from 1 on."""

    def __init__(self, line: int, column: int, what: str) -> None:
        super().__init__(f"{line}:{column}: {what}")


# Printing


def listing_of(image: Image) -> str:
    """The completed listing of an image. Its lines from `period` on are those of `silc list`."""
    return "".join(f"{line}\n" for line in heading_of(image)) + image.listing()


def heading_of(image: Image) -> Iterator[str]:
    for number, width in enumerate(image.inputs):
        yield f"input {number} width {width}"
    for number, unit in enumerate(image.units):
        yield unit_line(number, unit)
        for port, file in enumerate(unit.files):
            yield from first_lines(f"{number}.{port} reg", file)
        yield from first_lines(f"{number} cell", unit.cells)


def unit_line(number: int, unit: Unit) -> str:
    line = f"unit {number} {unit.kind} latency {unit.latency} gap {unit.gap}"
    line += f" files {' '.join(str(len(file)) for file in unit.files)}" if unit.files else ""
    line += f" cells {len(unit.cells)}" if unit.kind == "ram" else ""
    return line + (f" ram {unit.ram}" if unit.kind == "acu" else "")


def first_lines(where: str, words: list) -> Iterator[str]:
    """Rows of what registers or cells start with, but for those that are zeros alone."""
    for start in range(0, len(words), A_ROW):
        row = words[start:start + A_ROW]
        if any(row):
            yield f"first {where} {start} {' '.join(map(str, row))}"


# Reading


@dataclass(frozen=True)
class Token:
    """A word of a text, with the place where it begins."""
    line: int
    column: int
    text: str

    def refuse(self, what: str) -> NoReturn:
        raise BadListing(self.line, self.column, what)

    def __str__(self) -> str:
        """The word for a message: its beginning, and what can't be seen in it by its code."""
        text = self.text if len(self.text) <= SHOWN else f"{self.text[:SHOWN]}.."
        return text if text.isprintable() else repr(text)[1:-1]


class Line:
    """The words of a line, which are taken one after the other."""

    def __init__(self, number: int, text: str) -> None:
        content = text.removesuffix("\r").partition("#")[0]
        self.tokens = [Token(number, found.start() + 1, found[0]) for found in TOKEN.finditer(content)]
        self.end = Token(number, len(content.rstrip(" \t")) + 1, "")
        self.at = 0

    def take(self, what: str) -> Token:
        """The next word, which is to be this."""
        if self.at == len(self.tokens):
            self.end.refuse(f"the line ends where {what} is wanted")
        self.at += 1
        return self.tokens[self.at - 1]

    def key(self, *keys: str) -> None:
        """Words that stand there as they are."""
        for key in keys:
            token = self.take(f"`{key}`")
            if token.text != key:
                token.refuse(f"`{key}` is wanted in the place of `{token}`")

    def number(self, what: str, low: int, high: int) -> int:
        token = self.take(what)
        return within(token, decimal(token, what), what, low, high)

    def member(self, what: str, name: str, count: int) -> int:
        """The number of one of so many things that a name is for."""
        token = self.take(what)
        return member(token, decimal(token, what), name, count)

    def chosen(self, what: str, names: tuple) -> str:
        token = self.take(what)
        if token.text not in names:
            token.refuse(f"`{token}` is no {what}; there {'are' if names[1:] else 'is'} {', '.join(names)}")
        return token.text

    def close(self) -> None:
        """Nothing more stands in the line."""
        if self.at < len(self.tokens):
            token = self.tokens[self.at]
            token.refuse(f"`{token}` is more than this line has")


def decimal(token: Token, what: str) -> int:
    if not NUMBER.fullmatch(token.text):
        token.refuse(f"{what} is a decimal number, and `{token}` is none")
    if len(token.text) > MANY:
        token.refuse(f"{what} has too many digits")
    return int(token.text)


def within(token: Token, value: int, what: str, low: int, high: int) -> int:
    if not low <= value <= high:
        token.refuse(f"{what} is {value}, and may be {low}" + (f" to {high}" if low < high else ""))
    return value


def member(token: Token, value: int, what: str, count: int) -> int:
    """A number that names one of so many things."""
    if not 0 <= value < count:
        token.refuse(f"there is no {what} {value}" + (f"; the last one is {count - 1}" if count else ""))
    return value


@dataclass
class Reading:
    """What is read of a text so far. `rams` has where each acu names its memory, `given` which first words are there,
    `number` and `seen` the microword that the lines are of and which of them it has."""
    inputs: list[int] = field(default_factory=list)
    units: list[Unit] = field(default_factory=list)
    rams: list = field(default_factory=list)
    given: set[tuple[int, ...]] = field(default_factory=set)
    image: Image | None = None
    number: int | None = None
    seen: set[tuple[object, ...]] = field(default_factory=set)

    def line(self, line: Line) -> None:
        """Reads a line. Its first word says what it is."""
        token = line.take("a line")
        allowed = WORDS if self.image else HEADING
        if token.text not in allowed:
            if token.text in WORDS:
                token.refuse(NO_HEADING if not self.units else f"`{token}` comes before the line `period ..`")
            token.refuse(f"`{token}` begins no line here; {', '.join(allowed)} do")
        getattr(self, f"{token.text}_line")(token, line)
        line.close()

    # The heading

    def next_number(self, line: Line, what: str, count: int, most: int) -> None:
        """The number of an input word or a unit, which are numbered in order."""
        token = line.take(f"the number of the {what}")
        if token.text != str(count):
            token.refuse(f"{what} {count} is next, and not `{token}`")
        if count == most:
            token.refuse(f"there are {most} {what}s at most")

    def input_line(self, token: Token, line: Line) -> None:
        self.next_number(line, "input word", len(self.inputs), MOST_WORDS)
        line.key("width")
        self.inputs.append(line.number("the width", 0, MOST_WIDTH))

    def unit_line(self, token: Token, line: Line) -> None:
        self.next_number(line, "unit", len(self.units), MOST_UNITS)
        kind = line.chosen("kind of unit", KINDS)
        line.key("latency")
        latency = line.number("the latency", 1, MOST_LATENCY)
        line.key("gap")
        unit = Unit(kind, latency, line.number("the gap", 1, latency), [])
        if PORTS[kind]:
            line.key("files")
            unit.files = [[0] * line.number(f"the number of registers at port {port}", 1, MOST_REGISTERS)
                          for port in range(PORTS[kind])]
        if kind == "ram":
            line.key("cells")
            unit.cells = [0] * line.number("the number of cells", 1, MOST_CELLS)
        if kind == "acu":
            line.key("ram")
            unit.ram = line.number("the ram", 0, MOST_UNITS - 1)
            self.rams.append((line.tokens[line.at - 1], unit.ram))
        self.units.append(unit)

    def first_line(self, token: Token, line: Line) -> None:
        where = line.take("a file or a unit")
        unit, port = self.file_at(where) if "." in where.text else (self.unit_at(where), None)
        if port is None and self.units[unit].kind != "ram":
            where.refuse(f"unit {unit} is no ram and has no cells; its registers are at {unit}.0 .."
                         if self.units[unit].files else f"unit {unit} has no registers and no cells")
        what, words = "cell", self.units[unit].cells
        if port is not None:
            what, words = "register", self.units[unit].files[port]
        line.key("reg" if port is not None else "cell")
        at = line.number(f"the first {what}", 0, len(words) - 1)
        for place in range(at, at + max(1, len(line.tokens) - line.at)):
            self.put_first(line, (unit, port), words, place, what)

    def put_first(self, line: Line, place: tuple, words: list, at: int, what: str) -> None:
        """Reads what one register or cell starts with."""
        word = line.number("a first word", *RAW)
        token = line.tokens[line.at - 1]
        if at == len(words):
            token.refuse(f"this word is past the last {what}, which is {at - 1}")
        if (*place, at) in self.given:
            token.refuse(f"{what} {at} has its first word already")
        self.given.add((*place, at))
        words[at] = word

    def period_line(self, token: Token, line: Line) -> None:
        if not self.inputs or not self.units:
            token.refuse(NO_HEADING)
        for place, ram in self.rams:
            if ram >= len(self.units) or self.units[ram].kind != "ram":
                place.refuse(f"unit {ram} is no ram")
        period = line.number("the period", 1, MOST_PERIOD)
        line.key("unroll")
        unroll = int(line.chosen("unroll factor", tuple(map(str, UNROLLS))))
        self.counted(line, "inputs", len(self.inputs))
        line.key("outputs")
        outputs = line.number("the number of output words", 1, MOST_WORDS)
        self.counted(line, "units", len(self.units))
        line.key("buses")
        self.image = Image(period, unroll, self.inputs, outputs, self.units,
                           line.number("the number of buses", 1, MOST_BUSES), [])
        self.image.words = [Word() for _ in range(self.image.circle())]

    @staticmethod
    def counted(line: Line, what: str, count: int) -> None:
        """A number that the heading has given already."""
        line.key(what)
        token = line.take(f"the number of {what}")
        if token.text != str(count):
            token.refuse(f"the heading has {count} {what}, and not `{token}`")

    # Places

    def unit_at(self, token: Token) -> int:
        """The unit that a word of a line names."""
        return member(token, decimal(token, "a unit"), "unit", len(self.units))

    def file_at(self, token: Token) -> tuple:
        """The unit and the port that a word of a line names."""
        found = PLACE.fullmatch(token.text)
        if not found:
            token.refuse(f"a file is UNIT.PORT, and `{token}` is none")
        unit = member(token, int(found[1]), "unit", len(self.units))
        behind = Token(token.line, token.column + found.start(2), found[2])
        return unit, member(behind, int(found[2]), f"port of unit {unit} with the number", len(self.units[unit].files))

    def bus_in(self, line: Line) -> int:
        return line.member("a bus", "bus", self.made().buses)

    def register_in(self, line: Line, unit: int, port: int) -> int:
        return line.member(f"a register at {unit}.{port}", f"register at {unit}.{port} with the number",
                           len(self.units[unit].files[port]))

    # Microwords

    def word_line(self, token: Token, line: Line) -> None:
        number = line.member("the number of a microword", "microword", self.made().circle())
        place = line.tokens[line.at - 1]
        if self.number is not None and number <= self.number:
            place.refuse(f"word {number} comes behind word {self.number}; words rise")
        self.number, self.seen = number, set()

    def add(self, token: Token, line: Line, *what: object) -> None:
        """Notes what a line of a microword says, which it says once."""
        if what in self.seen:
            token.refuse(f"word {self.number} has `{' '.join(one.text for one in line.tokens[:line.at])}` already")
        self.seen.add(what)

    def word_of(self, token: Token) -> Word:
        if self.number is None:
            token.refuse(f"`{token}` comes before the first line `word ..`")
        return self.made().words[self.number]

    def issue_line(self, token: Token, line: Line) -> None:
        word = self.word_of(token)
        place = line.take("a unit")
        number = self.unit_at(place)
        if number in word.issues:
            place.refuse(f"unit {number} is issued in word {self.number} already")
        unit = self.units[number]
        operation = line.chosen(f"operation of unit {number}, whose kind is {unit.kind}", OF_KIND[unit.kind])
        argument = line.number(f"the argument of {operation}", *argument_range(operation, self.made())) \
            if operation in WITH_ARGUMENT else 0
        form = format_in(line) if operation in FORMATTED else None
        word.issues[number] = Issue(number, operation, form, argument, self.registers_in(line, number, operation))

    def registers_in(self, line: Line, number: int, operation: str) -> tuple:
        """The registers of an issue, one for each port of its unit. That of a port which is not read is 0."""
        files, count = self.units[number].files, reads(operation)
        if files:
            line.key("regs")
        registers = []
        for port in range(len(files)):
            registers.append(self.register_in(line, number, port))
            if port >= count and registers[-1]:
                line.tokens[line.at - 1].refuse(f"{operation} reads no register at port {port}, which is written as 0")
        return tuple(registers)

    def drive_line(self, token: Token, line: Line) -> None:
        word, unit = self.word_of(token), self.unit_at(line.take("a unit"))
        enable = unit, self.bus_in(line)
        self.add(token, line, "drive", *enable)
        word.enables.append(enable)

    def take_line(self, token: Token, line: Line) -> None:
        word = self.word_of(token)
        unit, port = self.file_at(line.take("a file"))
        line.key("bus")
        bus = self.bus_in(line)
        line.key("reg")
        take = Take(unit, port, bus, self.register_in(line, unit, port))
        self.add(token, line, "take", *take)
        if len(word.takes) == MOST_MOVES:
            token.refuse(f"a word has {MOST_MOVES} takes at most")
        word.takes.append(take)

    def made(self) -> Image:
        """The image, behind the line `period ..`."""
        return sure(self.image)

    def finished(self, end: Token) -> Image:
        """The image, whose lists rise."""
        if not self.image:
            end.refuse("the text ends before the line `period ..`" if self.units else NO_HEADING)
        for word in self.image.words:
            word.issues = dict(sorted(word.issues.items()))
            word.enables.sort()
            word.takes.sort()
        return self.image


def format_in(line: Line) -> Format:
    line.key("fmt")
    shift = line.number("the shift", *SHIFTS)
    return Format(shift, line.chosen("mode", MODES), line.number("the width", 1, MOST_WIDTH))


def text_of(data: bytes) -> str:
    """The text that bytes are, or BadListing where they are none."""
    try:
        return data.decode()
    except UnicodeDecodeError as fault:
        before = data[:fault.start].decode()
        raise BadListing(before.count("\n") + 1, len(before) - before.rfind("\n"),
                         "this byte is no text in UTF-8") from fault


def image_of_listing(text: str, told: Callable[..., Any] = lambda number: None) -> Image:
    """The image that a completed listing says, or BadListing. Comments, from `#` on, and blank lines say nothing, and
    the lines of a microword may come in any order. `told` is told now and then up to which line the text is read."""
    reading, number = Reading(), 0
    for number, content in enumerate(text.split("\n"), 1):
        line = Line(number, content)
        if line.tokens:
            reading.line(line)
        if number % LINES_BETWEEN == 0:
            told(number)
    return reading.finished(Token(number, 1, ""))
