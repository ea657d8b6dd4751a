"""A program with its calls and loops expanded: each element with the operations that give its word (docs/GRAPH.md,
"Flat programs"), from the typed program that `silc_show types` prints."""
import re
from dataclasses import dataclass, field, replace

from silc.designing.programs import in_room, ran
from silc.designing.shapes import Shape
from silc.sure import sure

DECLARED = re.compile(r"  (parameter|result|local) (\w+)((?:\[\d+\])*) at \d+ : (?:fix<(\d+),(\d+),([\w,]+)>|bool)")
TABLE = re.compile(r"const (\w+)((?:\[\d+\])*) : \S+ = (.*)")
CALL = re.compile(r"\((.*)\) = func (\d+)\((.*)\)")
OPERATION = re.compile(r"([a-z]+)<(-?\d+)(\*)?")
FORMAT_END = re.compile(r",((?:round,)?\w+),(\d+)>\(")
RAW, NAME = re.compile(r"-?\d+"), re.compile(r"\w+")
WHOLE_OR_INDEX = re.compile(r"\d+|\w+")

# A number as a tree, the indices of the loops around it, and the declarations of an instance, each with its first
# element.
Manifest = int | str | tuple
Indices = dict[str, int]
Signals = dict[str, tuple["Declared", int]]


# Numbers that are known when a program is expanded: whole numbers, indices of loops, and what is made of them


def manifest_at(text: str, place: int) -> tuple[Manifest, int]:
    """A number as a tree, and the place behind it."""
    if text[place] == "-":
        inside, place = manifest_at(text, place + 1)
        return ("-", 0, inside), place
    if text[place] != "(":
        found = sure(WHOLE_OR_INDEX.match(text, place))
        return (int(found[0]) if found[0].isdigit() else found[0]), found.end()
    left, place = manifest_at(text, place + 1)
    right, end = manifest_at(text, place + 1)
    return (text[place], left, right), end + 1


def number_of(manifest: Manifest, indices: Indices) -> int:
    """A number in a turn of the loops."""
    if isinstance(manifest, int):
        return manifest
    if isinstance(manifest, str):
        return indices[manifest]
    sign, *parts = manifest
    left, right = (number_of(part, indices) for part in parts)
    return left + right if sign == "+" else left - right if sign == "-" else left * right


# Expressions: their parts and then what is made of them, one after another


@dataclass(frozen=True)
class Read:
    """A place in a source, with its delay."""
    name: str
    subscripts: tuple[Manifest, ...]
    delay: Manifest = 0


@dataclass(frozen=True)
class Operation:
    """What is made of the parts before it: by how much it is shifted down, by which mode, and to how many bits."""
    name: str
    shift: int
    amount: Manifest
    mode: str
    width: int
    parts: int = 0


# A part of an expression: a raw word, a place that is read, or what is made of the parts before it.
Part = int | Read | Operation


def place_at(text: str, place: int) -> tuple[str, tuple[Manifest, ...], int]:
    """A name with its subscripts, and the place behind it."""
    name, subscripts = sure(NAME.match(text, place)), []
    place = name.end()
    while text[place : place + 1] == "[":
        subscript, place = manifest_at(text, place + 1)
        subscripts.append(subscript)
        place += 1
    return name[0], tuple(subscripts), place


def leaf_at(text: str, place: int) -> tuple[int | Read, int]:
    """A raw word or a read, and the place behind it."""
    if raw := RAW.match(text, place):
        return int(raw[0]), raw.end()
    name, subscripts, place = place_at(text, place)
    delay: Manifest = 0
    if text[place : place + 1] == "@":
        delay, place = manifest_at(text, place + 1)
    return Read(name, subscripts, delay), place


def operation_at(text: str, place: int) -> tuple[Operation | None, int]:
    """The beginning of an operation, up to its first part, and the place there; or nothing."""
    found = OPERATION.match(text, place)
    if not found:
        return None, place
    amount: Manifest = 1
    place = found.end()
    if found[3]:
        amount, place = manifest_at(text, place)
    ended = sure(FORMAT_END.match(text, place))
    return Operation(found[1], int(found[2]), amount, ended[1], int(ended[2])), ended.end()


def expressions_in(text: str) -> list[list[Part]]:
    """The expressions of a text with commas between them, each as its parts and then what is made of them."""
    made, place = [], 0
    own: list[Part] = []
    # The operations whose parts are not all there, each with the number of that which comes now.
    open_ones: list[tuple[Operation, int]] = []
    while place < len(text):
        operation, place = operation_at(text, place)
        if operation:
            open_ones.append((operation, 1))
            continue
        leaf, place = leaf_at(text, place)
        own.append(leaf)
        while open_ones and text[place] == ")":
            operation, parts = open_ones.pop()
            own.append(replace(operation, parts=parts))
            place += 1
        if open_ones:
            operation, parts = open_ones[-1]
            open_ones[-1] = operation, parts + 1
        else:
            made.append(own)
            own = []
        place += 2
    return made


# Functions and their items


@dataclass(frozen=True)
class Declared:
    """A declaration of a function: what it is, its dims, and its type, whose shape is `None` for a truth value."""
    kind: str
    name: str
    dims: tuple
    shape: Shape | None
    mode: str

    def count(self) -> int:
        made = 1
        for dim in self.dims:
            made *= dim
        return made


@dataclass
class Function:
    """A function of the typed program: its declarations, and its items, a loop with those in it."""
    declared: list = field(default_factory=list)
    items: list = field(default_factory=list)

    def of(self, kind: str) -> list[Declared]:
        return [one for one in self.declared if one.kind == kind]


def dims_of(text: str) -> tuple[int, ...]:
    return tuple(map(int, re.findall(r"\d+", text)))


def item_of(text: str) -> tuple:
    """An equation, a call, an initial value, or the head of a loop, whose items are to come."""
    if text.startswith("loop "):
        index, bounds = text[5:].split(" ", 1)
        low, place = manifest_at(bounds, 0)
        return "loop", index, low, manifest_at(bounds, place + len(" .. "))[0], []
    if called := CALL.fullmatch(text):
        targets = [place_at(target, 0)[:2] for target in called[1].split(", ")]
        return "call", targets, int(called[2]), expressions_in(called[3])
    name, subscripts, place = place_at(text, 0)
    if text.startswith("@@", place):
        back, place = manifest_at(text, place + 2)
        return "initial", (name, subscripts), back, int(text[place + len(" = "):])
    return "equation", (name, subscripts), expressions_in(text[place + len(" = "):])[0]


def typed_of(text: str) -> tuple[dict, dict[int, Function]]:
    """The tables, and the functions by their numbers, of what `silc_show types` prints."""
    tables, functions, open_items = {}, {}, []
    for line in text.splitlines():
        if found := TABLE.fullmatch(line):
            tables[found[1]] = dims_of(found[2]), list(map(int, found[3].split()))
        elif line.startswith("func "):
            function = functions[int(line[5:])] = Function()
            open_items = [function.items]
        elif found := DECLARED.fullmatch(line):
            shape = Shape(int(found[4]), int(found[5])) if found[4] else None
            function.declared.append(Declared(found[1], found[2], dims_of(found[3]), shape, found[6] or ""))
        else:
            item, depth = item_of(line.strip()), (len(line) - len(line.lstrip())) // 2
            open_items = open_items[:depth]
            open_items[-1].append(item)
            if item[0] == "loop":
                open_items.append(item[-1])
    return tables, functions


# Expansion

# A part of an element's body, as a part of an expression, but that a read is the element and the delay.
FlatPart = int | tuple[int, int] | Operation


@dataclass
class FlatElement:
    """An element: its name, its shape (`None` for a truth value), its body, and its words before the first sample.

    A body is the number of an input word, or parts and then what is made of them: raw words, pairs of the element that
    is read and the delay, and operations."""
    name: str
    shape: Shape | None
    body: int | list[FlatPart] | None = None
    initials: dict[int, int] = field(default_factory=dict)

    def parts(self) -> list[FlatPart]:
        """The body of an element that is no input word."""
        assert isinstance(self.body, list)
        return self.body

    def reads(self) -> list[tuple[int, int]]:
        """The elements that it reads, each with the delay."""
        return [part for part in self.body if isinstance(part, tuple)] if isinstance(self.body, list) else []


class Flat:
    """The elements of a program, in the order of `silc_show values`, and those of the output words."""

    def __init__(self, text: str, names: str):
        self.tables, self.functions = typed_of(text)
        tops = {int(words[1]): words[2] for words in map(str.split, names.splitlines()) if words[0] == "top"}
        self.names, self.entered = tops, dict.fromkeys(tops.values(), 0)
        self.elements: list[FlatElement] = []
        main = int(names.split()[1])
        signals = self.enter(main, "")
        for place, element in enumerate(self.own(main, signals, "parameter")):
            self.elements[element].body = place
        self.outputs = self.own(main, signals, "result")
        self.inputs = self.own(main, signals, "parameter")
        self.expand(main, signals, self.functions[main].items, {})

    def enter(self, number: int, instance: str) -> Signals:
        """Numbers the elements of an instance; gives them by the names of its declarations."""
        signals = {}
        for one in self.functions[number].declared:
            signals[one.name] = one, len(self.elements)
            for place in range(one.count()):
                self.elements.append(FlatElement(f"{instance}{one.name}{subscripts_of(place, one.dims)}", one.shape))
        return signals

    def own(self, number: int, signals: Signals, kind: str) -> list[int]:
        """The elements of an instance that are parameters, or results."""
        return [signals[one.name][1] + place for one in self.functions[number].of(kind) for place in range(one.count())]

    def element_at(self, signals: Signals, target: tuple, indices: Indices) -> int:
        """The element of a place, as the dims are counted row by row."""
        (name, subscripts), place = target, 0
        one, first = signals[name]
        for dim, subscript in zip(one.dims, subscripts):
            place = place * dim + number_of(subscript, indices)
        return first + place

    def expand(self, number: int, signals: Signals, items: list, indices: Indices) -> None:
        for kind, *parts in items:
            if kind == "loop":
                index, low, high, inner = parts
                for turn in range(number_of(low, indices), number_of(high, indices) + 1):
                    self.expand(number, signals, inner, indices | {index: turn})
            elif kind == "call":
                self.call(signals, indices, *parts)
            elif kind == "initial":
                target, back, raw = parts
                self.elements[self.element_at(signals, target, indices)].initials[number_of(back, indices)] = raw
            else:
                target, body = parts
                self.elements[self.element_at(signals, target, indices)].body = self.body(signals, body, indices)

    def body(self, signals: Signals, parts: list[Part], indices: Indices) -> list[FlatPart]:
        return [self.part(signals, part, indices) for part in parts]

    def part(self, signals: Signals, part: Part, indices: Indices) -> FlatPart:
        """A part of an expression in a turn of the loops."""
        if isinstance(part, int):
            return part
        if isinstance(part, Operation):
            shift = part.shift * number_of(part.amount, indices)
            return replace(part, shift=shift, amount=1)
        if part.name in signals:
            return self.element_at(signals, (part.name, part.subscripts), indices), number_of(part.delay, indices)
        return self.word_at(part, indices)

    def word_at(self, read: Read, indices: Indices) -> int:
        """A number of a table."""
        (dims, words), place = self.tables[read.name], 0
        for dim, subscript in zip(dims, read.subscripts):
            place = place * dim + number_of(subscript, indices)
        return words[place]

    def call(self, signals: Signals, indices: Indices, targets: list, number: int, arguments: list) -> None:
        """The elements of a call: its parameters are its arguments, and the places of its results read these."""
        name = self.names[number]
        self.entered[name] += 1
        inner, function = self.enter(number, f"{name}#{self.entered[name]}."), self.functions[number]
        for one, argument in zip(function.of("parameter"), arguments):
            first = inner[one.name][1]
            for place in range(one.count()):
                self.elements[first + place].body = self.argument(signals, one, argument, place, indices)
        for one, target in zip(function.of("result"), targets):
            first = inner[one.name][1]
            to = signals[target[0]][1] if one.dims else self.element_at(signals, target, indices)
            for place in range(one.count()):
                self.elements[to + place].body = [(first + place, 0)]
        self.expand(number, inner, function.items, {})

    def argument(self, signals: Signals, one: Declared, argument: list, place: int, indices: Indices) -> list:
        """The body of a parameter; of an array that of the element at the same place."""
        if not one.dims:
            return self.body(signals, argument, indices)
        name = argument[0].name
        return [(signals[name][1] + place, 0)] if name in signals else [self.tables[name][1][place]]


def subscripts_of(place: int, dims: tuple[int, ...]) -> str:
    made = ""
    for dim in reversed(dims):
        place, subscript = divmod(place, dim)
        made = f"[{subscript}]{made}"
    return made


def flat_of(source: str) -> Flat:
    """The elements of a source that has no fault."""
    def shown(what: str) -> str:
        return in_room(source, [], lambda room: ran("silc_show", what, "source", room=room))
    return Flat(shown("types"), shown("names"))
