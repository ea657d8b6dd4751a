"""Why a datapath file is refused, at the key."""
import difflib
import re
import tomllib
from typing import Any

from silc.explaining.command import Case
from silc.explaining.hardware import DONE_BY
from silc.micro_file.operations import PORTS
from silc.explaining.kinds import other_kind
from silc.explaining.refusals import datapath
from silc.explaining.report import Report, counted, listed
from silc.explaining.text import Edit, Span, Text
from silc.explaining.toml_places import Extent, Item, Places, TablePlace, Tree
from silc.sure import sure

MOST_BYTES, MOST_TABLES, MOST_ENTRIES = 1 << 20, 32, 256
# The least and the greatest number of each key of the top table that has one.
TOP = {"period": (1, 4096), "word": (8, 40), "hold": (0, 3)}
TABLES = ("unit", "bus")
UNIT = ("name", "kind", "latency", "gap", "files", "cells", "ram")
BUS = ("name", "from", "to")
SECTION = {"top": datapath("The top table"), "unit": datapath("A unit"), "bus": datapath("A bus")}
NAME = re.compile(r"[A-Za-z0-9_]{1,32}", re.A)
EXAMPLE = {"period": "period = 16", "word": "word = 16", "name": 'name = "add"', "kind": 'kind = "alu"',
           "files": "files = [4, 4]",
           "cells": "cells = 64", "ram": 'ram = "mem"', "from": 'from = ["add"]', "to": 'to = ["add.0"]',
           "unit": "[[unit]]", "bus": "[[bus]]"}


def report_of(case: Case) -> Report:
    text = case.text("DP")
    if len(text.data) > MOST_BYTES:
        return Report(f"the file has {len(text.data)} bytes, and at most {MOST_BYTES} are read", "take out comments.",
                      case.refusal.rule, about=text.name)
    other = other_kind(case, "DP")
    if other:
        return other
    if case.refusal.text == "datapath is not TOML":
        return no_toml(text)
    try:
        tree = tomllib.loads(text.data.decode("utf-8-sig"))
    except (UnicodeDecodeError, tomllib.TOMLDecodeError):
        return case.refusal.report(about=text.name)
    return Judge(text, tree, case).report()


def no_toml(text: Text) -> Report:
    rule = datapath("What is TOML here")
    try:
        tomllib.loads(text.data.decode("utf-8-sig"))
    except UnicodeDecodeError as fault:
        return Report("this is no UTF-8 text", "save the file as UTF-8.", rule, text.span(fault.start))
    except tomllib.TOMLDecodeError as fault:
        return toml_fault(text, str(fault), rule)
    big = re.search(r"\d[\d_]{18,}", text.chars)
    if big:
        return Report("TOML: a whole number has at most 64 bits", "write a smaller number.", rule,
                      text.span(*big.span()))
    return Report("the file is no TOML", "look for a CR without LF, or a number of another form than digits.", rule,
                  about=text.name)


def toml_fault(text: Text, said: str, rule: str) -> Report:
    """What Python's reader of TOML says, at its place."""
    found = re.fullmatch(r"(.*?) \(at (?:line (\d+), column (\d+)|end of document)\)", said)
    what = found[1] if found else said
    at = place_of(text, int(found[2]), int(found[3])) if found and found[2] else max(0, len(text.data.rstrip()) - 1)
    start = text.starts[text.line_of(at) - 1]
    line = text.chars[start:].partition("\n")[0]
    if what == "Invalid value":
        word = re.match(r"[\w./-]+(?=[\s,\]#]|$)", text.chars[at:], re.A)
        cure = f"write texts in quotes, as `\"{word[0]}\"`." if word else "write a value after `=`."
        return Report("TOML: this is no value", cure, rule, text.span(at, at + len(word[0]) if word else at + 1)) \
            .by(*[text.edit(at, at + len(word[0]), f'"{word[0]}"')] if word else [])
    if what.startswith("Expected '='"):
        return Report("TOML: a key is followed by `=`", "write `=` between the key and its value.", rule, text.span(at))
    if what.startswith("Expected newline"):
        return after_value(text, at, rule)
    if "Cannot overwrite" in what or "Cannot declare" in what or "Cannot mutate" in what:
        return twice(text, start, line, rule)
    if what.startswith("Illegal character '\\n'"):
        quote = text.chars[start:at].find('"')
        return Report("TOML: a text has no end", "write `\"` at its end.", rule, text.span(start + max(quote, 0), at)) \
            .by(*text_end(text, start + max(quote, 0), at))
    if "Unclosed array" in what:
        opened = text.chars.rfind("[", 0, text.chars.rfind("=", 0, at) + 3)
        return Report("TOML: a list has no end", "write `]` at its end.", rule, text.span(max(opened, 0), at))
    cure = "write `KEY = VALUE`, a key a line, with texts in quotes."
    if "Unterminated" in what or not (found and found[2]):
        cure = "write what ends it: `]` for a list, `\"` for a text."
    return Report(f"TOML: {what[0].lower() + what[1:]}", cure, rule, text.span(at))


def text_end(text: Text, start: int, end: int) -> list[Edit]:
    """The `"` at the end of a text that is all of a value, or of a list's last item; nothing where its end is not
    sure."""
    said = text.chars[start:end].rstrip()
    word = re.fullmatch(r'"([\w.]+)', said, re.A)
    return [text.edit(start + word.end(), start + word.end(), '"')] if word else []


def place_of(text: Text, line: int, column: int) -> int:
    """The place of a column in characters."""
    start = text.starts[line - 1]
    return start + len(text.data[start:].decode(errors="replace")[:column - 1].encode())


def after_value(text: Text, at: int, rule: str) -> Report:
    """The report on what follows a value in its line."""
    if text.chars[at] == "\r":
        return Report("TOML: a line ends with LF or CR LF, and here is a CR alone",
                      "save the file with the ends of lines of Unix.",
                      rule, text.span(at))
    rest = text.chars[at:].partition("\n")[0].rstrip()
    is_comment = rest.startswith(("/", ";", "--", "%")) and len(rest) > 1
    cure = "write `#` before it: a comment begins with `#`." if is_comment else \
        f"take `{rest}` away, or write it in a line of its own."
    return Report("TOML: a line has one key and its value, and more stands here", cure, rule,
                  text.span(at, at + len(rest))) \
        .by(*[text.edit(at, at, "# ")] if is_comment else [])


def twice(text: Text, start: int, line: str, rule: str) -> Report:
    """The report on a line whose key or table is there before."""
    table = re.match(r"\s*\[\[?\s*(unit|bus)\s*\]", line)
    if table:
        single = re.search(rf"(?m)^[ \t]*\[{table[1]}\]", text.chars)
        place = single.start() if single else start
        report = Report(f"TOML: `{table[1]}` is a list of tables", f"write `[[{table[1]}]]` with two brackets.", rule,
                        text.span(place, place + len(single[0]) if single else start + len(line)))
        return report.by(*[text.edit(place, place + len(single[0]), f"[[{table[1]}]]")] if single else [])
    key = (re.match(r"\s*([\w.-]+)\s*=", line) or [None, "this key"])[1]
    return Report(f"TOML: `{key}` is there twice", "take one of the two away.", rule,
                  text.span(start, start + len(line.rstrip())))


def kind_of(unit: Tree) -> str | None:
    """The kind of a unit's table, or nothing where it is no text."""
    return unit["kind"] if isinstance(unit.get("kind"), str) else None


def ports_of(unit: Tree) -> int | None:
    """How many ports a unit has by the kind in its table, or nothing where that is none."""
    return PORTS.get(kind_of(unit) or "")


class Judge:
    """A datapath file in which a table has a fault."""

    def __init__(self, text: Text, tree: Tree, case: Case) -> None:
        self.text, self.tree = text, tree
        self.places = Places(text.chars)
        self.fault = case.refusal.text.partition(": ")[2]
        kind, _, number = case.values["table"].partition(" ")
        self.place = (kind, int(number or 0))
        self.table = tree if kind == "top" else tree[kind][self.place[1]]
        units = tree.get("unit")
        self.units = {unit["name"]: unit for unit in (units if isinstance(units, list) else [])
                      if isinstance(unit, dict) and isinstance(unit.get("name"), str)}

    def title(self) -> str:
        kind, number = self.place
        if kind == "top":
            return "the top table"
        name = self.table.get("name") if isinstance(self.table, dict) else None
        return f"the {kind} `{name}`" if isinstance(name, str) else f"{kind} {number} (the first one is 0)"

    def span(self, place: Extent | None) -> Span | None:
        if place is None:
            return None
        return self.text.span(*place)

    def made(self, short: str, cure: str, place: Extent | None) -> Report:
        report = Report(short, cure, SECTION[self.place[0]], self.span(place), about=self.text.name)
        return report

    def edits(self, place: Extent | None, text: str | None) -> list[Edit]:
        """The edit of what stands at a place, where that is known to be the whole of it."""
        return [self.text.edit(*place, text)] if place and text is not None else []

    def exact(self, key: str, item: Item | None = None) -> Extent | None:
        """The place of a value, or of one text in it; nothing where the table is written in another way than a key a
        line."""
        return self.places.value(self.place, key, item) if (self.place, key) in self.places.entries else None

    def without(self, key: str) -> list[Edit]:
        """The edit by which the line of a key goes, where it has one to itself."""
        entry = self.places.entries.get((self.place, key))
        if entry is None:
            return []
        start, end = entry.key[0], entry.value[1]
        is_alone = self.text.chars[:start].endswith("\n") and self.text.chars[end:end + 1] == "\n"
        return [self.text.edit(start, end + 1, "")] if is_alone else []

    def report(self) -> Report:
        return sure({"unknown key": self.unknown_key, "missing key": self.missing_key, "wrong kind": self.wrong_kind,
                     "out of range": self.out_of_range, "unknown unit": self.unknown_unit,
                     "unknown port": self.unknown_port, "named twice": self.named_twice}[self.fault]())

    def keys(self) -> list[str]:
        kind = self.place[0]
        if kind == "top":
            return [*TOP, *TABLES]
        if kind == "bus":
            return list(BUS)
        own = kind_of(self.table)
        return [key for key in UNIT if key not in ("cells", "ram") or own not in PORTS
                or (key, own) in (("cells", "ram"), ("ram", "acu"))]

    def unknown_key(self) -> Report:
        known = self.keys()
        key = next(key for key in self.table if key not in known)
        place = self.places.key(self.place, key)
        own = kind_of(self.table)
        if key in UNIT and self.place[0] == "unit":
            return self.made(f"{self.title()} is of the kind `{own}`, which has no `{key}`", f"take `{key}` away.",
                             place) \
                .by(*self.without(key))
        if self.place[0] == "top" and key in (*UNIT, *BUS):
            return self.made(f"`{key}` belongs to a unit or a bus", "write it after `[[unit]]` or `[[bus]]`.", place)
        if self.place[0] != "top" and key in (*TOP, *TABLES):
            return self.made(f"`{key}` belongs to the top table, and stands in {self.title()}",
                             "write it before the first `[[unit]]`.", place)
        # A key that is there already can't be the one that was meant.
        if isinstance(self.table[key], list) and self.place[0] == "top":
            return self.other_table(key)
        near = difflib.get_close_matches(key.lower(), [word for word in known if word not in self.table], 1, 0.5)
        lacking = [word for word in self.required() if word not in self.table]
        if not near and len(lacking) == 1 and self.is_of_kind(lacking[0], self.table[key]):
            near = lacking
        entry = self.places.entries.get((self.place, key))
        return self.made(f"{self.title()} has no key `{key}`", f"write `{near[0]}`." if near else "take it away.",
                         place) \
            .note(f"The keys are {listed([f'`{word}`' for word in known])}.") \
            .by(*(self.edits(entry.key if entry else None, near[0]) if near else self.without(key)))

    def other_table(self, key: str) -> Report:
        """The report on tables that are neither units nor buses."""
        near = difflib.get_close_matches(key.lower(), ("unit", "bus"), 1, 0.5)
        headers = [place for (kind, _), place in self.places.headers.items() if kind == key]
        return self.made(f"the tables are `[[unit]]` and `[[bus]]`, and `{key}` is none of them",
                         f"write `[[{near[0]}]]` in the place of `[[{key}]]`." if near else "take it away.",
                         headers[0] if headers else None) \
            .by(*[self.text.edit(*place, f"[[{near[0]}]]") for place in headers] if near else [])

    def required(self) -> list[str]:
        kind = self.place[0]
        if kind == "top":
            return ["period", "word", "unit", "bus"]
        if kind == "bus":
            return list(BUS)
        own = kind_of(self.table)
        made = ["name", "kind"]
        if ports_of(self.table):
            made.append("files")
        return made + (["cells"] if own == "ram" else ["ram"] if own == "acu" else [])

    def example(self, key: str) -> str:
        """A line for a key that is missing, with names that are there."""
        if key == "files":
            return f"files = [{', '.join(['4'] * PORTS[self.table['kind']])}]"
        if key == "ram" and self.unit_names("ram"):
            return f'ram = "{self.unit_names("ram")[0]}"'
        if key == "name":
            if self.place[0] == "unit" and (lacking := self.lacking_name()):
                return f'name = "{lacking}"'
            taken = {table.get("name") for table in self.tree[self.place[0]] if isinstance(table, dict)}
            return next(f'name = "{name}"' for number in range(self.place[1], 99)
                        if (name := f"{self.place[0]}{number}") not in taken)
        if key == "from" and self.unit_names():
            return f'from = ["{self.unit_names()[0]}"]'
        ports = [name for name in self.unit_names() if ports_of(self.units[name])]
        return f'to = ["{ports[0]}.0"]' if key == "to" and ports else EXAMPLE[key]

    def lacking_name(self) -> str | None:
        """The one name that buses have and that no unit has; nothing where there are several or none."""
        buses = [bus for bus in self.tree.get("bus", []) if isinstance(bus, dict)]
        ends = [str(end).partition(".")[0] for bus in buses for key in ("from", "to") for end in bus.get(key, [])]
        lacking = {name for name in ends if name not in self.units and NAME.fullmatch(name)}
        return lacking.pop() if len(lacking) == 1 else None

    def missing_key(self) -> Report:
        key = next(key for key in self.required() if key not in self.table)
        why = f", the registers at its {counted(PORTS[self.table['kind']], 'port')}" if key == "files" else ""
        header = self.places.headers.get(self.place)
        report = self.made(f"{self.title()} has no `{key}`{why}", f"write `{self.example(key)}`.", header)
        if key in ("files", "ram", "name") and header:
            end = (self.text.chars.find("\n", header[1]) + 1) or len(self.text.chars)
            lead = "" if self.text.chars[:end].endswith("\n") else "\n"
            report.by(self.text.edit(end, end, f"{lead}{self.example(key)}\n"))
        if key == "kind":
            report.cure = f"write `{self.example(key)}`, or another one of {listed([f'`{kind}`' for kind in PORTS])}."
        elif key in ("unit", "bus"):
            report.cure = f"write a table `[[{key}]]` with its keys."
        elif self.place[0] == "top":
            report.cure = f"write `{self.example(key)}` at the top, with a number from {TOP[key][0]} to {TOP[key][1]}."
            for table, place in self.places.elsewhere(key, self.place)[:1]:
                report.cure = f"move `{key}` up, to before the first `[[..]]`."
                report.note(f"`{key}` stands here, among the keys of a `[[{table[0]}]]`.", self.span(place))
                report.by(*self.moved_up(table, key))
        return report

    def moved_up(self, table: TablePlace, key: str) -> list[Edit]:
        """The edits by which the line of a key of another table comes to the beginning of the file."""
        own, self.place = self.place, table
        out = self.without(key)
        self.place = own
        start, end = self.places.entries[table, key].value
        line = f"{key} = {self.text.chars[start:end]}\n"
        return [self.text.edit(self.places.start, self.places.start, line), *out] if out and line.isascii() else []

    def number_range(self, key: str) -> tuple[int, int]:
        if self.place[0] == "top":
            return TOP[key]
        latency = self.table.get("latency", 1)
        return {"latency": (1, 8), "gap": (1, latency if isinstance(latency, int) else 8), "cells": (1, 65536)}[key]

    def wanted(self, key: str) -> str:
        """What a key may have, in words."""
        if key in ("unit", "bus"):
            return f"1 to {MOST_TABLES} tables `[[{key}]]`"
        if key in ("from", "to", "files"):
            return {"from": "a list of names of units", "to": "a list of texts UNIT.PORT",
                    "files": "a list of whole numbers, 1 to 256 each, one for each port"}[key]
        if key == "kind":
            return "a text: " + listed([f'"{kind}"' for kind in PORTS], "or")
        if key in ("name", "ram"):
            return "a text of 1 to 32 letters, digits and `_`"
        low, high = self.number_range(key)
        return f"a whole number, {low} to {high}"

    def is_of_kind(self, key: str, value: Any) -> bool:
        if key in ("unit", "bus"):
            return isinstance(value, list) and all(isinstance(part, dict) for part in value)
        if key in ("from", "to"):
            return isinstance(value, list) and all(isinstance(part, str) for part in value)
        if key == "files":
            return isinstance(value, list) and all(type(part) is int for part in value)
        return isinstance(value, str) if key in ("name", "kind", "ram") else type(value) is int

    def shown(self, key: str) -> str:
        start, end = self.places.value(self.place, key) or (0, 0)
        return " ".join(self.text.chars[start:end].split())

    def wrong_kind(self) -> Report:
        key = next(key for key in self.keys() if key in self.table and not self.is_of_kind(key, self.table[key]))
        cure, written = self.right_kind(key, self.table[key])
        return self.made(f"`{key}` of {self.title()} is {self.wanted(key)}, and not {self.shown(key) or 'this'}", cure,
                         self.places.value(self.place, key) or self.places.headers.get((key, 0))) \
            .by(*self.edits(self.exact(key), written))

    def right_kind(self, key: str, value: Any) -> tuple[str, str | None]:
        """The cure for a value of another kind, in words, and what is written in its place, where that is sure."""
        shown = self.shown(key)
        if isinstance(value, str) and value.isdecimal() and self.is_of_kind(key, int(value)):
            return f"write {value} without quotes.", value
        if isinstance(value, float) and value % 1 == 0 and self.is_of_kind(key, int(value)):
            return f"write {int(value)}, a whole number.", str(int(value))
        if key in ("from", "to", "files") and self.is_of_kind(key, [value]):
            return f"write a list, as `{key} = [{shown}]`.", f"[{shown}]"
        if isinstance(value, list) and len(value) == 1 and self.is_of_kind(key, value[0]) and "#" not in shown:
            return f"write {shown.strip('[] ,')} without brackets.", shown.strip("[] ,")
        if key == "files" and isinstance(value, list) and all(str(size).isdecimal() for size in value):
            written = f"[{', '.join(map(str, value))}]"
            return f"write `files = {written}`.", written
        if isinstance(value, dict) and key in ("unit", "bus"):
            return f"write `[[{key}]]` with two brackets.", None
        if isinstance(value, int) and key in ("name", "ram"):
            return f"write it in quotes, as `{key} = \"{shown}\"`.", f'"{shown}"'
        return f"write {self.wanted(key)}.", None

    def is_in_range(self, key: str, value: Any) -> bool:
        if key in ("unit", "bus"):
            return 1 <= len(value) <= MOST_TABLES
        if key == "from":
            return True
        if key == "to":
            return self.entries_before() + len(value) <= MOST_ENTRIES
        if key == "files":
            return len(value) == PORTS[self.table["kind"]] and all(1 <= size <= 256 for size in value)
        if key == "kind":
            return value in PORTS
        if key == "name":
            return bool(NAME.fullmatch(value))
        if key == "ram":
            return True
        low, high = self.number_range(key)
        return low <= value <= high

    def entries_before(self) -> int:
        return sum(len(bus["to"]) for bus in self.tree["bus"][:self.place[1]])

    def out_of_range(self) -> Report:
        key = next((key for key in self.keys() if key in self.table and not self.is_in_range(key, self.table[key])),
                   None)
        if key is None:
            # A version of silc with a shorter range than this page has.
            key = "hold"
            return self.made(f"`hold` of the top table is 0 in this version, and not {self.shown(key)}",
                             "write `hold = 0`.", self.places.value(self.place, key))
        value, place = self.table[key], self.places.value(self.place, key)
        if key == "kind":
            return self.bad_kind(value, place)
        if key == "files":
            return self.bad_files(value, place)
        if key == "name":
            return self.made(f"a name has 1 to 32 letters, digits and `_`, and {self.shown(key)} is none",
                             f"write a name like `{re.sub(r'[^A-Za-z0-9_]', '_', value)[:32] or 'add'}`.", place)
        if key == "to":
            return self.made(f"all buses together have at most {MOST_ENTRIES} ports, and this is the bus with the next "
                             f"one", "take ports away that are not needed.", place)
        if key in ("unit", "bus"):
            return self.made(f"there are {counted(len(value), key, 'units' if key == 'unit' else 'buses')}, and "
                             f"{self.wanted(key)} are wanted", f"have {self.wanted(key)}.", place)
        low, high = self.number_range(key)
        note = " The gap is at most the latency." if key == "gap" else ""
        return self.made(f"`{key}` of {self.title()} is {low} to {high}, and not {self.shown(key)}",
                         f"write a number from {low} to {high}.{note}", place)

    def bad_kind(self, value: str, place: Extent | None) -> Report:
        near = difflib.get_close_matches(value.lower(), PORTS, 1, 0.5)
        synonyms = {"adder": "alu", "add": "alu", "multiplier": "mul", "mult": "mul", "input": "in", "output": "out",
                    "memory": "ram",
                    "selector": "sel", "mux": "sel", "constant": "rom", "const": "rom", "agu": "acu"}
        kind = synonyms.get(value.lower()) or (near[0] if near else None)
        cure = f'write `kind = "{kind}"`, which does {DONE_BY[kind]}.' if kind else f"write {self.wanted('kind')}."
        return self.made(f"no kind is called `{value}`", cure,
                         place).by(*self.edits(self.exact("kind") if kind else None, f'"{kind}"')) \
            .note("The kinds are " + listed([f"`{name}` ({what})" for name, what in DONE_BY.items()]) + ".")

    def bad_files(self, value: list[int], place: Extent | None) -> Report:
        ports = PORTS[self.table["kind"]]
        if not ports:
            return self.made(f"{self.title()} is of the kind `{self.table['kind']}`, which has no ports, and `files` "
                             f"has "
                             f"{counted(len(value), 'number')}", "take `files` away.", place).by(*self.without("files"))
        if len(value) != ports:
            written = f"[{', '.join(map(str, (value + [4] * ports)[:ports]))}]"
            return self.made(f"{self.title()} has {counted(ports, 'port')}, and `files` "
                             f"{counted(len(value), 'number')}",
                             f"write one number for each port: `files = {written}`.",
                             place).by(*self.edits(self.exact("files"), written))
        size = next(size for size in value if not 1 <= size <= 256)
        return self.made(f"a file has 1 to 256 registers, and not {size}", "write a number from 1 to 256.", place)

    def unit_names(self, kind: str | None = None) -> list[str]:
        return [name for name, unit in self.units.items() if isinstance(name, str) and kind in (None, unit.get("kind"))]

    def unknown_unit(self) -> Report | None:
        if self.place[0] == "unit":
            name = self.table["ram"]
            place = self.places.value(self.place, "ram")
            rams = self.unit_names("ram")
            if name in self.units:
                short = f"`{name}` is of the kind `{self.units[name].get('kind')}`, and an acu addresses a ram"
            else:
                short = f"no unit is called `{name}`"
            if len(rams) == 1 and name not in self.units and self.is_misspelt(rams[0], name):
                return self.other_name(rams[0], name)
            return self.made(short, f"write the name of a ram: {listed([f'`{ram}`' for ram in rams], 'or')}." if rams
                             else "add a unit of the kind `ram`.", place) \
                .by(*self.edits(self.exact("ram"), f'"{rams[0]}"') if len(rams) == 1 else [])
        for key in ("from", "to"):
            for number, end in enumerate(self.table[key]):
                name = end.rpartition(".")[0] if key == "to" else end
                if name not in self.units and (key == "from" or "." in end):
                    return self.no_unit(key, number, end, name)
        return None

    def is_misspelt(self, unit: str, name: str) -> bool:
        """Whether it is rather the unit's own name that is wrong: nothing names it, and several ends have the other
        name."""
        ends = [end for bus in self.tree["bus"] for key in ("from", "to") for end in bus[key]]
        named = [end.partition(".")[0] for end in ends] + [other.get("ram") for other in self.units.values()]
        return unit not in named and named.count(name) > 1

    def other_name(self, unit: str, name: str) -> Report:
        """The report on the name of a unit that nothing names, where another one is named that is not there."""
        place = ("unit", next(number for number, other in enumerate(self.tree["unit"]) if other.get("name") == unit))
        span = self.places.value(place, "name") if (place, "name") in self.places.entries else None
        return self.made(f"no unit is called `{name}`, and none of the buses names the unit `{unit}`",
                         f"write `name = \"{name}\"` in the place of `name = \"{unit}\"`.",
                         span).by(*self.edits(span, f'"{name}"'))

    def ports(self) -> list[str]:
        """The ports of all units, as `add.0`."""
        return [f"{name}.{port}" for name, unit in self.units.items() for port in range(ports_of(unit) or 0)]

    def no_unit(self, key: str, number: int, end: str, name: str) -> Report:
        item = (self.table[key][:number].count(end), end)
        rest = end[len(name):] if key == "to" else ""
        ends = self.ports() if key == "to" else self.unit_names()
        # An end that the bus has already would be there twice.
        fit = [unit for unit in self.unit_names() if unit + rest in ends and unit + rest not in self.table[key]]
        lower = {unit.lower(): unit for unit in fit}
        near = [lower[unit] for unit in difflib.get_close_matches(name.lower(), lower, 1, 0.4)]
        if near and self.is_misspelt(near[0], name):
            return self.other_name(near[0], name)
        return self.made(f"no unit is called `{name}`",
                         f"write `{near[0]}`." if near else "write the name of a unit, or take it away.",
                         self.places.value(self.place, key, item)) \
            .note("The units are " + listed([f"`{unit}`" for unit in self.unit_names()]) + ".") \
            .by(*self.edits(self.exact(key, item), f'"{near[0]}{rest}"') if near else [])

    def unknown_port(self) -> Report | None:
        for number, end in enumerate(self.table["to"]):
            name, dot, port = end.rpartition(".")
            ports = ports_of(self.units.get(name, {})) or 0
            if not dot or not (len(port) == 1 and port.isdecimal() and int(port) < ports):
                place = self.places.value(self.place, "to", (self.table["to"][:number].count(end), end))
                return self.no_port(end, name, dot, ports, place)
        return None

    def no_port(self, end: str, name: str, dot: str, ports: int, place: Extent | None) -> Report:
        if not dot:
            count = ports_of(self.units.get(end, {}))
            cure = "write UNIT.PORT, as `add.0`."
            if count:
                cure = f"write {listed([f'`{end}.{port}`' for port in range(count)], 'or')}."
            elif count == 0:
                cure = "take it away: this unit has no ports, and can only drive a bus, by `from`."
            return self.made(f"`{end}` names a unit, and a bus is written to ports", cure, place)
        if ports == 0:
            return self.made(f"the unit `{name}` has no ports", "take it away: it can only drive a bus, by `from`.",
                             place)
        return self.made(f"the unit `{name}` has {counted(ports, 'port')}, and no `{end}`",
                         f"write {listed([f'`{name}.{port}`' for port in range(ports)], 'or')}.", place)

    def named_twice(self) -> Report:
        kind, number = self.place
        for key in ("from", "to") if kind == "bus" else ():
            ends = self.table[key]
            twice = next((n for n, end in enumerate(ends) if end in ends[:n]), None)
            if twice is not None:
                return self.made(f"{self.title()} names `{ends[twice]}` twice in `{key}`", "take one of the two away.",
                                 self.places.value(self.place, key, (1, ends[twice])))
        name = self.table["name"]
        first = next(n for n, other in enumerate(self.tree[kind]) if other.get("name") == name)
        report = self.made(f"two {'units' if kind == 'unit' else 'buses'} are called `{name}`",
                           "give one of them another name.",
                           self.places.value(self.place, "name"))
        span = self.span(self.places.value((kind, first), "name"))
        return report.note("This is the other one.", span) if span else report
