"""Why a net is refused, at the key of its file or at the wire."""
import difflib
import subprocess
from collections.abc import Callable, Sequence
from typing import Any

from silc.explaining.command import SECONDS, Case
from silc.explaining.of_datapath import no_toml
from silc.explaining.refusals import nets
from silc.explaining.report import Report, counted, listed
from silc.explaining.text import Text
from silc.explaining.toml_places import Extent, Places, TablePlace
from silc.nets import (MOST_BYTES, MOST_PROCESSORS, MOST_ROWS, MOST_WORDS, TOP, Misfit, NetFile, Ports, Wire, a_table,
                       array_within, declared_ports, file_name, net_file_of, tree_of, whole, wire_to)

FILE, JOINTS = nets("The net file"), nets("What is refused")
TOP_KEYS, PROC_KEYS = ("inputs", "capacity", "proc"), ("src", "dp", "feed")
# What each key may have, in words, and a line that has it.
WANTED = {"inputs": f"a whole number, 1 to {MOST_WORDS}", "capacity": f"a whole number, 1 to {MOST_ROWS}",
          "proc": f"1 to {MOST_PROCESSORS} tables `[[proc]]`", "src": "a text, the name of a source",
          "dp": "a text, the name of a datapath file", "feed": f"a list of 1 to {MOST_WORDS} wires, as `in.0` or `0.1`"}
EXAMPLE = {"inputs": "inputs = 1", "proc": "[[proc]]", "src": 'src = "filter.sil"', "dp": 'dp = "processor.toml"',
           "feed": 'feed = ["in.0"]'}
# The statuses at which a source or its plan is refused.
PLANS = range(4, 10)


def processor_case(case: Case) -> Case | None:
    """The first processor whose program has no plan, as a case of its own; nothing where each has one."""
    net = net_file_of(case.text("NET").data)
    for processor in net.processors:
        words = ["schedule", processor.src, processor.dp]
        done = subprocess.run([case.silc, *words], stdin=subprocess.DEVNULL, capture_output=True, text=True,
                              timeout=SECONDS)
        if done.returncode:
            return Case(words, done.returncode, done.stderr, case.silc, case.datapath, case.is_quiet)
    return None


def report_of(case: Case) -> Report | None:
    text, what = case.text("NET"), case.known.text if case.known else ""
    if what == "net too long":
        return Report(f"the file has {len(text.data)} bytes, and at most {MOST_BYTES} are read", "take out comments.",
                      FILE, about=text.name)
    if what == "net is not TOML":
        return no_toml(text)
    if "table" in case.values:
        return Table(text, case.values["table"]).report(what.partition(": ")[2])
    net, places = net_file_of(text.data), Places(text.chars)
    if what.startswith("net input"):
        return unread(text, places, net, int(case.values["word"]))
    if what.startswith("net output"):
        return overwritten(case, text, places, net, int(case.values["k"]))
    ports = [declared_ports(processor.src) for processor in net.processors]
    if what.startswith("wrong feeds"):
        return miscounted(text, places, net, ports, int(case.values["k"]))
    return unfit(text, places, net, ports, int(case.values["k"]), int(case.values["word"]))


class Table:
    """A table of a net file that has a fault."""

    def __init__(self, text: Text, section: str) -> None:
        tree = tree_of(text.data)
        self.text, self.places, self.is_top = text, Places(text.chars), section == TOP
        self.number = 0 if self.is_top else int(section.partition(" ")[2])
        self.place: TablePlace = (TOP, 0) if self.is_top else ("proc", self.number)
        self.entries: dict[str, Any] = tree if self.is_top else tree["proc"][self.number]
        self.inputs: int = 0 if self.is_top else tree["inputs"]
        self.keys = TOP_KEYS if self.is_top else PROC_KEYS
        self.title = "the top table" if self.is_top else f"processor {self.number} (the first one is 0)"

    def report(self, fault: str) -> Report:
        if fault == "unknown key":
            return self.unknown()
        if fault == "missing key":
            return self.missing()
        return self.misfit(fault)

    def made(self, short: str, cure: str, place: Extent | None) -> Report:
        return Report(short, cure, FILE, self.text.span(*place) if place else None, about=self.text.name)

    def unknown(self) -> Report:
        key = next(key for key in self.entries if key not in self.keys)
        others = PROC_KEYS if self.is_top else TOP_KEYS
        near = difflib.get_close_matches(key.lower(), [one for one in self.keys if one not in self.entries], 1, 0.5)
        cure = f"write `{near[0]}`." if near else "take it away."
        if key in others:
            cure = "write it after `[[proc]]`." if self.is_top else "write it before the first `[[proc]]`."
        return self.made(f"{self.title} has no key `{key}`", cure, self.places.key(self.place, key)) \
            .note(f"The keys are {listed([f'`{one}`' for one in self.keys])}.")

    def missing(self) -> Report:
        key = next(key for key in self.keys if key not in self.entries and key in EXAMPLE)
        report = self.made(f"{self.title} has no `{key}`", f"write `{EXAMPLE[key]}`, with {WANTED[key]}.",
                           self.places.headers.get(self.place))
        if key == "proc":
            report.cure = f"write a table `[[proc]]` with its keys {listed([f'`{one}`' for one in PROC_KEYS])}."
        elif self.is_top:
            report.cure = f"write `{EXAMPLE[key]}` at the top, with {WANTED[key]}."
            for _, place in self.places.elsewhere(key, self.place)[:1]:
                report.cure = f"move `{key}` up, to before the first `[[proc]]`."
                report.note(f"`{key}` stands here, among the keys of a `[[proc]]`.", self.text.span(*place))
        return report

    def judges(self) -> dict[str, Callable[[Any], Any]]:
        if self.is_top:
            return {"inputs": whole(MOST_WORDS), "capacity": whole(MOST_ROWS),
                    "proc": array_within(MOST_PROCESSORS, a_table)}
        return {"src": file_name, "dp": file_name, "feed": array_within(MOST_WORDS, wire_to(self.inputs, self.number))}

    def misfit(self, fault: str) -> Report:
        key = next(key for key, judge in self.judges().items() if key in self.entries
                   and misfits(judge, self.entries[key]))
        value, place = self.entries[key], self.places.value(self.place, key) or self.places.headers.get((key, 0))
        if key == "feed" and isinstance(value, list) and fault == "out of range":
            return self.bad_wire(value, place)
        shown = " ".join(self.text.chars[slice(*place)].split()) if place else "this"
        cure = f"write {WANTED[key]}."
        if key == "proc" and isinstance(value, dict):
            cure = "write `[[proc]]` with two brackets."
        elif key == "feed" and isinstance(value, str):
            cure = f"write a list, as `feed = [\"{value}\"]`."
        elif isinstance(value, str) and value.isdecimal():
            cure = f"write {value} without quotes."
        return self.made(f"`{key}` of {self.title} is {WANTED[key]}, and not {shown}", cure, place)

    def bad_wire(self, feed: list[Any], place: Extent | None) -> Report:
        """The report on the first wire of a feed that leads from nowhere, or on their count."""
        judge = wire_to(self.inputs, self.number)
        wrong = next((wire for wire in feed if misfits(judge, wire)), None)
        if wrong is None:
            return self.made(f"`feed` of {self.title} has {counted(len(feed), 'wire')}, and is {WANTED['feed']}",
                             "write a wire for each input word of the program.", place)
        at = self.places.value(self.place, "feed", (0, wrong)) or place
        sources = [f"`in.0` to `in.{self.inputs - 1}`" if self.inputs > 1 else "`in.0`"]
        sources += [f"`{number}.0` to `{number}.{MOST_WORDS - 1}`" for number in range(self.number)]
        why = f"no word of the net's row or of a processor before this one is called `{wrong}`"
        return self.made(why, f"write {listed(sources, 'or')}.", at) \
            .note("A wire leads from the net's row, `in.J`, or from word J of a processor of a smaller number, `Q.J`.")


def misfits(judge: Callable[[Any], Any], value: Any) -> bool:
    try:
        judge(value)
    except Misfit:
        return True
    return False


# A net whose file is well formed


def unread(text: Text, places: Places, net: NetFile, word: int) -> Report:
    place = places.value((TOP, 0), "inputs")
    fewer = f", or write `inputs = {word}`" if word and all(
        wire.word < word for _, _, wire in net.wires() if wire.processor is None) else ""
    return Report(f"the net's row has {counted(net.inputs, 'word')}, and no processor reads word {word}",
                  f"write `in.{word}` into a `feed`{fewer}.", JOINTS, text.span(*place) if place else None,
                  about=text.name)


def overwritten(case: Case, text: Text, places: Places, net: NetFile, number: int) -> Report:
    out = case.files["OUT"]
    key = "src" if net.processors[number].src == out else "dp"
    place = places.value(("proc", number), key)
    return Report(f"OUT is {out}, which is `{key}` of processor {number} too, and would be written over",
                  "give OUT another name.", JOINTS, text.span(*place) if place else None, about=text.name)


def miscounted(text: Text, places: Places, net: NetFile, ports: Sequence[Ports], number: int) -> Report:
    processor, taken = net.processors[number], ports[number].inputs
    place = places.value(("proc", number), "feed")
    names = [f"`{port}`" for port in taken]
    return Report(f"{processor.src} has {counted(len(taken), 'input word')}, and here "
                  f"{counted(len(processor.feed), 'wire')}",
                  f"write {counted(len(taken), 'wire')}, for {listed(names)}.", JOINTS,
                  text.span(*place) if place else None, about=text.name)


def unfit(text: Text, places: Places, net: NetFile, ports: Sequence[Ports], number: int, word: int) -> Report:
    wire, own = net.processors[number].feed[word], ports[number].inputs[word]
    before = sum(one == wire for one in net.processors[number].feed[:word])
    place = places.value(("proc", number), "feed", (before, str(wire)))
    span = text.span(*place) if place else None
    if wire.processor is not None and wire.word >= len(ports[wire.processor].outputs):
        source = net.processors[wire.processor].src
        names = [f"`{wire.processor}.{place}` ({port})" for place, port in enumerate(ports[wire.processor].outputs)]
        return Report(f"{source} has no output word {wire.word}", f"write {listed(names, 'or')}.", JOINTS, span)
    brought = f"`{wire}` is {brought_by(net, ports, wire)}"
    cure = "bring a word of this type."
    if wire.processor is not None and own.type.shape:
        cure = (f"let the program that puts it put a word of this type, as by a cast `{own.type}(..)`, or take one of "
                "that type.")
    return Report(f"{brought}, and the input word of {net.processors[number].src} is `{own}`", cure, JOINTS, span)


def brought_by(net: NetFile, ports: Sequence[Ports], wire: Wire) -> str:
    """The word that a wire brings, in words."""
    if wire.processor is not None:
        return f"`{ports[wire.processor].outputs[wire.word]}` of {net.processors[wire.processor].src}"
    number, word = next((number, word) for number, word, one in net.wires() if one == wire)
    return (f"`{ports[number].inputs[word].type}`, as `{ports[number].inputs[word].name}` of "
            f"{net.processors[number].src} has it")
