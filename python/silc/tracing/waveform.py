"""A waveform of a run, as a file of value changes (VCD, IEEE 1364, with texts as GTKWave and Surfer have them)."""
from __future__ import annotations

from collections.abc import Iterable, Iterator, Sequence
from dataclasses import dataclass, field
from typing import IO, Any, TypeAlias

from silc.hardware.datapath import Names
from silc.micro_file.image import Image
from silc.micro_file.operations import OPCODE
from silc.tracing.signals import WORD_BITS, Key, Signal, Signals, first_value
from silc.tracing.trace import BECOMES, Cycle, Layout

# A cycle takes one unit of this.
UNIT_OF_TIME = "1 ns"
TOP = "silc"
CELL = "cell"
# Of how many words the digits are kept.
MOST_KEPT = 1 << 17
ALL_BITS = (1 << WORD_BITS) - 1
# A signal that has the word of a line: its key, that line, that of the cycle before, and the text that stands before
# it.
Placed: TypeAlias = tuple[Key, int, int | None, str]
# What is written: its line, the code of its signal, the end of that signal's line, and the ram where it is a cell.
Store: TypeAlias = tuple[int, str, str, int | None]


class Digits(dict):
    """The beginning of the line by which a signal has a word, by the text of the word."""

    def __missing__(self, word: str) -> str:
        if len(self) > MOST_KEPT:
            self.clear()
        self[word] = made = f"b{int(word) & ALL_BITS:b} "
        return made


class Step:
    """What changes from a cycle to the next one, by their layouts. None stands for the time before the first cycle and
    for that after the last one."""

    def __init__(self, image: Image, signals: Signals, before: Layout | None, now: Layout | None) -> None:
        self.signals = signals
        self.texts: list[str] = []
        places: list[Placed] = []
        self.put("strobe", *(int(layout is not None and layout.word % image.period == 0) for layout in (before, now)))
        self.strobe = self.text()
        if now:
            self.put("word", before.word if before else 0, now.word)
            self.put("conflict", None, now.conflict and now.conflict.replace(" ", "_"))
        issues, carried, results = zip(*map(said_by, (before, now)))
        for unit in range(len(image.units)):
            operations = [of.get(unit) for of in issues]
            self.put(("operation", unit), *operations)
            self.put(("opcode", unit), *map(OPCODE.get, operations))
            self.put_word(("result", unit), [of.get(unit) for of in results], places)
        for bus in range(image.buses):
            self.put_word(("bus", bus), [of.get(bus) for of in carried], places)
        self.set_words(places)

    def set_words(self, places: list[Placed]) -> None:
        """Sets the text before the first word, and of each word its line in this cycle, that of the cycle before, where
        there was one, and what comes after the word; or after no word, where both are one."""
        texts = [text for *_, text in places] + [self.text()]
        self.first = texts[0]
        self.words: list[tuple[int, int | None, str, str]] = []
        for (key, now, before, _), text in zip(places, texts[1:]):
            self.words.append((now, before, f"{self.signals.of(key).code}\n{text}", text))

    def put(self, key: Key, before: Any, now: Any) -> None:
        """A signal that has another value from now on, or the same."""
        if before != now:
            self.texts.append(self.signals.of(key).change(now) + "\n")

    def put_word(self, key: Key, lines: Sequence[int | None], places: list[Placed]) -> None:
        """A signal that has the word of a line from now on, or none; its lines before and now."""
        before, now = lines
        if now is None:
            self.put(key, before, None)
        else:
            places.append((key, now, before, self.text()))

    def text(self) -> str:
        """What was put since this was asked for."""
        made, self.texts = "".join(self.texts), []
        return made


def said_by(layout: Layout | None) -> tuple[dict, dict, dict]:
    """The operation of each unit, and the lines of the words of buses and of the units that drive them."""
    if layout is None:
        return {}, {}, {}
    return (layout.issues, {bus: line for bus, (_, line) in layout.buses.items()}, dict(layout.buses.values()))


class Waveform:
    """The changes of the signals of a run, written to a file as the cycles come."""

    def __init__(self, image: Image, names: Names, changes: IO[str]) -> None:
        self.image, self.signals, self.file = image, Signals(image, names), changes
        self.digits = Digits()
        self.steps: dict[tuple[Layout | None, Layout | None], Step] = {}
        self.stores: dict[Layout, list[Store]] = {}
        # What registers, cells and latches hold, as texts by the codes of their signals, and what they held before the
        # first cycle that is shown.
        self.held: dict[str, str] = {}
        self.first: dict[str, str] = {}
        # Of the last cycle its layout, its words and its number, the sample, and what was written.
        self.layout: Layout | None = None
        self.words: list[str] = []
        self.last: int | None = None
        self.sample = "0"
        self.written: list[str] = []
        # The first cycle that is shown.
        self.began: int | None = None

    def pass_by(self, cycles: Iterable[Cycle]) -> None:
        """Writes what cycles write that are not shown."""
        for _, _, layout, words in cycles:
            self.write(layout, words)

    def add(self, cycles: Iterable[Cycle]) -> None:
        """Shows cycles, one after another; what one writes is there from the next one on."""
        digits, steps, last, before, made = self.digits, self.steps, self.layout, self.words, self.written
        shown: list[str] = []
        number, is_first = self.last, self.last is None
        for number, sample, layout, words in cycles:
            step = steps.get((last, layout)) or self.step(last, layout)
            made.append(step.strobe)
            if sample != self.sample:
                made.append(self.of_sample(sample))
            made.append(step.first)
            for line, was, end, without in step.words:
                word = words[line]
                if was is None or before[was] != word:
                    made += digits[word], end
                else:
                    made.append(without)
            if any(made):
                shown.append(f"#{number}\n")
                shown += made
            last, before = layout, words
            made = self.write(layout, words)
        self.layout, self.words, self.written, self.last = last, before, made, number
        # The time of the first one is in the head.
        self.file.write("".join(shown[is_first:]))

    def begin(self, number: int) -> None:
        """Begins to show cycles, with that of this number."""
        self.began, self.first = number, dict(self.held)

    def of_sample(self, sample: str) -> str:
        self.sample = sample
        return self.signals.of("sample").change(int(sample)) + "\n"

    def end(self) -> None:
        """Ends the last cycle."""
        if self.last is not None:
            step = self.step(self.layout, None)
            text = "".join([*self.written, step.strobe, step.first])
            self.file.write(f"#{self.last + 1}\n{text}")

    def step(self, before: Layout | None, now: Layout | None) -> Step:
        made = self.steps[before, now] = Step(self.image, self.signals, before, now)
        return made

    # What is written

    def write(self, layout: Layout, words: list[str]) -> list[str]:
        """Writes what a cycle writes. Gives the lines of what is another word by that, in parts."""
        stores = self.stores.get(layout)
        if stores is None:
            stores = self.stores[layout] = [self.store(*write) for write in layout.writes]
        held, digits = self.held, self.digits
        made: list[str] = []
        for line, code, end, ram in stores:
            word = words[line]
            if ram is not None:
                cell, _, word = word.partition(BECOMES)
                code = self.code_of((CELL, ram, int(cell)))
                end = f"{code}\n"
            if held[code] != word:
                held[code] = word
                made += digits[word], end
        return made

    def store(self, key: Key, line: int) -> Store:
        """The line of a word that is written, its signal's code, and the end of the line there; or else the ram, whose
        cell stands in the line."""
        if key[0] == CELL:
            return line, "", "", int(key[1])
        return line, self.code_of(key), f"{self.code_of(key)}\n", None

    def code_of(self, key: Key) -> str:
        """The code of the signal of what is written. It holds its first word when it is first asked for."""
        code = self.signals.of(key).code
        if code not in self.held:
            self.held[code] = str(first_value(self.image, key))
        return code

    def first_of(self, key: Key, signal: Signal) -> str:
        """The line of what a signal shows before the first cycle that is shown."""
        held = self.first.get(signal.code)
        return signal.change(first_value(self.image, key) if held is None else int(held))


@dataclass
class Scope:
    """The signals of a scope, and the scopes below it by their names, in their order."""
    signals: list[Signal] = field(default_factory=list)
    below: dict[str, Scope] = field(default_factory=dict)

    def put(self, signal: Signal, scopes: Sequence[str]) -> None:
        if scopes:
            self.below.setdefault(scopes[0], Scope()).put(signal, scopes[1:])
        else:
            self.signals.append(signal)

    def lines(self, name: str) -> Iterator[str]:
        yield f"$scope module {name} $end"
        for signal in self.signals:
            yield signal.declared()
        for inner, scope in self.below.items():
            yield from scope.lines(inner)
        yield "$upscope $end"


def head_of(waveform: Waveform) -> Iterator[str]:
    """The lines before the changes: the signals in their scopes, and what they show before the first cycle."""
    signals = waveform.signals.by_key
    top = Scope()
    for signal in signals.values():
        top.put(signal, signal.scopes)
    yield "$comment One unit of time is a cycle. A signal is z, or a text -, where nothing is there. $end"
    yield f"$timescale {UNIT_OF_TIME} $end"
    yield from top.lines(TOP)
    yield "$enddefinitions $end"
    yield f"#{waveform.began or 0}"
    yield "$dumpvars"
    for key, signal in signals.items():
        yield waveform.first_of(key, signal)
    yield "$end"
