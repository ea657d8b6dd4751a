"""The words of a program over samples: as it has them, and as they are where none wraps or saturates, in whole numbers
without bounds."""
from collections.abc import Sequence, Set
from typing import Any

from silc.designing.flat import FlatElement, Operation
from silc.micro_file.operations import FORMATTED
from silc.sure import sure

# An expression of a line is at most so deep, since Python has a limit.
DEEPEST = 40
# Words without bounds end here. Where a program feeds one back that is meant to wrap, as a generator of noise does, it
# may double its bits with each sample.
BITS = 256
LARGEST = 1 << BITS
BINARY = {"add": "+", "sub": "-", "mul": "*", "lt": "<", "le": "<=", "eq": "==", "ne": "!=", "and": "&", "or": "|"}


def order_of(elements: Sequence[FlatElement]) -> list[int]:
    """The elements, each behind those that it reads without a delay."""
    done, made = [False] * len(elements), []
    for start in range(len(elements)):
        stack = [(start, iter(elements[start].reads()))]
        while stack:
            number, reads = stack[-1]
            following = next((read for read, delay in reads if not delay and not done[read]), None)
            if following is not None:
                stack.append((following, iter(elements[following].reads())))
                continue
            stack.pop()
            if not done[number]:
                done[number] = True
                made.append(number)
    return made


def quantised(text: str, operation: Operation, is_bounded: bool) -> str:
    """An exact result without the bits that fall off, and in its width where that is asked for."""
    shift, width = operation.shift, operation.width
    if shift > 0 and "round" in operation.mode:
        text = f"({text} + {1 << (shift - 1)} >> {shift})"
    elif shift:
        text = f"({text} {'>>' if shift > 0 else '<<'} {abs(shift)})"
    return bounded(text, width, "sat" in operation.mode) if is_bounded else text


def bounded(text: str, width: int, is_saturating: bool) -> str:
    half = 1 << (width - 1)
    if is_saturating:
        return f"max({-half}, min({half - 1}, {text}))"
    return f"(({text} + {half} & {2 * half - 1}) - {half})"


def made_of(operation: Operation, parts: list[str], is_bounded: bool) -> str:
    """What an operation makes of the texts of its parts."""
    if operation.name == "sel":
        return "({1} if {0} else {2})".format(*parts)
    if operation.name == "not":
        return f"({parts[0]} ^ 1)"
    sign = BINARY.get(operation.name)
    text = f"({parts[0]} {sign} {parts[1]})" if sign else f"(-{parts[0]})" if operation.name == "neg" else parts[0]
    return quantised(text, operation, is_bounded) if operation.name in FORMATTED else text


class Passed(ValueError):
    """That an element has no word that could be told, since nothing brings it back to its width."""


class Writer:
    """Writes a program as a function of Python, which appends the words of all elements for each row of samples. The
    elements in `bounded_ones` are brought to their widths, as the program does it, in all of their operations; those in
    `told_ones` have their words before that beside them."""

    def __init__(self, elements: Sequence[FlatElement], bounded_ones: Set[int], told_ones: Set[int]):
        self.elements, self.bounded_ones, self.told_ones = elements, bounded_ones, told_ones
        self.before = [max(each.initials, default=0) for each in elements]
        for each in elements:
            for read, delay in each.reads():
                self.before[read] = max(self.before[read], delay)
        self.lines: list[str] = []

    def read(self, part: int | tuple[int, int]) -> str:
        """The text of a raw word or a read."""
        if isinstance(part, int):
            return f"({part})" if part < 0 else str(part)
        number, delay = part
        if not delay:
            return f"v{number}"
        place = self.before[number] - delay
        return f"h{number}[n + {place}]" if place else f"h{number}[n]"

    def value(self, number: int, is_bounded: bool) -> str:
        """The text of an element's word, behind lines for what is too deep in it."""
        body, stack = self.elements[number].body, []
        if isinstance(body, int):
            return f"row[{body}]"
        for part in self.elements[number].parts():
            if not isinstance(part, Operation):
                stack.append((self.read(part), 0))
                continue
            parts = stack[len(stack) - part.parts:]
            del stack[len(stack) - part.parts:]
            depth = 1 + max(deep for _, deep in parts)
            text = made_of(part, [text for text, _ in parts], is_bounded)
            if depth > DEEPEST:
                self.lines.append(f"t{len(self.lines)} = {text}")
                text, depth = f"t{len(self.lines) - 1}", 0
            stack.append((text, depth))
        return stack[0][0]

    def element(self, number: int) -> None:
        """The lines of an element."""
        each, is_bounded = self.elements[number], number in self.bounded_ones
        if number in self.told_ones:
            self.lines.append(f"e{number}({self.value(number, False)})")
        text = self.value(number, is_bounded)
        if number in self.told_ones:
            text = bounded(text, sure(each.shape).width, False)
        self.lines.append(f"v{number} = {text}")
        if not is_bounded and each.shape:
            self.lines.append(f"if not {-LARGEST} < v{number} < {LARGEST}: passed({number}, n)")
        self.lines.append(f"a{number}(v{number})")

    def whole(self) -> str:
        for number in order_of(self.elements):
            self.element(number)
        head = [f"h{k} = words[{k}]; a{k} = h{k}.append" for k in range(len(self.elements))]
        head += [f"e{k} = exact[{k}].append" for k in self.told_ones]
        return "\n".join(["def run(words, exact, rows, passed):", *(f"  {line}" for line in head),
                          "  for n, row in rows:", *(f"    {line}" for line in self.lines)])


class Run:
    """A program on its way over samples. `words` has for each element its last words before a block of samples, as many
    as are read with delays, and then those of the block; `exact` has those before they are brought to a width, by
    number."""

    def __init__(self, elements: Sequence[FlatElement], bounded_ones: Set[int], told_ones: Set[int] = frozenset()):
        writer = Writer(elements, bounded_ones, told_ones)
        names: dict[str, Any] = {}
        exec(compile(writer.whole(), "elements", "exec"), names)
        self.elements, self.function, self.before, self.count = elements, names["run"], writer.before, 0
        self.words = [[each.initials.get(back, 0) for back in range(before, 0, -1)]
                      for each, before in zip(elements, self.before)]
        self.exact: dict[int, list[int]] = {number: [] for number in told_ones}

    def over(self, rows: Sequence[Sequence[int]]) -> None:
        """Goes over a block of samples."""
        for words, before in zip(self.words, self.before):
            del words[: len(words) - before]
        for words in self.exact.values():
            words.clear()
        self.function(self.words, self.exact, enumerate(rows), self.passed)
        self.count += len(rows)

    def passed(self, number: int, n: int) -> None:
        name = self.elements[number].name
        raise Passed(f"without a wrap {name} has more than {BITS} bits at sample {self.count + n + 1}; where it is "
                     f"meant to "
                     f"wrap, --wraps {name} says so")

    def block(self, number: int) -> list[int]:
        """The words of an element over the block."""
        return self.words[number][self.before[number]:]


def own_run(elements: Sequence[FlatElement]) -> Run:
    """The words that a program has."""
    return Run(elements, frozenset(range(len(elements))))


def unbounded_run(elements: Sequence[FlatElement], meant: Set[int]) -> Run:
    """The words of a program of which only the elements in `meant` wrap."""
    return Run(elements, meant, meant)
