"""The lines of `silc_show trace`, as what happens in each cycle (docs/MACHINE.md, "A trace")."""
import re
from collections.abc import Iterable, Iterator

from silc.sure import sure

BEGIN, FAULT = "\ncycle ", "fault"
HEAD = re.compile(r"(\d+) sample (\d+) word (\d+)(?: conflict: (.+))?")
# What each line is, with its numbers; the last of them, or of a cell the last two, are others in each sample.
LINES = (("issue", re.compile(r"(  issue unit (\d+) (\w+) ).*")),
         ("bus", re.compile(r"(  bus (\d+) unit (\d+) carries )-?\d+")),
         ("register", re.compile(r"(  register unit (\d+) port (\d+) register (\d+) becomes )-?\d+")),
         ("cell", re.compile(r"(  cell ram (\d+) cell )\d+ becomes -?\d+")),
         ("latch", re.compile(r"(  latch (\d+) becomes )-?\d+")),
         ("row", re.compile(r"(  row )-?\d+(?:,-?\d+)*")))
BECOMES = " becomes "
# What all words are greater than or equal to, and blanks are not.
WORD = "-"
# How many words the first line of a cycle has, but for a conflict.
HEAD_WORDS = 5


class NoTrace(Exception):
    """What `silc_show` prints in the place of a trace."""


class BadSamples(NoTrace):
    """The fault of samples that `silc_show` prints."""


class Layout:
    """What the lines of a cycle say, but for the words: these are what is left of the lines behind their beginnings. A
    microword has one layout, or a few, where results of the sample before are not there yet."""

    def __init__(self, word: int, lines: list[str], conflict: str | None = None) -> None:
        self.word, self.conflict = word, conflict
        self.beginnings: list[str] = []
        # The operation that a unit begins, by the unit; and by the bus the unit that drives it, with the line of its
        # word.
        self.issues: dict[int, str] = {}
        self.buses: dict[int, tuple[int, int]] = {}
        # Places with the lines of the words that they become: ("register", unit, port, register), ("cell", ram), whose
        # line has the number of the cell too, or ("latch", output).
        self.writes: list[tuple[tuple, int]] = []
        for line in lines:
            self.put(line)

    def put(self, line: str) -> None:
        what, found = next(((what, found) for what, form in LINES if (found := form.fullmatch(line))), (None, None))
        if found is None:
            raise NoTrace(line.strip())
        number, (beginning, *said) = len(self.beginnings), found.groups()
        self.beginnings.append(beginning)
        if what == "issue":
            self.issues[int(said[0])] = said[1]
        elif what == "bus":
            self.buses[int(said[0])] = int(said[1]), number
        elif what != "row":
            self.writes.append(((what, *map(int, said)), number))

    def words(self, lines: list[str]) -> list[str] | None:
        """What is behind the beginnings of the lines, where they are of this layout."""
        if len(lines) != len(self.beginnings):
            return None
        # A line with another beginning keeps its own, which is blank, and is then less than all others.
        words = list(map(str.removeprefix, lines, self.beginnings))
        return words if min(words, default=WORD) >= WORD else None


# A cycle: its number, its sample as a text, and what its lines say, with the words. Where the run ends with it by a
# conflict, it has no lines: nothing of it is done.
Cycle = tuple[int, str, Layout, list[str]]


def blocks_of(pieces: Iterable[str]) -> Iterator[list[str]]:
    """The texts of the cycles of a trace, as many at once as are there, without the word `cycle` and the end of the
    last line. What is no cycle is one of them as well."""
    rest = "\n"
    for piece in pieces:
        first, *blocks = (rest + piece).split(BEGIN)
        rest = BEGIN + blocks.pop() if blocks else first
        yield [first, *blocks] if first and blocks else blocks
    yield [block for block in rest.removesuffix("\n").split(BEGIN) if block]


class Reader:
    """Reads the cycles of a trace from their texts. The layouts that were there are known by their microwords."""

    def __init__(self) -> None:
        self.layouts: dict[str, list[Layout]] = {}

    def cycles(self, blocks: list[str]) -> Iterator[Cycle]:
        known = self.layouts
        for block in blocks:
            head, *lines = block.split("\n")
            said = head.split(" ")
            for layout in known.get(said[-1], ()):
                words = layout.words(lines)
                if words is not None and len(said) == HEAD_WORDS:
                    yield int(said[0]), said[2], layout, words
                    break
            else:
                yield self.new(head, lines)

    def new(self, head: str, lines: list[str]) -> Cycle:
        """A cycle whose layout was not there yet."""
        found = HEAD.fullmatch(head)
        if not found:
            text = "\n".join([head, *lines]).strip()
            raise BadSamples(text) if text.startswith(FAULT) else NoTrace(text)
        number, sample, word, conflict = found.groups()
        layout = Layout(int(word), [] if conflict else lines, conflict)
        if not conflict:
            self.layouts.setdefault(word, []).append(layout)
        return int(number), sample, layout, [] if conflict else sure(layout.words(lines))
