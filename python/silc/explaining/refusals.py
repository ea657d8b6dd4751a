"""Each refusal of `silc`: its exit code, its text, what it means, and the section of docs/ that has the rule."""
import re
from dataclasses import dataclass

from silc.explaining.report import Report
from silc.explaining.text import Span


@dataclass(frozen=True)
class Refusal:
    """A text of `silc`, in which capital words stand for names and numbers of the case, and the name by which
    `silc_show` calls it, where it does."""
    code: int
    text: str
    means: str
    rule: str

    def short(self) -> str:
        """What it means, as a clause."""
        return self.means[0].lower() + self.means[1:].rstrip(".")

    def report(self, span: Span | None = None, about: str = "") -> Report:
        """What can be said of it where no more is known."""
        return Report(self.short(), "see the rule.", self.rule, span, about=about)

    def pattern(self) -> re.Pattern[str]:
        def group(word: re.Match[str]) -> str:
            return rf"(?P<{word[0].lower()}>\S+)"

        return re.compile(re.sub(r"\b[A-Z]+\b", group, re.escape(self.text)))


def language(section: str) -> str:
    return f'docs/LANGUAGE.md, "{section}"'


def datapath(section: str) -> str:
    return f'docs/DATAPATH.md, "{section}"'


def planning(section: str) -> str:
    return f'docs/PLANNING.md, "{section}"'


def nets(section: str) -> str:
    return f'docs/NETS.md, "{section}"'


COMMANDS_PAGE = 'docs/COMMANDS.md, "One by one"'
MICROCODE = 'docs/MICROCODE.md, "What is refused"'
CONFLICTS = 'docs/MACHINE.md, "Conflicts"'
ROWS = 'docs/SAMPLES.md, "What a row is"'
FRAMES = 'docs/RATES.md, "Limits"'
PLACES = planning("Plans from elsewhere")
# What begins the line of a refusal: the program that prints it.
SAID_BY = ("silc: ", "silc_place: ")

REFUSALS = [
    Refusal(1, "no memory", "The machine has no memory left for this command.", COMMANDS_PAGE),
    Refusal(2, "bad command words", "The words are no command, or OUT is one of the inputs.", COMMANDS_PAGE),
    Refusal(3, "file fault", "A file could not be read or written.", COMMANDS_PAGE),
    Refusal(4, "source too long", "A source has at most 1 MiB.", language("What is no program")),
    Refusal(4, "no main", "No function is called `main`, which is the one that is run.", language("Declarations")),
    Refusal(4, "line L: bad byte", "No token, blank or comment begins at this byte.", language("Text")),
    Refusal(4, "line L: bad number", "A letter follows directly on a number, or the number has more than 18 digits.",
            language("Text")),
    Refusal(4, "line L: open comment", "A comment has no end.", language("Text")),
    Refusal(4, "line L: syntax", "No program goes on with this token.", language("Grammar")),
    Refusal(4, "line L: too deep",
            "An expression has more than 256 operators and openings, or 17 loops are in one another.",
            language("Nesting limits")),
    Refusal(4, "line L: unknown name", "Nothing that may stand there has the name.", language("Declarations")),
    Refusal(4, "line L: declared twice", "One name is declared for two things.", language("Declarations")),
    Refusal(4, "line L: recursive function", "A function can reach itself by calls.", language("Functions")),
    Refusal(4, "line L: wrong count", "Subscripts, arguments, results or words are not as many as were declared.",
            language("Declarations")),
    Refusal(4, "line L: bad size", "A type or a dim is out of its range.", language("Words and types")),
    Refusal(4, "line L: bad index", "A manifest number is not from -2^31 to 2^31-1.", language("Loops")),
    Refusal(4, "line L: out of bounds", "A subscript is below 0, or not below its dim.", language("Declarations")),
    Refusal(4, "line L: bad delay", "A delay is not 0 to 1023, or it is one of a table, which has no past.",
            language("Delays and initial values")),
    Refusal(4, "line L: bad shift", "The amount of a shift is not 0 to 31.", language("Equations")),
    Refusal(4, "line L: defined twice", "An element has two definitions.", language("Equations")),
    Refusal(4, "line L: not defined NAME", "An element has no definition.", language("Equations")),
    Refusal(4, "line L: too large", "The program has more than 8192 elements, turns, operators and the like.",
            language("Limits")),
    Refusal(4, "line L: type mismatch", "An expression is of another type than the one that is wanted.",
            language("The typing table")),
    Refusal(4, "line L: needs a cast", "An expression without a type of its own stands where one is needed.",
            language("Products and casts")),
    Refusal(4, "line L: literal out of range", "A number is out of the range of its type.",
            language("Words and types")),
    Refusal(4, "line L: not a truth value", "A number stands where a truth value is wanted.",
            language("The typing table")),
    Refusal(4, "line L: loop NAME", "An element depends on itself without a delay.",
            language("Delays and initial values")),
    Refusal(5, "datapath too long", "A datapath file has at most 1 MiB.",
            datapath("What is refused, and in which order")),
    Refusal(5, "datapath is not TOML", "The text of the datapath file is no TOML.", datapath("What is TOML here")),
    Refusal(5, "datapath TABLE: unknown key", "A table has a key that it cannot have.",
            datapath("What is refused, and in which order")),
    Refusal(5, "datapath TABLE: missing key", "A table lacks a key that it has to have.",
            datapath("What is refused, and in which order")),
    Refusal(5, "datapath TABLE: wrong kind", "A value is of another kind than the key's.",
            datapath("What is refused, and in which order")),
    Refusal(5, "datapath TABLE: out of range", "A value is out of the key's range.",
            datapath("What is refused, and in which order")),
    Refusal(5, "datapath TABLE: unknown unit", "No unit has the name, or none of the kind that is wanted.",
            datapath("A bus")),
    Refusal(5, "datapath TABLE: unknown port", "A unit has no such port.", datapath("A bus")),
    Refusal(5, "datapath TABLE: named twice", "Two units or two buses have one name, or a bus names an end twice.",
            datapath("A bus")),
    Refusal(6, "no unit KIND for node NODE", "An operation has no unit that does it.", planning("Units")),
    Refusal(6, "no route to PORT for node NODE", "No bus leads from a unit to a port that has to take its words.",
            planning("Units")),
    Refusal(6, "node NODE too wide", "A word has more bits than the datapath's.", planning("Units")),
    Refusal(6, "no ram for node NODE", "A delay goes through memory, and the datapath has none.",
            planning("Delay lines")),
    Refusal(6, "no acu for ram UNIT at node NODE", "A memory has no unit that makes its addresses.",
            planning("Delay lines")),
    Refusal(7, "no ram cells for node NODE", "No memory has room for a delay line.", planning("Delay lines")),
    Refusal(8, "period exceeded at node NODE", "An operation has no cycle left in the period.", planning("Cycles")),
    Refusal(9, "file full PORT at node NODE", "A register file has no register left for a word.",
            planning("Registers")),
    Refusal(10, "microcode too long", "A microcode file has at most 64 MiB.", MICROCODE),
    Refusal(10, "bad magic", "The file does not begin with the letters of microcode.", MICROCODE),
    Refusal(10, "bad version", "The microcode is of a version that is not known: there are 1 and 2.", MICROCODE),
    Refusal(10, "short at N", "The file ends before it holds an image.", MICROCODE),
    Refusal(10, "bad field at N", "A field has what it cannot have.", MICROCODE),
    Refusal(10, "trailing bytes at N", "Bytes follow the image.", MICROCODE),
    Refusal(11, "samples too long", "A sample file is longer than it may be.", 'docs/SAMPLES.md, "What is refused"'),
    Refusal(11, "samples line L byte B", "A line is no row.", ROWS),
    Refusal(12, "conflict at cycle CYCLE: busy PLACE", "An operation is issued on a unit that is still busy.",
            CONFLICTS),
    Refusal(12, "conflict at cycle CYCLE: two drivers PLACE", "Two units drive one bus.", CONFLICTS),
    Refusal(12, "conflict at cycle CYCLE: file twice PLACE", "Two words are written into one register file.",
            CONFLICTS),
    Refusal(12, "conflict at cycle CYCLE: no driver PLACE", "A register takes from a bus that nothing drives.",
            CONFLICTS),
    Refusal(12, "conflict at cycle CYCLE: no result PLACE", "A unit drives a bus without a result.", CONFLICTS),
    Refusal(12, "conflict at cycle CYCLE: address PLACE", "A memory is given an address that it does not have.",
            CONFLICTS),
    Refusal(14, "net too long", "A net file has at most 1 MiB.", nets("What is refused")),
    Refusal(14, "net is not TOML", "The text of the net file is no TOML.", datapath("What is TOML here")),
    Refusal(14, "net TABLE: unknown key", "A table has a key that it cannot have.", nets("The net file")),
    Refusal(14, "net TABLE: missing key", "A table lacks a key that it has to have.", nets("The net file")),
    Refusal(14, "net TABLE: wrong kind", "A value is of another kind than the key's.", nets("The net file")),
    Refusal(14, "net TABLE: out of range", "A value is out of the key's range, or a wire leads from nowhere.",
            nets("The net file")),
    Refusal(14, "net input WORD unused", "No processor reads a word of the net's row.", nets("What is refused")),
    Refusal(14, "net output overwrites a file of processor K", "OUT is a source or a datapath file of a processor.",
            nets("What is refused")),
    Refusal(14, "wrong feeds of processor K", "A processor has not one wire for each of its input words.",
            nets("What is refused")),
    Refusal(14, "feed WORD of processor K does not fit", "A wire brings a word that is not there, or of another type.",
            nets("What is refused")),
    Refusal(15, "frame word W unknown", "A list of slow words names a word that the program has not.", FRAMES),
    Refusal(15, "frame has too many words",
            "A row of frames has more than 16 input words, or more than 16 output words.",
            FRAMES),
    Refusal(15, "frame too large", "The program has more than 8192 elements and operations in the samples of a frame.",
            FRAMES),
    Refusal(16, "plan too long", "A plan has at most 1 MiB.", PLACES),
    Refusal(16, "plan line L: not node V cycle T unit NAME",
            "A line that begins with `node` lacks a word, or has another in its place.", PLACES),
    Refusal(16, "plan line L: not register R unit NAME port P node V copy K",
            "A line that begins with `register` lacks a word, or has another in its place.", PLACES),
    Refusal(16, "plan line L: no number", "A word that stands for a number is none, or is too great.", PLACES),
    Refusal(16, "plan line L: unknown unit", "The datapath has no unit of the name.", PLACES),
    Refusal(16, "plan line L: node twice", "A node has two places.", PLACES),
    Refusal(16, "no place for node NODE", "A node has no place.", PLACES),
    Refusal(16, "plan line L: no node NODE", "The program has no such node.", PLACES),
    Refusal(16, "plan line L: node NODE too wide", "A word has more bits than the datapath's.", PLACES),
    Refusal(16, "plan line L: wrong unit for node NODE", "A unit does not do the operation of its node.", PLACES),
    Refusal(16, "plan line L: operand OPERAND of node NODE is there from cycle CYCLE",
            "A node is issued before a word of the same sample is there that it reads.", PLACES),
    Refusal(16, "plan line L: period exceeded at node NODE", "A node does not end in the period.", PLACES),
    Refusal(16, "plan line L: unit busy at node NODE", "A node is issued on a unit that is not free.", PLACES),
    Refusal(16, "plan line L: file written PORT at node NODE",
            "Two words come into one register file in a cycle of the period.", PLACES),
    Refusal(16, "plan line L: no bus to PORT at node NODE",
            "No bus from the unit of a node to a port that reads it is there and free.", PLACES),
    Refusal(16, "plan line L: no such copy PORT at node NODE",
            "A line gives a register to a copy of a word that does not wait there.", PLACES),
    Refusal(16, "plan line L: no such register PORT at node NODE", "A register file has fewer registers.", PLACES),
    Refusal(16, "plan line L: copy twice PORT at node NODE", "A copy of a word is given two registers.", PLACES),
    Refusal(16, "plan line L: register taken PORT at node NODE",
            "Two copies of words that wait at once are given one register.", PLACES),
    Refusal(16, "plan line L: file full PORT at node NODE", "A register file has no register left for a word.",
            PLACES),
    Refusal(16, "plan line L: operand late at node NODE",
            "Over several stages: a node is issued before a word of the same sample is there that it reads.", PLACES),
    Refusal(16, "plan line L: stages exceeded at node NODE", "A node does not end in the stages of its sample.",
            PLACES),
    Refusal(16, "plan line L: no transfer from node NODE",
            "Over several stages: a register file that a result goes to is written in its cycle of the period, or no "
            "bus to it is there and free.", PLACES),
    Refusal(16, "plan line L: wrong stage for node NODE",
            "An input is issued behind the first stage, an output ends before the last one, or a store ends after its "
            "word is loaded.", PLACES),
]
# What stands for a table of a datapath file or a net file is two words for a unit, a bus and a processor.
TABLE = r"(?P<table>top|(?:unit|bus|processor) \d+)"


def refusal_of(said: str) -> tuple[Refusal, dict[str, str]] | None:
    """The refusal that a line of `silc` is, and the names and numbers in it; None where it is none."""
    text = said.strip()
    for program in SAID_BY:
        text = text.removeprefix(program)
    for refusal in REFUSALS:
        pattern = refusal.pattern().pattern.replace(r"(?P<table>\S+)", TABLE)
        found = re.fullmatch(pattern, text)
        if found:
            return refusal, found.groupdict()
    return None
