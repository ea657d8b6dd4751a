"""Why a line of a sample file is no row."""
import codecs
import math
import os
import re
from collections.abc import Sequence
from dataclasses import dataclass
from fractions import Fraction

from silc.explaining.command import Case
from silc.explaining.kinds import other_kind
from silc.explaining.refusals import ROWS
from silc.explaining.report import Report, counted, listed
from silc.explaining.text import Edit, Text

END = 1 << 32
# A net reads its samples whole.
NET_BYTES = 1 << 20
TRUTHS = {"true": 1, "false": 0}
EXPONENT = re.compile(r"[-+]?\d+(\.\d+)?[eE][-+]?\d{1,2}")
NUMBER = re.compile(r"[-+]?\d*\.\d+|[-+]?\d+\.\d*")


@dataclass
class Channel:
    """An input word: its name where there is one, its type, and how many of its bits are after the point."""
    name: str
    width: int
    places: int | None

    def range(self) -> tuple[int, int]:
        return (0, 1) if self.width == 0 else (-(2 ** (self.width - 1)), 2 ** (self.width - 1) - 1)

    def words(self) -> str:
        least, most = self.range()
        return f"{least} to {most}"


def channels_of(case: Case) -> list[Channel]:
    """The input words of the command: of the source, or of the microcode."""
    if "MIC" in case.files:
        from silc.micro_file import image_of
        return [Channel(f"word {k}", width, None) for k, width in enumerate(image_of(case.text("MIC").data).inputs)]
    if "NET" in case.files:
        from silc.nets import Net
        return [Channel(f"in.{number}", of.shape.width if of.shape else 0, of.shape.places if of.shape else None)
                for number, of in enumerate(Net(case.files["NET"]).types)]
    from silc.explaining.program import Source, element_name
    made = []
    for decl in Source(case.text("SRC")).funcs["main"].params:
        for place in range(math.prod(decl.dims)):
            made.append(Channel(element_name(decl, place), decl.type.width or 0, decl.type.places))
    return made


def report_of(case: Case) -> Report:
    if "l" not in case.values:
        name = case.files["SAMPLES"]
        has = f"the file has {os.path.getsize(name)} bytes" if os.path.isfile(name) else "more came"
        most = f"at most {NET_BYTES}" if "NET" in case.files else f"fewer than {END}"
        return Report(f"{has}, and {most} are read", "run the samples in several files.", case.refusal.rule,
                      about=name)
    text = case.text("SAMPLES")
    other = other_kind(case, "SAMPLES")
    if other:
        return other
    line, byte = int(case.values["l"]), int(case.values["b"])
    return unlike_text(text, line) or broken(text, line, byte, channels_of(case))


def unlike_text(text: Text, line: int) -> Report | None:
    """The report on a line that is no line of a sample file at all, or nothing."""
    row, start = text.line(line).decode("latin-1"), text.starts[line - 1]
    if "\r" in row:
        return Report("a line ends with LF or CR LF, and here is a CR alone",
                      "save the file with the ends of lines of Unix.", ROWS, text.span(start, start + row.index("\r")))
    if line == 1 and text.data.startswith(codecs.BOM_UTF8):
        mark = len(codecs.BOM_UTF8)
        return Report("the file begins with a byte order mark, which is no number", "save it without one.", ROWS,
                      text.span(start, start + mark)).by(text.edit(0, mark, ""))
    return None


def broken(text: Text, line: int, byte: int, channels: Sequence[Channel]) -> Report:
    row = text.line(line).decode("latin-1")
    start = text.starts[line - 1]
    names = listed([f"`{channel.name}`" for channel in channels])
    number = row[:byte].count(",")
    left = row.rfind(",", 0, byte) + 1
    word = row[left:].partition(",")[0]
    span = text.span(start + left, start + left + max(len(word), 1))
    wanted = f"a row has {counted(len(channels), 'word')}"
    if row.endswith(",") and row.count(",") == len(channels):
        last = start + len(row) - 1
        return Report("a comma ends the line", "take it away.", ROWS, text.span(last)).by(text.edit(last, last + 1, ""))
    if not row.strip():
        return Report(f"the line is empty, and {wanted}", "take the line away.", ROWS,
                      span).by(*without_line(text, line))
    if number >= len(channels) or byte < len(row) and row[byte] == "," and number + 1 >= len(channels):
        count = row.count(",") + 1
        return Report(f"the line has {counted(count, 'word')}, and {wanted}: {names}",
                      f"write {counted(len(channels), 'word')} a line.", ROWS, text.span(start, start + len(row)))
    channel = channels[number]
    if byte == len(row) and not word.strip():
        return Report(f"the line ends where `{channel.name}` has to come", f"write a word for `{channel.name}`.", ROWS,
                      text.span(start + len(row), start + len(row) + 1))
    if byte >= len(row.rstrip("\r")) and re.fullmatch(r"-?\d+", word) and number + 1 < len(channels):
        return Report(f"the line has {counted(number + 1, 'word')}, and {wanted}: {names}",
                      f"write {counted(len(channels), 'word')} a line, with a comma between two.", ROWS,
                      text.span(start, start + len(row)))
    if not word.strip():
        short = f"no word stands before the comma, where `{channel.name}` has to come"
        if row.count(",") < len(channels):
            return Report(short, f"write a word for `{channel.name}`.", ROWS, span)
        return Report(short, "take one comma away.", ROWS,
                      span).by(text.edit(start + left, start + left + len(word) + 1, ""))
    if line == 1 and is_header(row):
        return Report(f"`{decoded(row.strip())}` is no row: a sample file has rows only, without a header",
                      "take the line away.", ROWS,
                      text.span(start, start + len(row))).by(*without_line(text, line))
    report, written = bad_word(decoded(word), channel, len(channels) - row.count(",") - 1)
    report.span = span
    if written is not None:
        report.by(text.edit(start + left, start + left + len(word), written))
    if channel.name in report.short:
        return report
    return report.note(f"`{channel.name}` has the raw words {channel.words()}.")


def without_line(text: Text, line: int) -> list[Edit]:
    """The edit by which a line goes, with its end."""
    end = text.starts[line] if line < len(text.starts) else len(text.data)
    return [text.edit(text.starts[line - 1], end, "")]


def decoded(text: str) -> str:
    """The characters of a text that has one for each byte."""
    return text.encode("latin-1").decode(errors="replace")


def is_header(row: str) -> bool:
    """Whether a line has names in the place of numbers."""
    has_digits = re.search(r"\d", re.sub(r"[A-Za-z_]\w*", "", row)) is not None
    has_letters = re.search("[A-Za-z]", row) is not None
    return has_letters and not has_digits and any(number_of(word.strip()) is None for word in row.split(","))


def number_of(text: str) -> Fraction | None:
    """The number that a word stands for elsewhere, or nothing."""
    if text.lower() in TRUTHS:
        return Fraction(TRUTHS[text.lower()])
    if re.fullmatch(r"0[xX][0-9A-Fa-f]+", text):
        return Fraction(int(text, 16))
    if re.fullmatch(r"[-+]?\d[\d_]*", text):
        return Fraction(int(text))
    return Fraction(text) if EXPONENT.fullmatch(text) else None


def bad_word(word: str, channel: Channel, lacking: int) -> tuple[Report, str | None]:
    """The report on a word that is none of its channel's, and what is written in its place, where that is sure. Its row
    lacks some words."""
    stripped = word.strip()
    if re.fullmatch(r"-?\d+", word):
        return out_of_range(word, int(word), channel), None
    if re.fullmatch(r"-?\d+((\s+|\s*[;:|]\s*)-?\d+)+", stripped):
        return several(stripped, lacking)
    if re.fullmatch(r"-?\d+", stripped):
        return Report(f"a blank stands beside {stripped}, and a row has none", f"write `{stripped}` without the blank.",
                      ROWS), stripped
    if NUMBER.fullmatch(stripped):
        return fraction(stripped, channel)
    if stripped.startswith("+") and stripped[1:].isdecimal():
        return Report("a number has no plus sign here", f"write `{stripped[1:]}`.", ROWS), stripped[1:]
    number = number_of(stripped.replace("\u2212", "-").strip("\"'"))
    if number is not None and number == int(number):
        least, most = channel.range()
        if not least <= number <= most:
            return out_of_range(stripped, int(number), channel), None
        return Report(f"`{stripped}` is no word of a row, which has an optional `-` and digits",
                      f"write {int(number)}.", ROWS), \
            str(int(number))
    return Report(f"`{stripped}` is no whole number", "write a raw word, which is a whole number.", ROWS), None


def out_of_range(word: str, number: int, channel: Channel) -> Report:
    least, most = channel.range()
    return Report(f"{word} is out of range: the raw words of `{channel.name}` are {channel.words()}",
                  f"write a number from {least} to {most}, as {min(max(number, least), most)}.", ROWS)


def several(piece: str, lacking: int) -> tuple[Report, str | None]:
    """The report on several words between two commas, and the row's words where these are as many as it lacks."""
    words = re.split(r"\s*[;:|]\s*|\s+", piece)
    short = f"`{piece}` is {counted(len(words), 'word')}, with a blank between them"
    if re.search("[;:|]", piece):
        short = f"two words have a comma between them, and `{piece}` another sign"
    if len(words) == lacking + 1:
        return Report(short, f"write `{','.join(words)}`.", ROWS), ",".join(words)
    cure = "write one word a line." if lacking == 0 else "write a comma between two words, and no blank."
    return Report(short, cure, ROWS), None


def fraction(word: str, channel: Channel) -> tuple[Report, str | None]:
    """The report on a number with a point, and the raw word that it stands for."""
    if channel.places is None:
        return Report(f"{word} is no whole number", "write a raw word, which is a whole number.", ROWS), None
    raw = math.floor(Fraction(word) * 2**channel.places + Fraction(1, 2))
    least, most = channel.range()
    raw = min(max(raw, least), most)
    return Report(f"{word} is no whole number: samples are raw words, and `{channel.name}` has {channel.places} of its "
                  f"bits "
                  f"after the point", f"write {raw} for {word}.", ROWS), str(raw)
