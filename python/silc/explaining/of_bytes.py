"""Why the bytes of a source are no tokens."""
import re
from decimal import Decimal

from silc.explaining.program import Source
from silc.explaining.refusals import language
from silc.explaining.report import Report
from silc.explaining.table_words import in_words, words_of_table
from silc.explaining.text import RESERVED, Text
from silc.sure import sure

TEXT = language("Text")
LONGEST_NUMBER = 18
# Characters that look like others, with what is written here.
LOOKALIKES = {"\u2212": "-", "\u2013": "-", "\u2014": "-", "\u00d7": "*", "\u00b7": "*", "\u22c5": "*", "\u2264": "<=",
              "\u2265": ">=", "\u2260": "!=", "\u00a0": " ", "\uff1b": ";", "\u2026": ".."}
BYTE_ORDER_MARK = "\ufeff"
CURES = {
    "/": ("there is no division",
          "divide by a power of two by a shift, as `x >> 1`, and else multiply by the inverse, as "
          "`x * 0.5`.", "Equations"),
    "%": ("there is no remainder", "write a subtraction or a shift.", "Equations"),
    "^": ("there is no power", "write a product.", "Equations"),
    "#": ("a comment begins with `/*` and ends with `*/`", "write `/* .. */`.", "Text"),
    "{": ("a body stands between `begin` and `end;`", "write `begin`.", "Grammar"),
    "}": ("a body stands between `begin` and `end;`", "write `end;`.", "Grammar"),
    "~": ("`not` is `!`, and there are no operations on the bits of a word", "write `!`.", "Equations"),
    "?": ("a choice is `if .. -> .. || .. fi`", "write `if condition -> value || other fi`.", "Conditionals"),
}


WRITTEN = {"{": "begin", "}": "end;", "~": "!"}


def bad_byte(source: Source, at: int) -> Report:
    text, chars = source.text, source.text.chars
    char, after = chars[at], chars[at + 1:at + 2]
    if char == "/" and after == "/":
        return line_comment(text, at, "//", "a comment begins with `/*` and ends with `*/`")
    if char == ".":
        return bad_point(source, at)
    before = source.tokens
    if char in "/%^{" and in_words(before, len(before)):
        return words_of_table(char, text.span(at))
    if char == "/":
        return division(source, at)
    if char == "?":
        return question_mark(text, at)
    if char == "%" and (not before or before[-1].text in (";", "begin")):
        return line_comment(text, at, "%", "a comment begins with `/*` and ends with `*/`")
    if char == "#":
        return line_comment(text, at, "#", CURES[char][0])
    if char in CURES:
        short, cure, section = CURES[char]
        report = Report(short, cure, language(section), text.span(at))
        return report.by(text.edit(at, at + 1, WRITTEN[char])) if char in WRITTEN else report
    return other_character(source, at)


def question_mark(text: Text, at: int) -> Report:
    """The report on a choice `condition ? value : other`, which is written as a choice of this language where it is
    simple."""
    short, cure, section = CURES["?"]
    line = text.starts[text.line_of(at) - 1]
    before = re.search(r"(?<![=<>!])=(?!=)\s*((?:[^?;:=<>!]|[=<>!]=|[<>!])+)$", text.chars[line:at])
    after = re.match(r"\?([^?;:]+):([^?;:]+);", text.chars[at:])
    if not (before and after and all(map(is_balanced, (before[1], after[1], after[2])))):
        return Report(short, cure, language(section), text.span(at))
    condition, value, other = (" ".join(part.split()) for part in (before[1], after[1], after[2]))
    written = f"if {condition} -> {value} || {other} fi"
    return Report(short, f"write `{written}`.", language(section), text.span(at)) \
        .by(text.edit(line + before.start(1), at + after.end() - 1, written))


def is_balanced(part: str) -> bool:
    """Whether a part of an expression closes what it opens, and nothing else."""
    depth = 0
    for char in part:
        depth += (char in "([") - (char in ")]")
        if depth < 0:
            return False
    return depth == 0


def line_comment(text: Text, at: int, mark: str, short: str) -> Report:
    """The report on a comment that goes to the end of its line in another language."""
    end = text.chars.find("\n", at)
    end = len(text.chars.rstrip("\n")) if end < 0 else end
    said = text.data[at + len(mark):end].decode(errors="replace").strip()
    report = Report(short, f"write `/* .. */` in the place of `{mark} ..`.", TEXT, text.span(at, end))
    return report if "*/" in said else report.by(text.edit(at, end, f"/* {said} */"))


def other_character(source: Source, at: int) -> Report:
    """The report on a character that is none of the language's."""
    text, end = source.text, at + width_of(source.text, at)
    char = text.data[at:end].decode(errors="replace")
    span = text.span(at, end)
    if char in LOOKALIKES:
        return Report(f"{byte_name(text, at)} looks like `{LOOKALIKES[char]}`, and is another character",
                      f"write `{LOOKALIKES[char]}`.", TEXT, span).by(text.edit(at, end, LOOKALIKES[char]))
    if char == BYTE_ORDER_MARK:
        return Report("the file begins with a byte order mark, which is no blank", "save it as UTF-8 without one.",
                      TEXT, span) \
            .by(text.edit(at, end, ""))
    if char.isalpha():
        return Report(f"a name has the letters `a` to `z` and `A` to `Z`, digits and `_`, and no `{char}`",
                      "take another name, or put the text into a comment `/* .. */`.", TEXT, span)
    return Report(f"{byte_name(text, at)} is no part of the language, which has letters, digits, `_` and the operators "
                  f"of its "
                  f"table", "take it out, or put it into a comment `/* .. */`.", TEXT, span)


def division(source: Source, at: int) -> Report:
    """A division, with the shift or the product that does it where the divisor is a number."""
    found = re.match(r"/\s*(\d{1,6}(?:\.\d{1,6})?)(?![\w.])", source.text.chars[at:at + 40])
    by = float(found[1]) if found else 0
    if found is None or by <= 1:
        short, cure, section = CURES["/"]
        return Report(short, cure, language(section), source.text.span(at))
    power = int(by).bit_length() - 1
    written = f">> {power}" if by == 2**power else f"* {1 / by:.10f}".rstrip("0")
    return Report("there is no division", f"write `{written}` for `/ {found[1]}`.", language("Equations"),
                  source.text.span(at, at + found.end())).by(source.text.edit(at, at + found.end(), written))


def bad_point(source: Source, at: int) -> Report:
    before = re.search(r"\d+$", source.text.chars[:at])
    after = re.match(r"\d+", source.text.chars[at + 1:])
    if before:
        number = before[0]
        return Report(f"a number has digits on both sides of its point, and `{number}.` has none after it",
                      f"write `{number}`, or `{number}.0`.", TEXT, source.text.span(before.start(), at + 1)) \
            .by(source.text.edit(at, at + 1, ""))
    if after:
        return Report(f"a number has digits on both sides of its point, and `.{after[0]}` has none before it",
                      f"write `0.{after[0]}`.", TEXT, source.text.span(at, at + 1 + after.end())) \
            .by(source.text.edit(at, at, "0"))
    return Report("a point stands in numbers only", "take it out, or write `..` for a range.", TEXT,
                  source.text.span(at))


def width_of(text: Text, at: int) -> int:
    """How many bytes the character has that begins there."""
    for count in range(1, 5):
        try:
            text.data[at:at + count].decode()
            return count
        except UnicodeDecodeError:
            continue
    return 1


def byte_name(text: Text, at: int) -> str:
    data = text.data[at:at + width_of(text, at)]
    try:
        char = data.decode()
        return f"`{char}`" if char.isprintable() else f"the byte 0x{data[0]:02x}"
    except UnicodeDecodeError:
        return f"the byte 0x{data[0]:02x}"


def bad_number(source: Source, at: int) -> Report:
    found = sure(re.match(r"\d+(\.\d+)?", source.text.chars[at:]))
    word = sure(re.match(r"[\w.]+", source.text.chars[at:], re.A))[0]
    rest = word[found.end():]
    span = source.text.span(at, at + len(word))
    if sum(char.isdigit() for char in found[0]) > LONGEST_NUMBER:
        return Report(f"a number has at most {LONGEST_NUMBER} digits",
                      "write fewer digits: a word has at most 40 bits.", TEXT, span)
    if re.fullmatch(r"0[xX][0-9A-Fa-f]+|0[bB][01]+", word):
        return Report("numbers are decimal", f"write `{int(word, 0)}`.", TEXT,
                      span).by(source.text.edit(at, at + len(word), f"{int(word, 0)}"))
    short = f"the letter `{rest[:1]}` follows directly on the number {found[0]}"
    power = re.match(r"\d+(\.\d+)?[eE][-+]?\d{1,2}(?!\w)", source.text.chars[at:at + 60], re.A)
    if power:
        return with_power(source, at, power[0], short)
    if re.fullmatch(r"[fFlLuU]+|[A-Za-z_]\w*\..*", rest):
        return Report(short, f"write `{found[0]}`." if len(rest) < 4 else "write a blank or an operator between them.",
                      TEXT, span)
    if re.fullmatch(r"(_\d+)+", rest):
        written = word.replace("_", "")
        return Report("a number has digits, and no `_` between them", f"write `{written}`.", TEXT, span) \
            .by(source.text.edit(at, at + len(word), written))
    if rest in RESERVED:
        return Report(short, f"write a blank between them, as `{found[0]} {rest}`.", TEXT, span)
    cure = f"write a blank or an operator between them, as `{found[0]} * {rest}`."
    return Report(short, cure, TEXT, span).by(source.text.edit(at, at + len(word), f"{found[0]} * {rest}"))


def with_power(source: Source, at: int, word: str, short: str) -> Report:
    """The report on a number with a power of ten, as 1e-3."""
    digits = format(Decimal(word), "f")
    span = source.text.span(at, at + len(word))
    if sum(map(str.isdigit, digits)) > LONGEST_NUMBER:
        return Report(short, "write all digits, as `0.001` for `1e-3`: 18 of them at most.", TEXT, span)
    return Report(short, f"write all digits: `{digits}`.", TEXT, span).by(source.text.edit(at, at + len(word), digits))


def open_comment(source: Source, at: int) -> Report:
    end = source.text.chars.find("\n", at)
    end = len(source.text.chars.rstrip("\n")) if end < 0 else end
    return Report("this comment has no end", "write `*/` at its end.", TEXT, source.text.span(at, end)) \
        .by(source.text.edit(end, end, " */"))
