"""Why the tokens of a source are no program: the mistake that is likely, or else what was wanted."""
import difflib
import re
from collections.abc import Sequence
from dataclasses import dataclass

from silc.explaining.edits import edit_for
from silc.explaining.grammar import COMPARISONS, Unexpected
from silc.explaining.of_bytes import bad_byte, bad_number, line_comment, open_comment
from silc.explaining.program import Source
from silc.explaining.refusals import language
from silc.explaining.report import Report, counted
from silc.explaining.table_words import in_words, words_of_table
from silc.explaining.text import KEPT_FOR_LATER, Edit, Span, Token
from silc.sure import sure

TEXT, GRAMMAR, DECLARATIONS = language("Text"), language("Grammar"), language("Declarations")
DELAYS, CONDITIONALS = language("Delays and initial values"), language("Conditionals")
DEEPEST = 256
# Words and symbols of other languages, with what is written here.
OTHERS = {"then": ("a condition is followed by `->`", "write `->`"),
          "else": ("the other case begins with `||`", "write `||`"),
          "and": ("`and` is no operator", "write `&`"), "or": ("`or` is no operator", "write `|`"),
          "not": ("`not` is no operator", "write `!`"),
          "for": ("there is no `for`", "write `(i : 0 .. 3) :: begin .. end;`"),
          "while": ("there is no `while`", "write `(i : 0 .. 3) :: begin .. end;`"),
          "return": ("nothing is returned", "define the result by an equation, as `y = ..;`")}
# Names of types elsewhere, with the type that is likely to be meant.
TYPES = {"int": "fix<16,0>", "integer": "fix<16,0>", "short": "fix<16,0>", "float": "fix<16,15>",
         "double": "fix<16,15>", "real": "fix<16,15>", "fixed": "fix<16,15>", "boolean": "bool", "bit": "bool"}
# Names of modes elsewhere.
MODES = {"rnd": "round", "rounding": "round", "nearest": "round", "half_up": "round", "saturate": "sat",
         "saturated": "sat",
         "clip": "sat", "clamp": "sat", "wrap": "trunc", "floor": "trunc", "truncate": "trunc", "none": "trunc"}
MISSPELT_FIX = ("fix", "fixx", "ffix", "fiix", "ifx", "fxi", "ix", "fx", "fixed", "sfix", "ufix")
OPERATORS = ("+", "-", "*", "<<", ">>", "&", "|", *COMPARISONS)


def report_of(source: Source, kind: str, at: int) -> Report:
    if kind == "BadByte":
        return bad_byte(source, at)
    if kind == "BadNumber":
        return bad_number(source, at)
    if kind == "OpenComment":
        return open_comment(source, at)
    return syntax(source, at) if kind == "Syntax" else too_deep(source, at)


def end_of_last(source: Source) -> Span:
    """The place after the last token, where something is wanted."""
    last = source.tokens[-1].end if source.tokens else 0
    return source.text.span(last, last + 1)


@dataclass
class Stop:
    """The token with which no program goes on, the one before it, and what the grammar wants there in words."""
    source: Source
    position: int
    token: Token | None
    before: Token | None
    wanted: str

    def here(self) -> Token:
        """The token, where the source does not end."""
        return sure(self.token)

    def last(self) -> Token:
        """The one before it, where it is not the first."""
        return sure(self.before)

    def tokens(self) -> list[Token]:
        return self.source.tokens

    def ahead(self, by: int = 1) -> str:
        """The text of a token after it, or nothing."""
        tokens, position = self.source.tokens, self.position + by
        return tokens[position].text if 0 <= position < len(tokens) else ""

    def is_at(self, *texts: str) -> bool:
        return self.token is not None and self.token.text in texts

    def is_after(self, *texts: str) -> bool:
        return self.before is not None and self.before.text in texts

    def span(self, first: int, last: int) -> Span:
        """The place from a token to another one, by how far they are from this."""
        tokens = self.source.tokens
        return self.source.text.span(tokens[self.position + first].start, tokens[self.position + last].end)

    def edit(self, first: int, last: int, text: str) -> Edit:
        """The replacement of the tokens from one to another one, by how far they are from this."""
        tokens = self.source.tokens
        return self.source.text.edit(tokens[self.position + first].start, tokens[self.position + last].end, text)

    def is_joined(self) -> bool:
        """Whether the next token follows directly on this one."""
        tokens, position = self.source.tokens, self.position
        return position + 1 < len(tokens) and tokens[position].end == tokens[position + 1].start

    def is_item(self) -> bool:
        """Whether an equation or a loop may begin here."""
        return self.wanted.startswith("an equation")

    def is_equals(self) -> bool:
        """Whether the `=` of an equation is wanted here."""
        return self.wanted.startswith("`=`")


def syntax(source: Source, position: int) -> Report:
    tokens = source.tokens
    token = tokens[position] if position < len(tokens) else None
    stop = Stop(source, position, token, tokens[position - 1] if position else None, wanted_at(source, position))
    span = source.text.span(token.start, token.end) if token else end_of_last(source)
    for rule in RULES:
        report = rule(stop)
        if report:
            report.span = report.span or span
            return report
    there = f"`{token.text}` stands there" if token else "the source ends"
    what = stop.wanted or "something else"
    cure, edits = edit_for(source, position, stop.wanted) or (f"write {what}.", [])
    return Report(f"{what} is wanted here, and {there}", cure, GRAMMAR, span).by(*edits)


def wanted_at(source: Source, position: int) -> str:
    """What the grammar wants at a token, where it names that token."""
    fault = source.unexpected
    return fault.wanted if isinstance(fault, Unexpected) and fault.position == position else ""


def missing_semicolon(stop: Stop) -> Report | None:
    if "`;`" not in stop.wanted or stop.before is None or stop.is_at(")"):
        return None
    line = stop.source.line
    if stop.token and not stop.is_at("end") and line(stop.token.start) == line(stop.before.end - 1):
        return None
    return Report(f"a `;` is missing after `{stop.before.text}`", f"write `;` after `{stop.before.text}`.", GRAMMAR,
                  stop.source.text.span(stop.before.end, stop.before.end + 1)) \
        .by(stop.source.text.edit(stop.before.end, stop.before.end, ";"))


def type_first(stop: Stop) -> Report | None:
    """A type before the name that it is for: `fix<16,15> x`."""
    if not (stop.is_at("fix", "bool") and stop.wanted == "a name"):
        return None
    last = next((k for k in range(9) if stop.is_at("bool") or stop.ahead(k) == ">"), None)
    position = stop.position + (last or 0) + 1
    if last is None or position >= len(stop.tokens()) or stop.tokens()[position].kind != "name":
        return None
    of = stop.source.text.chars[stop.here().start:stop.tokens()[position - 1].end]
    written = f"{stop.tokens()[position].text} : {of}"
    return Report("a name comes before its type", f"write `{written}`.", DECLARATIONS, stop.span(0, last + 1)) \
        .by(stop.edit(0, last + 1, written))


def kept_word(stop: Stop) -> Report | None:
    token = stop.token
    if stop.is_at("=") and stop.is_after("end"):
        return Report("`end` is a word of the language, and no name", "take another name.", TEXT, stop.span(-1, -1))
    if token and token.kind == "reserved" and re.search(r"\bname\b", stop.wanted):
        what = "is kept for later" if token.text in KEPT_FOR_LATER else "is a word of the language"
        return Report(f"`{token.text}` {what}, and no name", "take another name.", TEXT)
    if token and token.text in KEPT_FOR_LATER:
        return Report(f"`{token.text}` is kept for later, and has no meaning yet", "take it out, or take another name.",
                      TEXT)
    return None


def other_word(stop: Stop) -> Report | None:
    """A word of another language, which is a name here."""
    for token, by in ((stop.token, 0), (stop.before, -1)):
        is_there = by == 0 or stop.is_equals() or token and token.text == "not"
        if stop.is_at("else") and stop.ahead() == "if":
            return Report("the next case begins with `||`", "write `||` in the place of `else if`.", CONDITIONALS,
                          stop.span(0, 1)) \
                .by(stop.edit(0, 1, "||"))
        if token and token.text in OTHERS and token.kind == "name" and is_there:
            short, cure = OTHERS[token.text]
            report = Report(short, f"{cure} in the place of `{token.text}`.",
                            CONDITIONALS if token.text in ("then", "else") else GRAMMAR, stop.span(by, by))
            written = cure.removeprefix("write `").removesuffix("`")
            return report if ".." in written else report.by(stop.edit(by, by, written))
    return None


def other_type(stop: Stop) -> Report | None:
    if stop.is_at(",") and stop.ahead(-2) == "<" and stop.ahead(-3).lower() in MISSPELT_FIX:
        return Report(f"`{stop.ahead(-3)}` is no type: the types are `fix<W,F>` and `bool`",
                      f"write `fix` in the place of `{stop.ahead(-3)}`.", language("Words and types"),
                      stop.span(-3, -3)) \
            .by(stop.edit(-3, -3, "fix"))
    if stop.token and stop.token.kind == "name" and stop.wanted == "a type":
        name = stop.token.text
        if stop.ahead() == "<":
            return Report(f"`{name}` is no type: the types are `fix<W,F>` and `bool`",
                          f"write `fix` in the place of `{name}`.",
                          language("Words and types")).by(stop.edit(0, 0, "fix"))
        written = TYPES.get(name.lower(), "fix<16,15>")
        return Report(f"`{name}` is no type: the types are `fix<W,F>`, words of W bits with F of them after the point, "
                      f"and `bool`", f"write `{written}` in the place of `{name}`.",
                      language("Words and types")).by(stop.edit(0, 0, written))
    return None


def two_modes(stop: Stop) -> Report | None:
    """Two modes in a type that are not `round,sat`."""
    if not (stop.is_at(",") and stop.is_after("trunc", "sat") and stop.ahead() in ("trunc", "round", "sat")):
        return None
    given = f"{stop.last().text},{stop.ahead()}"
    right = "round,sat" if given == "sat,round" else "sat" if "sat" in given else stop.ahead()
    return Report(f"`{given}` is no mode: the modes are `trunc`, `round`, `sat` and `round,sat`",
                  f"write `{right}` in the place of `{given}`.", language("Words and types"), stop.span(-1, 1)) \
        .by(stop.edit(-1, 1, right))


def other_mode(stop: Stop) -> Report | None:
    """A mode by another name, or after `round` one that is none beside it."""
    if not stop.wanted.endswith("`sat`") or stop.token is None or stop.ahead(-1) != ",":
        return None
    word, modes = stop.token.text, "the modes are `trunc`, `round`, `sat` and `round,sat`"
    if stop.ahead(-2) == "round":
        if word in ("round", "trunc"):
            return Report(f"`round,{word}` is no mode: {modes}", "write `round` alone." if word == "round" else
                          "write `round` or `trunc`.", language("Words and types"), stop.span(-2, 0)) \
                .by(*[stop.edit(-2, 0, "round")] if word == "round" else [])
        return None
    if stop.token.kind != "name":
        return None
    close = difflib.get_close_matches(word.lower(), ("round", "sat", "trunc"), 1, 0.6)
    like = MODES.get(word.lower()) or next(iter(close), None)
    if like is None:
        return Report(f"`{word}` is no mode: {modes}", "write one of these, or the type without a mode.",
                      language("Words and types"))
    return Report(f"`{word}` is no mode: {modes}", f"write `{like}` in the place of `{word}`.",
                  language("Words and types")) \
        .by(stop.edit(0, 0, like))


def late_var(stop: Stop) -> Report | None:
    if not stop.is_at("var"):
        return None
    tokens, position = stop.tokens(), stop.position
    if stop.wanted == "`begin`":
        return Report("`var` stands after `begin`", "move `begin` up, to before this line.", GRAMMAR) \
            .by(*moved_begin(stop))
    begin = next((k for k in range(position - 1, -1, -1) if tokens[k].text == "begin"), None)
    if begin is None:
        return None
    first = next((k for k in range(begin + 1, position) if tokens[k].text == ";" and k + 1 < position
                  and tokens[k + 1].text != "var"), begin)
    return Report("`var` stands before the first equation", "move this line up, to after `begin`.", GRAMMAR) \
        .note("This is the first equation.", stop.source.text.span(tokens[first + 1].start, tokens[first + 1].end)) \
        .by(*moved(stop, tokens[begin].end, "\n  {}"))


def moved_begin(stop: Stop) -> list[Edit]:
    """The edits by which the next `begin` comes before a token."""
    begin = next((token for token in stop.tokens()[stop.position:] if token.text in ("begin", "func")), None)
    if begin is None or begin.text != "begin":
        return []
    text = stop.source.text
    return [text.edit(stop.here().start, stop.here().start, "begin\n"), text.edit(begin.start, begin.end, "")]


def moved(stop: Stop, to: int, shape: str) -> list[Edit]:
    """The edits by which what begins with a token and ends with `;` stands elsewhere; none where it has no end."""
    end = next((token.end for token in stop.tokens()[stop.position:] if token.text in (";", "end")), None)
    said = stop.source.text.chars[stop.here().start:end]
    if end is None or not said.endswith(";"):
        return []
    text = stop.source.text
    return [text.edit(to, to, shape.format(text.data[stop.here().start:end].decode(errors="replace"))),
            text.edit(stop.here().start, end, "")]


def other_declaration(stop: Stop) -> Report | None:
    """A declaration without `var`, or with the type of another language: `int t : ..`; an equation after a word too
    many."""
    token, before = stop.token, stop.before
    if not (stop.is_equals() and token and before and before.kind == "name" and stop.ahead(-2) in (";", "begin")):
        return None
    if stop.is_at(":") and stop.ahead() in ("fix", "bool"):
        return Report("a declaration begins with `var`", f"write `var` before `{before.text}`.", DECLARATIONS,
                      stop.span(-1, -1)) \
            .by(stop.source.text.edit(before.start, before.start, "var "))
    if token.kind != "name":
        return None
    if stop.ahead() in ("=", "@@"):
        return Report("an equation begins with the signal that it defines", f"take `{before.text}` away.",
                      language("Equations"),
                      stop.span(-1, -1)).by(stop.source.text.edit(before.start, token.start, ""))
    end = next((k for k in range(1, 64) if stop.ahead(k) in (";", "=", ":", "")), 64)
    if stop.ahead(end) != ":":
        return None
    return Report("a declaration begins with `var`", f"write `var` in the place of `{before.text}`.", DECLARATIONS,
                  stop.span(-1, -1)) \
        .by(stop.edit(-1, -1, "var"))


def table_inside(stop: Stop) -> Report | None:
    if stop.is_at("const") and stop.is_item():
        func = next(token for token in reversed(stop.tokens()[:stop.position]) if token.text == "func")
        return Report("a table is declared outside of the functions", "move this line up, to before `func`.",
                      DECLARATIONS) \
            .by(*moved(stop, func.start, "{}\n"))
    return None


def valued_var(stop: Stop) -> Report | None:
    """A value where a signal is declared."""
    tokens = stop.tokens()
    head = next((k for k in range(stop.position - 1, -1, -1) if tokens[k].text in (";", "begin")), None)
    if not stop.is_at("=") or head is None or tokens[head + 1].text != "var":
        return None
    if stop.wanted != "`;`":
        return Report("`var` declares signals with their type, and an equation defines one",
                      f"write `: fix<16,15>;` here, and below the declarations the equation `{stop.last().text} = "
                      f"..;`.", DECLARATIONS)
    name = tokens[head + 2].text
    return Report("`var` declares signals, and an equation defines one",
                  f"write `;` here, and below the declarations the equation `{name} = ..;`.", DECLARATIONS)


def table_words(stop: Stop) -> Report | None:
    if stop.token and in_words(stop.tokens(), stop.position) and (stop.is_at("[", ",", *OPERATORS)
                                                                  or stop.token.kind == "name"):
        return words_of_table(stop.token.text)
    return None


def untyped_table(stop: Stop) -> Report | None:
    if stop.is_at("=") and stop.wanted == "`:`" and stop.ahead(-2) == "const":
        name = stop.last().text
        return Report(f"a table has a type, and `{name}` has none",
                      f"write it after the name, as `{name} : fix<16,15> = ..;`.",
                      DECLARATIONS)
    return None


def named_dim(stop: Stop) -> Report | None:
    if stop.token and stop.token.kind == "name" and stop.wanted == "the number of elements":
        return Report(f"the number of elements is written there, and `{stop.token.text}` is a name",
                      f"write the number in the place of `{stop.token.text}`.", DECLARATIONS)
    return None


def no_parameter(stop: Stop) -> Report | None:
    if not (stop.is_at(")") and stop.is_after("(")):
        return None
    if stop.wanted == "a name" and stop.ahead(-3) == "func":
        return Report("a function has one parameter or more", "write one, as `x : fix<16,15>`.", language("Functions"))
    if stop.wanted == "an expression" and stop.ahead(-2) not in ("(", "="):
        return Report("a call has an argument for each parameter", "write the arguments.", language("Functions"))
    return None


def other_type_part(stop: Stop) -> Report | None:
    """What is wrong inside a type, or in a cast."""
    token = stop.token
    rule = language("Words and types")
    if stop.wanted.startswith("a type `fix"):
        return Report("a table has numbers, and no truth values",
                      "take the table away, and write `true` or `false` where it is read.",
                      DECLARATIONS)
    found = re.fullmatch(r"(\d+)\.(\d+)", token.text) if token else None
    if found and stop.wanted == "the bits of a word" and stop.ahead() == ">":
        written = f"{found[1]},{found[2]}"
        return Report("the two numbers of a type have a comma between them", f"write `{written}`.",
                      rule).by(stop.edit(0, 0, written))
    if stop.is_at("-") and stop.wanted in ("the bits of a word", "the bits after the point"):
        return Report("the numbers of a type have no sign", "write a number from 0 to the bits of the word.", rule)
    if token and stop.is_at("round", "sat", "trunc") and stop.wanted == "an expression":
        return Report(f"`{token.text}` is a mode, and stands in a type",
                      f"write a cast, as `fix<16,15,{token.text}>(x)`.", rule)
    if stop.wanted != "`(`" or not stop.is_after(">") or token is None:
        return None
    short = "the expression of a cast stands in parentheses"
    if token.kind in ("name", "number") and stop.ahead() in (";", ")", "||", "->", "fi", *OPERATORS):
        return Report(short, f"write `({token.text})`.",
                      language("Products and casts")).by(stop.edit(0, 0, f"({token.text})"))
    return Report(short, "write them around it, as `fix<16,15>(x)`.", language("Products and casts"))


def decimal_comma(stop: Stop) -> Report | None:
    """A number with a comma for its point."""
    if not (stop.is_at(",") and "operator" in stop.wanted and stop.before and stop.before.text.isdecimal()):
        return None
    position = stop.position + 1
    after = stop.tokens()[position] if position < len(stop.tokens()) else None
    if after is None or not after.text.isdecimal():
        return None
    if (stop.before.end, stop.here().end) != (stop.here().start, after.start):
        return None
    written = f"{stop.before.text}.{after.text}"
    return Report("a number has a point, and no comma", f"write `{written}`.", TEXT,
                  stop.span(-1, 1)).by(stop.edit(-1, 1, written))


def other_head(stop: Stop) -> Report | None:
    """The head of a function in another language."""
    if stop.wanted == "a name" and stop.is_at("->") and stop.is_after(")"):
        return Report("the results follow the parameters directly", "take `->` away.",
                      language("Functions")).by(stop.edit(0, 0, ""))
    is_head = stop.wanted == "`const` or `func`" and stop.token and stop.token.kind == "name"
    position = stop.position + 1
    if is_head and stop.ahead(2) == "(" and stop.tokens()[position].kind == "name":
        return Report("a function begins with `func`", f"write `func` in the place of `{stop.here().text}`.",
                      language("Functions")) \
            .by(stop.edit(0, 0, "func"))
    return None


def delayed_sum(stop: Stop) -> Report | None:
    if not stop.is_at("@") or not stop.is_after(")", "fi"):
        return None
    return Report("a delay stands after a name",
                  "define a signal by the expression, as `t = ..;`, and write `t@..` here.",
                  DELAYS)


def delayed_target(stop: Stop) -> Report | None:
    if stop.is_at("@") and stop.is_equals():
        return Report("an equation defines the word of this sample, and what a signal had before the first one is "
                      "written with `@@`", "write `@@` in the place of `@`, and a number on the right.", DELAYS)
    return None


def signed_amount(stop: Stop) -> Report | None:
    """A delay or a shift by less than 0."""
    number = stop.ahead()
    if stop.is_at("-") and stop.is_after("@") and not number.isdecimal():
        return Report("a delay is how many samples ago, 0 or more", "take `-` away.", DELAYS).by(stop.edit(0, 0, ""))
    if not stop.is_at("-") or not number.isdecimal():
        return None
    if stop.is_after("@"):
        return Report("a delay is how many samples ago, 0 or more",
                      f"write `@{number}` for the word of {counted(int(number), 'sample')} ago.", DELAYS,
                      stop.span(0, 1)).by(stop.edit(0, 1, number))
    if stop.is_after("<<", ">>"):
        other = "<<" if stop.is_after(">>") else ">>"
        return Report("a shift is by 0 or more bits", f"write the other shift, `{other} {number}`.",
                      language("Equations"), stop.span(-1, 1)).by(stop.edit(-1, 1, f"{other} {number}"))
    return None


def subscript_in_number(stop: Stop) -> Report | None:
    if stop.is_at("[") and stop.before and stop.before.kind == "name" and stop.wanted in ("`)`", "`..`", "`]`"):
        return Report(f"`{stop.before.text}[..]` is a word, and a number is wanted that is known before the first "
                      f"sample",
                      "write the number itself, or the index of a loop around it.", language("Loops"), stop.span(-1, 0))
    return None


def lone_equals(stop: Stop) -> Report | None:
    if stop.is_at("=") and "operator" in stop.wanted:
        if stop.ahead() == ">" and stop.is_joined():
            return Report("at least is `>=`", "write `>=` in the place of `=>`.", GRAMMAR,
                          stop.span(0, 1)).by(stop.edit(0, 1, ">="))
        return Report("`=` defines a signal, and `==` compares", "write `==`.", GRAMMAR).by(stop.edit(0, 0, "=="))
    if stop.is_at(">") and stop.is_after("<") and stop.wanted == "an expression":
        return Report("unequal is `!=`", "write `!=` in the place of `<>`.", GRAMMAR,
                      stop.span(-1, 0)).by(stop.edit(-1, 0, "!="))
    if stop.is_at("=") and stop.ahead(-2) == "(" and stop.wanted == "`,` or `)`":
        return Report("the index of a loop is followed by `:`", "write `:` in the place of `=`.", language("Loops")) \
            .by(stop.edit(0, 0, " :"))
    return None


def chained_comparison(stop: Stop) -> Report | None:
    if stop.token and stop.token.text in COMPARISONS and "operator" in stop.wanted:
        return Report("a comparison has two sides", "join two comparisons by `&`, as `a < x & x < b`.", GRAMMAR)
    return None


def doubled(stop: Stop) -> Report | None:
    if stop.is_at("&") and stop.is_after("&"):
        return Report("`and` is `&`", "write `&` in the place of `&&`.", GRAMMAR,
                      stop.span(-1, 0)).by(stop.edit(-1, 0, "&"))
    if stop.is_at(">", "<") and stop.is_after(stop.here().text * 2) and "whole number" in stop.wanted:
        shift = stop.last().text
        return Report(f"a shift is `{shift}`, which keeps the sign" if shift == ">>" else f"a shift is `{shift}`",
                      f"write `{shift}`.",
                      language("Equations"), stop.span(-1, 0)).by(stop.edit(-1, 0, shift))
    if stop.is_at("*") and stop.is_after("*"):
        return Report("there is no power", "write a product, as `x * x`.", language("Equations"), stop.span(-1, 0))
    if stop.is_at("||") and "`||`" not in stop.wanted and "operator" in stop.wanted:
        return Report("`or` is `|`, and `||` begins the next case of `if`", "write `|` in the place of `||`.",
                      GRAMMAR) \
            .by(stop.edit(0, 0, "|"))
    if stop.is_at("-") and stop.ahead() == "-" and stop.is_item():
        return line_comment(stop.source.text, stop.here().start, "--", "a comment begins with `/*` and ends with `*/`")
    return None


def updated(stop: Stop) -> Report | None:
    """An equation as an assignment: `y += x`."""
    if not (stop.token and stop.token.text in OPERATORS and stop.ahead() == "=" and stop.is_equals()):
        return None
    first = next(k for k in range(-1, -stop.position - 1, -1) if stop.ahead(k - 1) in (";", "begin", ""))
    start = stop.tokens()[stop.position + first].start
    name, sign = " ".join(stop.source.text.chars[start:stop.last().end].split()), stop.token.text
    report = Report(f"there is no `{sign}=`: an equation says what a signal is in each sample",
                    f"write `{name} = {name}@1 {sign} ..;` for the word of one sample ago and more.",
                    language("Equations"), stop.span(0, 1))
    return report.by(stop.edit(0, 1, f"= {name}@1 +")) if sign == "+" else report


def no_target(stop: Stop) -> Report | None:
    """An expression that defines nothing."""
    if stop.token and stop.token.text in ("+", "-", "*", "<<", ">>", "&", "|") and stop.is_equals():
        return Report("an equation begins with the signal that it defines, and with `=`",
                      "write the signal and `=` before it, as `y = ..;`, or take it away.", language("Equations"))
    return None


def choice_as_item(stop: Stop) -> Report | None:
    if stop.is_at("if") and stop.is_item():
        return Report("an `if` gives a word, and stands on the right of `=`",
                      "write `y = if condition -> value || other fi;`.",
                      CONDITIONALS)
    return None


def bare_results(stop: Stop) -> Report | None:
    if stop.wanted == "`(`" and [stop.ahead(k) for k in (-3, -2)] == [")", "="] and stop.last().kind == "name":
        return Report("several places are defined by a call",
                      "write `(p, q) = f(..);`, or an equation for each, as `p = ..;`.",
                      language("Functions"))
    if stop.is_at(",") and stop.is_equals() and stop.is_after(">", "bool"):
        return Report("several results stand in parentheses",
                      "write `( .. )` around them, as `(p : fix<16,15>, q : bool)`.",
                      language("Functions"))
    if stop.is_at(",") and stop.is_equals():
        return Report("the places of several results stand in parentheses",
                      "write `( .. )` around them, as `(p, q) = f(..);`.",
                      language("Functions"))
    return None


def bodiless_loop(stop: Stop) -> Report | None:
    if stop.wanted == "`begin`" and stop.is_after("::"):
        return Report("the equations of a loop stand between `begin` and `end;`",
                      "write `begin` before them, and `end;` after the last one.", language("Loops"))
    return None


def no_call(stop: Stop, name: str, span: Span) -> Report:
    """The report on brackets after a name that is no function's."""
    if stop.is_equals():
        return Report(f"`{name}(..)` is no signal",
                      f"write `{name}` alone: an equation defines the word of this sample.",
                      language("Equations"), span)
    return Report(f"`{name}(..)` would be a call, and no function is called `{name}`",
                  f"write `{name}@..` for the word of some samples ago, or `{name} * (..)` for a product.",
                  language("Functions"), span)


def is_function(tokens: Sequence[Token], name: str) -> bool:
    """Whether a source declares a function of a name."""
    return any(token.text == "func" and after.text == name for token, after in zip(tokens, tokens[1:]))


def call_inside(stop: Stop) -> Report | None:
    token, before = stop.token, stop.before
    if stop.is_at("(") and before and before.kind == "name" and not is_function(stop.tokens(), before.text):
        return no_call(stop, before.text, stop.span(-1, 0))
    if stop.is_at("(") and before and before.kind == "name":
        return Report(f"a call stands by itself on the right of `=`, and `{before.text}(..)` is inside an expression",
                      f"define a signal by the call, as `t = {before.text}(..);`, and write `t` here. Where no call is "
                      f"meant, "
                      f"write `*` for a product.", language("Functions"), stop.span(-1, 0))
    if token and stop.is_after(")") and stop.wanted == "`;`" and token.text in OPERATORS:
        first = next((k for k in range(-1, -stop.position - 1, -1) if stop.ahead(k) == "="), -1) + 1
        if first < -1 and not is_function(stop.tokens(), stop.ahead(first)):
            return no_call(stop, stop.ahead(first), stop.span(first, -1))
        return Report("a call stands by itself on the right of `=`, and an operator follows it",
                      "define a signal by the call, as `t = ..;`, and write the expression with `t` in an equation of "
                      "its own.", language("Functions"))
    return None


def glued(stop: Stop) -> Report | None:
    if stop.is_at(">=") and "`>`" in stop.wanted:
        return Report("`>=` is one symbol, and `>` ends the type", "write a blank between them, as `> =`.", TEXT) \
            .by(stop.edit(0, 0, "> ="))
    return None


def assigned(stop: Stop) -> Report | None:
    if stop.is_at(":") and stop.ahead() == "=":
        return Report("an equation has `=`", "write `=` in the place of `:=`.", GRAMMAR,
                      stop.span(0, 1)).by(stop.edit(0, 1, "="))
    return None


# The mistakes that are likely, the likelier first.
RULES = (type_first, kept_word, other_word, other_type, other_type_part, two_modes, other_mode, late_var,
         other_declaration, other_head, decimal_comma, table_inside, valued_var, untyped_table, table_words,
         named_dim, no_parameter, delayed_sum, delayed_target, signed_amount, subscript_in_number, lone_equals, doubled,
         chained_comparison, updated, no_target, choice_as_item, bare_results, bodiless_loop, call_inside, glued,
         assigned, missing_semicolon)


def too_deep(source: Source, position: int) -> Report:
    token = source.tokens[position]
    if token.text == "begin":
        return Report("this loop is inside 16 others, and 16 is the most", "put the inner loops into a function.",
                      language("Nesting limits"), source.text.span(token.start, token.end))
    return Report(f"this is the {DEEPEST + 1}th operator or opening of one expression, and {DEEPEST} are the most",
                  "define a part of the expression as a signal of its own.", language("Nesting limits"),
                  source.text.span(token.start, token.end))
