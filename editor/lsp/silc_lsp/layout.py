"""The layout of a source: its tokens and comments as they are, with the blanks and the ends of lines of the
examples."""
import itertools
import re
from dataclasses import dataclass

from silc.explaining.grammar import Unexpected, parsed
from silc.explaining.text import TOKEN, tokens_of
from silc.linking.blocks import BRACES, DOC
from silc.linking.places import STATEMENT, blanked, has_head

COMMENT, INDENT = "comment", "  "
# How many digits count the numbers that stand in for others; those before them are not in the text.
DIGITS = 6
OPERATORS = ("+", "-", "*", "<<", ">>", "&", "|", "<", "<=", "==", "!=", ">", ">=", "!")
# After these a `-` or a `!` has one part.
BEFORE_SIGN = (*OPERATORS, "=", "->", "||", ",", "(", "[", "@", "@@", ":", "..", "if")
NEVER_BEFORE, NEVER_AFTER = (";", ",", ")", "]", "@", "@@"), ("(", "[", "@", "@@")


class Refused(Exception):
    """Why a source is not laid out."""


@dataclass
class Piece:
    """A token or a comment, how many ends of lines are before it, and how it stands to its neighbours."""
    kind: str
    text: str
    lines: int
    # Whether it is in the brackets of a type, a sign with one part, or an operator without blanks.
    is_typed: bool = False
    is_sign: bool = False
    is_tight: bool = False


def pieces_of(text: str) -> list[Piece]:
    """The tokens and comments of a source."""
    made, place, lines = [], 0, 0
    while place < len(text):
        found = TOKEN.match(text, place)
        place = found.end()
        if found.lastgroup == "space" and not found[0].startswith("/*"):
            lines += found[0].count("\n")
            continue
        made.append(Piece(COMMENT if found.lastgroup == "space" else found.lastgroup, found[0], lines))
        lines = 0
    return made


def laid_out(text: str) -> str:
    """The text in its layout. Raises Refused where it is no program. In one that is to be linked the head and each
    number in braces stay as they are."""
    standing = standing_in(text)
    made = laid_out_plain(with_others(text, standing))
    return with_others(made, {new: old for old, new in standing.items()})


def standing_in(text: str) -> dict[str, str]:
    """What stands in for the head of a source and for numbers in braces, where it has them: a comment, and numbers that
    are not in it."""
    if not has_head(text):
        return {}
    code, at = blanked(text), 0
    start = STATEMENT.match(code).start("word")
    while found := STATEMENT.match(code, at):
        at = found.end()
    doc = DOC.match(text, at)
    head = text[start:doc.end() if doc else at]
    numbers = itertools.count(next(first for first in itertools.count(10**DIGITS, 10**DIGITS)
                                   if str(first)[:-DIGITS] not in text))
    return {head: f"/*{next(numbers)}*/"} | {found[0]: str(next(numbers)) for found in BRACES.finditer(code, at)}


def with_others(text: str, others: dict[str, str]) -> str:
    """The text with other parts in the place of some, the longest first."""
    if not others:
        return text
    pattern = "|".join(re.escape(part) for part in sorted(others, key=len, reverse=True))
    return re.sub(pattern, lambda found: others[found[0]], text)


def laid_out_plain(text: str) -> str:
    tokens, bad = tokens_of(text)
    if bad is not None:
        raise Refused("the source has a fault, and its layout stays as it is")
    try:
        parsed(tokens)
    except (Unexpected, RecursionError) as fault:
        raise Refused("the source has a fault of its grammar, and its layout stays as it is") from fault
    pieces = pieces_of(text)
    related([piece for piece in pieces if piece.kind != COMMENT])
    made = Layout(pieces).text()
    if [(one.kind, one.text) for one in pieces_of(made)] != [(one.kind, one.text) for one in pieces]:
        raise Refused("its tokens or comments would change, and its layout stays as it is")
    return made.replace("\n", "\r\n") if re.search(r"\r?\n", text + "\n")[0] == "\r\n" and "\r" not in made else made


def related(tokens: list[Piece]) -> None:
    """Finds the tokens of types, the signs, and the operators of manifest numbers."""
    in_type, open_places = False, []
    for at, token in enumerate(tokens):
        before = tokens[at - 1] if at else Piece("", "", 0)
        in_type = in_type or token.text == "<" and before.text == "fix"
        token.is_typed = in_type
        if in_type and token.text == ">":
            in_type = False
        if token.text in ("-", "!") and (before.text in BEFORE_SIGN and not (before.is_typed and before.text == ">")):
            token.is_sign = True
        if token.text in ("[", "("):
            is_number = token.text == "[" or before.text in ("@", "@@", "<<", ">>")
            open_places.append((at, is_number or bool(open_places) and open_places[-1][1]))
        elif token.text in ("]", ")") and open_places:
            first, is_number = open_places.pop()
            if is_number:
                manifest(tokens[first + 1:at], token.text == "]")
        if token.text == "::":
            bounds(tokens[:at])


def manifest(tokens: list[Piece], is_subscript: bool) -> None:
    """A manifest number: products without blanks, and sums too where they are alone or in a subscript."""
    is_mixed = any(token.text == "*" for token in tokens) and not is_subscript
    for token in tokens:
        token.is_tight = token.is_tight or token.text == "*" or token.text in ("+", "-") and not is_mixed


def bounds(tokens: list[Piece]) -> None:
    """The bounds of the loop whose head has just ended."""
    first = next((k for k in range(len(tokens) - 1, -1, -1) if tokens[k].text == ":"), 0)
    middle = next((k for k in range(first, len(tokens)) if tokens[k].text == ".."), first)
    manifest(tokens[first + 1:middle], False)
    manifest(tokens[middle + 1:-1], False)


def is_joined(left: Piece, right: Piece) -> bool:
    """Whether two neighbours in a line have no blank between them."""
    if COMMENT in (left.kind, right.kind):
        return right.text in (";", ",")
    if left.is_sign and right.is_sign:
        return False
    if right.text in NEVER_BEFORE or left.text in NEVER_AFTER or left.is_sign:
        return True
    if left.is_typed and right.is_typed or right.is_typed and left.text == "fix":
        return True
    if right.is_tight and not right.is_sign or left.is_tight:
        return True
    if right.text == "[":
        return True
    return right.text == "(" and (left.kind == "name" or left.is_typed)


class Layout:
    """Lines that are made piece by piece."""

    def __init__(self, pieces: list[Piece]) -> None:
        self.pieces, self.lines, self.line = pieces, [], []
        # How many bodies are open, whether an item is, and by how much the line is indented.
        self.depth, self.is_inside, self.indent = 0, False, 0

    def text(self) -> str:
        for at, piece in enumerate(self.pieces):
            if self.line and self.is_broken(at):
                self.end_line()
                if piece.lines > 1 and self.pieces[at - 1].text != "begin" and piece.text != "end":
                    self.lines.append("")
            self.take(piece)
        self.end_line()
        return "".join(f"{line}\n" for line in self.lines)

    def take(self, piece: Piece) -> None:
        """Puts a piece at the end of the line, or begins one with it."""
        self.depth -= piece.text == "end"
        if not self.line:
            self.indent = self.depth + (self.is_inside and piece.text not in ("begin", "end"))
        self.line.append(piece)
        self.depth += piece.text == "begin"
        if piece.kind != COMMENT:
            self.is_inside = piece.text not in (";", "begin")

    def is_broken(self, at: int) -> bool:
        """Whether a line ends before a piece: where one ended, and where the structure wants it."""
        piece, last = self.pieces[at], self.pieces[at - 1]
        is_ended = self.last_token() in (";", "begin")
        if piece.kind == COMMENT:
            return piece.lines > 0 or is_ended and self.leads(at)
        is_body = piece.text == "end" or piece.text == "begin" and self.last_token() != "::"
        if last.kind != COMMENT and (piece.text == ";" or piece.text == "begin" and not is_body):
            return False
        return piece.lines > 0 or is_ended or is_body

    def leads(self, at: int) -> bool:
        """Whether a comment stands before something in its line."""
        after = next((piece for piece in self.pieces[at + 1:] if piece.lines or piece.kind != COMMENT), None)
        return after is not None and not after.lines

    def last_token(self) -> str:
        return next((piece.text for piece in reversed(self.line) if piece.kind != COMMENT), "")

    def end_line(self) -> None:
        if self.line:
            text = self.line[0].text
            for left, right in zip(self.line, self.line[1:]):
                text += ("" if is_joined(left, right) else " ") + right.text
            self.lines.append(INDENT * self.indent + text)
        self.line = []
