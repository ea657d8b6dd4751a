"""The tokens of an .antt file, with their places."""
import re
from collections.abc import Iterable
from dataclasses import dataclass

# A comment, a quoted text, a bracket or mark that stands alone, an escaped name, a name or numeral.
TOKEN = re.compile(r"""
    (?P<comment> --[^\n]* )
    | (?P<text> "(?:\\.|[^"\\\n])*" )
    | (?P<mark> [(){}.;,@] )
    | (?P<name> (?:«[^»]*»|[^\s(){}.;,@"«»])+ )""", re.VERBOSE)
OPENERS, CLOSERS = {"(": ")", "{": "}", "[": "]"}, {")", "}", "]"}


@dataclass(frozen=True)
class Token:
    """A token: its kind, its text, its line and column from 0, and whether it touches the one before it."""
    kind: str
    text: str
    line: int
    column: int
    touches: bool
    begins_line: bool

    def is_comment(self) -> bool:
        return self.kind == "comment"


class Unreadable(Exception):
    """A text that is no sequence of tokens."""


def tokens_of_line(line: str, number: int) -> list[Token]:
    """The tokens of one line."""
    at, found = 0, []
    while at < len(line):
        if line[at] == " ":
            at += 1
            continue
        match = TOKEN.match(line, at)
        if not match:
            raise Unreadable(f"line {number + 1}, column {at + 1}: {line[at]!r} begins no token")
        touches = bool(found) and at > 0 and line[at - 1] != " "
        found.append(Token(match.lastgroup, match.group().rstrip(), number, at, touches, not found))
        at = match.end()
    return found


def tokens_of(text: str) -> list[Token]:
    """The tokens of a text, from first to last."""
    return [token for number, line in enumerate(text.split("\n")) for token in tokens_of_line(line, number)]


def words_of(tokens: Iterable[Token]) -> list[str | tuple[str, bool]]:
    """What must stay the same when a text is laid out anew: the tokens, which of them touch, and the comments'
    words."""
    found, in_comment = [], False
    for token in tokens:
        if token.is_comment():
            found += ([] if in_comment else ["--"]) + token.text.lstrip("-").split()
        else:
            found.append((token.text, token.touches))
        in_comment = token.is_comment()
    return found
