"""The numbers of a table, among which there are no expressions."""
from collections.abc import Sequence

from silc.explaining.refusals import language
from silc.explaining.report import Report
from silc.explaining.text import Span, Token

DECLARATIONS = language("Declarations")


def in_words(tokens: Sequence[Token], position: int) -> bool:
    """Whether a token is among the words of a table."""
    for k in range(position - 1, -1, -1):
        if tokens[k].text in (";", "func", "begin"):
            return False
        if tokens[k].text == "const":
            return any(token.text == "=" for token in tokens[k:position])
    return False


def words_of_table(char: str, span: Span | None = None) -> Report:
    """What is wrong among the words of a table, by the character that can't stand there."""
    if char in ("[", "{", ","):
        return Report("the numbers of a table stand in parentheses", "write `( .. )` around them, as `(0.5, 0.25)`.",
                      DECLARATIONS, span)
    return Report("a table has numbers, and no expressions",
                  "write the number that it gives, as `0.25` for `0.5 * 0.5`.",
                  DECLARATIONS, span)
