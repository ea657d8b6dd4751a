"""The smallest edit with which a program goes on after a token that it can't have there, found by trying."""
import difflib
import re
from collections.abc import Iterator
from dataclasses import dataclass

from silc.explaining.grammar import Unexpected, parsed
from silc.explaining.program import Source
from silc.explaining.text import KEPT_FOR_LATER, RESERVED, Edit, Token, tokens_of

# The end of a body, as its tokens. What closes something stands directly after what is before it.
END, CLOSING = "end ;", (";", ",", ")", "]", ">", ");")
# Symbols that may be one with what follows them.
GLUED = ("->", "<", ">", ":", "=", "|", "||", "-")
# The tokens that are tried for what the grammar wants, where it is not a token; the first that is in the words.
FILLS = {"`||` and the value in the other case": "|| 0", "`->` and the value": "-> 0",
         "`:` and the type": ": fix<16,15>",
         "`,` and the bits after the point": ", 15", "an expression": "0", "a number": "0",
         "the number of elements": "1",
         "a whole number": "1", "the bits of a word": "16", "a type": "fix<16,15>", "an equation, a loop or `end`": END,
         "name": "t", "the index": "i"}
WORDS, ALIKE = sorted(RESERVED - set(KEPT_FOR_LATER)), 0.6
QUOTED = re.compile(r"`([^`]+)`")
# A token of a place farther from the beginning of its function is not tried, and no program is tried farther than this.
FAR, AHEAD = 20_000, 500
EVERYTHING = 1 << 30


@dataclass(frozen=True)
class Trial:
    """An edit that is tried at a token: its words, the tokens with it, what is written for how many of them, and
    whether it is the token before that is replaced. It may be one of several that are as likely."""
    cure: str
    tokens: list[Token]
    text: str
    removed: int
    added: int
    is_before: bool = False
    is_sure: bool = True


def edit_for(source: Source, position: int, wanted: str) -> tuple[str, list[Edit]] | None:
    """The cure for a token where something else is wanted, in words and as edits, or nothing where no edit is good
    enough."""
    tokens = source.tokens
    first = next((k for k in range(position - 1, -1, -1) if tokens[k].text in ("func", "const")), None)
    first = 0 if first is None else first
    if position - first > FAR:
        return None
    window = tokens[first:position + AHEAD]
    at, is_all = position - first, position + AHEAD >= len(tokens)
    is_first = position in (0, len(tokens)) or (
        source.line(tokens[position].start) > source.line(tokens[position - 1].start))
    # An edit that does not bring the program to the end of this equation says nothing.
    best, reached = None, at
    for trial in trials(window, at, wanted, is_first):
        goes = goes_to(trial.tokens, is_all) + trial.removed - trial.added
        first_kept = at + (trial.removed and not trial.is_before)
        end = next((k for k in range(first_kept, len(window)) if window[k].text == ";"), len(window) - 1)
        if goes > max(reached, end):
            best, reached = trial, goes
    if best is None:
        return None
    return best.cure, [made_edit(source, position, best)] if best.is_sure else []


def trials(window: list[Token], at: int, wanted: str, is_first: bool) -> Iterator[Trial]:
    """The edits at a place, the likeliest first. The token may be the first one of its line."""
    token = window[at].text if at < len(window) else None
    rest = window[at + 1:]
    yield from misspelt(window, at)
    out = [removal(window, at, wanted)] if token else []
    if token in ("+", "*"):
        yield from out
    tries = [*fills(wanted)]
    # At the end of a line what is open may lack its `;` too.
    tries += [(f"`{text};`", f"{text} ;") for _, text in tries if text in (")", "fi") and is_first]
    for shown, text in tries:
        made, _ = tokens_of(text)
        is_exact = shown == f"`{text.replace(' ;', ';')}`"
        yield Trial(f"write {shown}" + (f" before `{token}`." if token else "."), window[:at] + made + window[at:],
                    text, 0, len(made),
                    is_sure=is_exact)
        if token:
            yield Trial(f"write {shown} in the place of `{token}`.", window[:at] + made + rest, text, 1, len(made),
                        is_sure=is_exact)
    yield from out


def misspelt(window: list[Token], at: int) -> Iterator[Trial]:
    """The words of the language that a name there, or the one before it, is like."""
    for place in (at - 1, at):
        token = window[place] if 0 <= place < len(window) else None
        if token is None or token.kind not in ("name", "reserved"):
            continue
        for word in difflib.get_close_matches(token.text.lower(), WORDS, 4, ALIKE):
            made, _ = tokens_of(word)
            yield Trial(f"write `{word}` in the place of `{token.text}`.", window[:place] + made + window[place + 1:],
                        word, 1, 1,
                        is_before=place < at)


def removal(window: list[Token], at: int, wanted: str) -> Trial:
    """The edit by which a token goes. It is sure where the token is there twice, and no operator may be missing."""
    token, kind = window[at].text, window[at].kind
    beside = [window[place].text for place in (at - 1, at + 1) if 0 <= place < len(window)]
    is_sure = token in beside and not (kind in ("name", "number") and "operator" in wanted) or token == ";"
    cure = f"take `{token}` away."
    if not is_sure:
        lacking = "`(` where it opens" if token == ")" else "`[` where it opens" if token == "]" else \
            "`,` before it" if "`,`" in wanted and kind in ("name", "number") else \
            "an operator before it" if kind in ("name", "number") else "what is missing before it"
        cure = f"take `{token}` away, or write {lacking}."
    return Trial(cure, window[:at] + window[at + 1:], "", 1, 0, is_sure=is_sure)


def made_edit(source: Source, position: int, trial: Trial) -> Edit:
    """The edit of the text: in the place of a token, or else directly after the one before it."""
    tokens, text = source.tokens, trial.text.replace(" ;", ";")
    if trial.removed:
        token = tokens[position - trial.is_before]
        return source.text.edit(token.start, token.end, text)
    place = tokens[position - 1].end if position else 0
    rest = source.text.chars[place:place + 1]
    lead = "" if text in CLOSING or not position else "\n" if text == "end;" else " "
    # What follows directly may be one token with it.
    return source.text.edit(place, place, lead + text + (" " if rest.isalnum() or rest == "_" or text in GLUED else ""))


def fills(wanted: str) -> Iterator[tuple[str, str]]:
    """What may be written for what is wanted: its words, and its tokens."""
    for words, text in FILLS.items():
        if words in wanted:
            yield "`end;`" if text == END else wanted.removeprefix("an operator or "), text
    for text in QUOTED.findall(wanted):
        if text != "end":
            yield f"`{text}`", text


def goes_to(tokens: list[Token], is_all: bool) -> int:
    """The position of the first token with which no program goes on; one beyond all where there is none."""
    try:
        parsed(tokens)
    except Unexpected as fault:
        return fault.position if is_all or fault.position < len(tokens) else EVERYTHING
    return EVERYTHING
