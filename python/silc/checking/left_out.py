"""What may be left out of a source with a fault, so that the next one can be found. What is written in its place
defines the same signals by constants, and can have no fault of its own."""
import math
import re
from dataclasses import dataclass

from silc.explaining.grammar import Decl, Func, Node
from silc.explaining.program import Expansion, Overflow, Source, definitions, element_name, every_item, targets_of
from silc.explaining.text import Token, tokens_of
from silc.sure import sure

IN_TEXT = ("BadByte", "BadNumber", "OpenComment", "Syntax", "Deep")
STRUCTURE, TOPS = ("begin", "end", "func", "const", "var"), ("func", "const")
# So many pieces that are no tokens are passed at most.
MOST_BAD = 50


@dataclass(frozen=True)
class Omission:
    """What is left out, from a place to another one, and what stands there then. Of a whole function or table it is the
    token that begins it; of a part of a function the place of its name, where what is left out may define something,
    and the names that it may declare, where it could not be read."""
    start: int
    end: int
    text: str = ""
    top: str = ""
    func: int | None = None
    names: frozenset[str] = frozenset()


def omission(source: Source, kind: str | None, place: int | None) -> Omission | None:
    """What is left out for a fault, or nothing where it would not be certain that what follows is a fault."""
    if kind is None or place is None or kind == "OpenComment":
        return None
    if kind in IN_TEXT:
        return of_tokens(source, kind, place)
    if kind == "NotDefined":
        return of_missing(source, place)
    if kind == "Loop":
        elements = Expansion(source).elements
        return of_item(source, kind, elements[place].at) if place < len(elements) else None
    return of_item(source, kind, place) or of_word(source, place)


# Tokens


def lenient_tokens(chars: str) -> list[Token]:
    """All tokens of a text, with what is none as tokens of the kind `bad`."""
    made, place = [], 0
    for _ in range(MOST_BAD):
        tokens, bad = tokens_of(" " * place + chars[place:])
        made += tokens
        if bad is None or chars.startswith("/*", bad):
            break
        found = sure(re.match(r"//[^\n]*|\d[\w.]*|.", chars[bad:], re.A | re.S))
        place = bad + found.end()
        made.append(Token("bad", found[0], bad, place))
    return made


def of_tokens(source: Source, kind: str, place: int) -> Omission | None:
    """The item around a token with which no program goes on, or the whole function or table."""
    tokens = lenient_tokens(source.text.chars)
    starts = {token.start: at for at, token in enumerate(tokens)}
    at = place if kind in ("Syntax", "Deep") else starts.get(place, len(tokens))
    if at < len(tokens) and tokens[at].text.startswith("//"):
        return Omission(tokens[at].start, tokens[at].end)
    item, top = item_at(tokens, at), top_at(tokens, at)
    found = item or top
    if not found:
        return None
    first, last = found
    start, end = tokens[first].start, tokens[last - 1].end
    if not item:
        return Omission(start, end, top=tokens[first].text,
                        names=frozenset(token.text for token in tokens[first + 1:first + 2]))
    heads = [k for k, token in enumerate(tokens[:first]) if token.text in TOPS]
    names = frozenset(token.text for token in tokens[first:last] if token.kind == "name")
    return Omission(start, end, func=tokens[heads[-1] + 1].start, names=names)


def item_at(tokens: list[Token], at: int) -> tuple[int, int] | None:
    """The positions of the tokens of the item around one, where no words of the structure are among them."""
    first, last = at, at
    while first > 0 and tokens[first - 1].text not in (";", *STRUCTURE):
        first -= 1
    while last < len(tokens) and tokens[last].text not in (";", *STRUCTURE):
        last += 1
    if last == len(tokens) or tokens[last].text not in (";", "end") or first == 0:
        return None
    last += tokens[last].text == ";"
    is_item = depth_at(tokens, first) > 0 and tokens[first - 1].text in (";", "begin") and first < last
    return (first, last) if is_item else None


def depth_at(tokens: list[Token], at: int) -> int:
    """How many bodies of a function are open before a token."""
    depth = 0
    for token in reversed(tokens[:at]):
        if token.text in TOPS:
            break
        depth += (token.text == "begin") - (token.text == "end")
    return depth


def top_at(tokens: list[Token], at: int) -> tuple[int, int] | None:
    """The positions of the tokens of the function or table around one, or of the one before where it does not end."""
    tops = [k for k, token in enumerate(tokens) if token.text in TOPS]
    if 0 < at < len(tokens) and at not in tops and tokens[at - 1].text == ";" and depth_at(tokens, at) == 0:
        # What stands between them.
        return at, min((k for k in tops if k > at), default=len(tokens))
    first = max((k for k in tops if k < at), default=0 if tops and at < tops[0] else None)
    if first is None and at in tops:
        first = at
    if first is None:
        return None
    return first, min((k for k in tops if k > first and k >= at), default=len(tokens))


# Items


def of_item(source: Source, kind: str, place: int) -> Omission | None:
    """An item with a fault, with constants in the place of what it gives."""
    func = source.function_at(place)
    items = [item for item, _ in every_item(func.items) if item.start <= place < item.end] if func else []
    if not func or not items or items[-1].kind == "loop":
        return None
    item = items[-1]
    targets = targets_of(item)
    if item.kind == "initial":
        return Omission(item.start, item.end)
    is_target = kind != "Loop" and any(target.start <= place < target.end for target in targets)
    given = [text for target in targets if (text := constants(source, func, target)) is not None]
    if is_target or len(given) < len(targets):
        # The target may be meant for another one.
        return Omission(item.start, item.end, func=func.at)
    return Omission(item.start, item.end, " ".join(given))


def zero(decl: Decl) -> str:
    return "false" if decl.type.width is None else "0"


def constants(source: Source, func: Func, target: Node) -> str | None:
    """Equations that define what a target names by constants, or nothing where it is no signal."""
    decl = source.decl(func, target.name)
    if decl is None or decl.role == "table":
        return None
    if decl.dims and not target.subs:
        return " ".join(f"{element_name(decl, place)} = {zero(decl)};" for place in range(math.prod(decl.dims)))
    return f"{source.text.chars[target.start:target.end]} = {zero(decl)};".replace("\n", " ")


def of_missing(source: Source, place: int) -> Omission | None:
    """Equations for the elements of a signal that have none, at the end of its function."""
    func = source.function_at(place)
    decl = next((decl for decl in func.decls() if decl.at == place), None) if func else None
    if func is None or decl is None:
        return None
    try:
        given = {spot for other, spot, *_ in definitions(source, func) if other is decl}
    except (Overflow, KeyError):
        return None
    tokens = [token for token in source.tokens if token.start > func.at]
    last = next((k for k, token in enumerate(tokens) if token.text in TOPS), len(tokens))
    end = max((token.start for token in tokens[:last] if token.text == "end"), default=None)
    equations = [f"{element_name(decl, spot)} = {zero(decl)};" for spot in range(math.prod(decl.dims))
                 if spot not in given]
    return Omission(end, end, " ".join(equations) + " ") if end is not None and equations else None


def of_word(source: Source, place: int) -> Omission | None:
    """A number of a table."""
    for table in source.tables.values():
        for word in table.words:
            if word.start <= place < word.end:
                return Omission(word.start, word.end, "0")
    return None
