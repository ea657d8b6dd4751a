"""Where the fault of a source is, found in the line that `silc` tells, without `silc_show`."""
from typing import TypeAlias

from silc.explaining.program import Context, Expansion, Source
from silc.explaining.refusals import Refusal
from silc.explaining.typing_rules import LITERAL, MISMATCH, NEEDS_CAST, NOT_BOOL, Typing

# The kind of a fault and its place, as `silc_show` has them.
Found: TypeAlias = tuple[str, int | None]

TOKENS = {"line L: bad byte": "BadByte", "line L: bad number": "BadNumber", "line L: open comment": "OpenComment"}
TYPES = {"line L: type mismatch": MISMATCH, "line L: needs a cast": NEEDS_CAST, "line L: literal out of range": LITERAL,
         "line L: not a truth value": NOT_BOOL}


def fault_in(source: Source, refusal: Refusal, values: dict[str, str]) -> Found | None:
    """The kind of the fault and its place, as `silc_show` has them, or nothing where the line has no such fault."""
    text, line = refusal.text, int(values.get("l", 0))
    if text == "no main":
        return "NoMain", None
    if text in TOKENS:
        return in_line(source, line, TOKENS[text], source.bad_place)
    if text == "line L: syntax" and source.unexpected:
        position = source.unexpected.position
        end = source.tokens[position].start if position < len(source.tokens) else len(source.text.data)
        return ("Syntax", position) if source.line(end) == line else None
    if text in TYPES:
        fault = Typing(source).first()
        return in_line(source, line, TYPES[text], fault.node.at) if fault and fault.kind == TYPES[text] else None
    if text == "line L: unknown name":
        return in_line(source, line, "Unknown", unknown_in(source, line))
    if text == "line L: not defined NAME":
        name = values["name"].partition("[")[0]
        places = [decl.at for func in source.funcs.values() for decl in func.decls()
                  if decl.name == name and source.line(decl.at) == line]
        return ("NotDefined", places[0]) if len(places) == 1 else None
    if text == "line L: loop NAME":
        element = loop_in(source, line, values["name"])
        return ("Loop", element) if element is not None else None
    return None


def in_line(source: Source, line: int, kind: str, place: int | None) -> Found | None:
    return (kind, place) if place is not None and source.line(place) == line else None


def loop_in(source: Source, line: int, name: str) -> int | None:
    """The first element of that name, declared in the line, that depends on itself without a delay."""
    expansion = Expansion(source)
    return next((number for number, element in enumerate(expansion.elements)
                 if element.name() == name and source.line(element.decl.at) == line and expansion.loop_through(number)),
                None)


def unknown_in(source: Source, line: int) -> int | None:
    """The first place of a line that names nothing that may stand there."""
    places = [context.node.at for func in source.funcs.values() for context in source.contexts(func)
              if source.line(context.node.at) == line and is_unknown(source, context)]
    return min(places, default=None)


def is_unknown(source: Source, context: Context) -> bool:
    node, func = context.node, context.func
    if context.role == "call":
        return node.name not in source.funcs
    if context.role == "target" or context.role == "expression" and node.kind == "read":
        decl = source.decl(func, node.name)
        return decl is None or context.role == "target" and decl.role == "table"
    if node.kind != "index":
        return False
    loops = [loop.name for loop in context.loops if context.role != "bound" or loop is not context.item]
    return node.name not in loops
