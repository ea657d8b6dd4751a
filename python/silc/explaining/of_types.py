"""Why the type of an expression is refused."""
from collections.abc import Sequence
from decimal import Decimal

from silc.explaining.grammar import Node, Type
from silc.explaining.program import Source
from silc.explaining.refusals import language
from silc.explaining.report import Report
from silc.explaining.typing_rules import (LITERAL, MISMATCH, MOST_BITS, NEEDS_CAST, NOT_BOOL, Fault, Typing, fits,
                                          range_of)
from silc.sure import sure


MOST_DIGITS = 18
WIDEST = Type(MOST_BITS, 0, "", 0, 0)


def type_text(of: Type | None) -> str:
    return "a truth value" if of is None or of.width is None else f"`{of.text}`"


def of_types(source: Source, at: int, kind: str) -> Report:
    fault = Typing(source).first()
    if fault is None or fault.node.at != at or fault.kind != kind:
        return Report({MISMATCH: "the types differ", NEEDS_CAST: "a type is needed here",
                       LITERAL: "the number is out of range",
                       NOT_BOOL: "a truth value is wanted here"}[kind], "change the type here.",
                      language("The typing table"), source.at_span(at))
    report = {MISMATCH: mismatch, NEEDS_CAST: needs_cast, LITERAL: literal, NOT_BOOL: not_truth}[kind](source, fault)
    report.span = report.span or source.node_span(fault.node)
    if fault.wanted and fault.wanted.at is not None:
        decl_span = source.at_span(fault.wanted.at)
        report.note(sentence(fault.wanted.why), decl_span)
    elif fault.wanted:
        report.note(sentence(fault.wanted.why))
    return report


def sentence(clause: str) -> str:
    """A clause as a sentence; a name keeps its letters."""
    return (clause if clause.startswith("`") else clause[0].upper() + clause[1:]) + "."


def mismatch(source: Source, fault: Fault) -> Report:
    shown = source.shown(fault.node)
    rule = language("The typing table")
    if fault.wanted is None:
        return truth_operands(source, fault, shown)
    if fault.node.kind == "target":
        return other_result(source, fault, shown)
    is_truth = fault.found is None or fault.found.width is None
    if is_truth and fault.node.kind == "cast":
        inner = fault.node.parts[0]
        written = choice_for(source, inner, fault.wanted.type)
        return Report(f"`{source.shown(inner)}` is a truth value, and a cast is of a number",
                      f"write `{written}` in the place of `{source.shown(inner)}`.", rule, source.node_span(inner)) \
            .by(source.text.edit(inner.start, inner.end, written))
    if is_truth:
        return truth_for_number(source, fault, shown)
    bare = bare_type(fault.wanted.type)
    if fault.node.kind == "cast":
        of = fault.node.cast()
        written = bare[:-1] + of.text[len(bare_type(of)) - 1:]
        return Report(f"the cast gives {type_text(fault.found)}, and {type_text(fault.wanted.type)} is wanted",
                      f"write `{written}` in the place of `{sure(fault.found).text}`.",
                      rule).by(source.text.edit(of.start, of.end, written))
    report = Report(f"`{shown}` is {type_text(fault.found)}, and {type_text(fault.wanted.type)} is wanted",
                    f"write the cast `{bare}({shown})`.", rule) \
        .by(source.text.edit(fault.node.start, fault.node.end, f"{bare}({shown})"))
    decl = source.decl(source.function(fault.node.at), fault.node.name) if fault.node.kind == "read" else None
    return report.note(f"`{decl.name}` is declared `{decl.type.text}` here.",
                       source.name_span(decl)) if decl else report


def other_result(source: Source, fault: Fault, shown: str) -> Report:
    """The report on a place of a call's result that has another type."""
    found, of_result = sure(fault.found), fault.asked().type
    own, wanted = (of.text if of.width is None else bare_type(of) for of in (found, of_result))
    decl = source.declared(source.function(fault.node.at), fault.node.name)
    below = f"{own}(t)" if found.width and of_result.width else \
        "t != 0" if found.width is None else number_for("t", found)
    verb = "is" if of_result.width is None else "has"
    return Report(f"`{shown}` is {type_text(found)}, and the result {verb} {type_text(of_result)}",
                  f"declare `{fault.node.name}` as `{wanted}`; or declare a signal of this type, as `t`, write it "
                  f"here, and below "
                  f"`{shown} = {below};`.", language("The typing table")) \
        .note(f"`{decl.name}` is declared `{decl.type.text}` here.", source.name_span(decl))


def truth_for_number(source: Source, fault: Fault, shown: str) -> Report:
    """The report on a truth value where a number is wanted."""
    of, node, rule = fault.asked().type, fault.node, language("The typing table")
    short = f"`{shown}` is a truth value, and a number of {type_text(of)} is wanted"
    if node.kind == "logic" and any(is_number(source, part) for part in node.parts):
        return Report(f"`{node.name}` joins truth values, and there are no operations on the bits of a word",
                      "compare, as `if x < 0 -> .. || .. fi`; the lowest K bits of `x`, where it does not round, are "
                      "`x - (x >> K << K)`.", rule)
    written = choice_for(source, node, of)
    if node.kind == "truth":
        written = some_number(of) if shown == "true" else "0"
    return Report(short, f"write `{written}`.", rule).by(source.text.edit(node.start, node.end, written))


def is_number(source: Source, node: Node) -> bool:
    """Whether an expression is a number by itself."""
    own = typing_at(source, node).own(node)
    return own is None or own.width is not None


def typing_at(source: Source, node: Node) -> Typing:
    typing = Typing(source)
    typing.func = source.function_at(node.at)
    return typing


def choice_for(source: Source, truth: Node, of: Type) -> str:
    """The choice that makes a number of an expression that is a truth value."""
    shown = source.shown(truth)
    if truth.kind == "not" and is_number(source, truth.parts[0]):
        return number_for(f"{source.shown(truth.parts[0])} == 0", of)
    return number_for(shown, of)


def is_alone(source: Source, node: Node) -> bool:
    """Whether no operator stands beside an expression, so that any other may take its place."""
    before, after = source.text.chars[:node.start].rstrip(), source.text.chars[node.end:].lstrip()
    return before.endswith(("=", "(", "->", "||", ",")) and not before.endswith(("<=", ">=", "==", "!=")) \
        and after.startswith((";", ")", "->", "||", ","))


def truth_operands(source: Source, fault: Fault, shown: str) -> Report:
    """The report on a product or a comparison of truth values."""
    node = fault.node
    report = Report(f"`{shown}` has truth values where numbers are wanted", "write numbers on both sides.",
                    language("The typing table"))
    written = numbers_of(source, node) if node.kind == "product" else truths_of(source, node)
    if not written:
        if node.kind == "product":
            report.cure = "choose by a truth value, as `if condition -> value || 0 fi`."
        return report
    if node.kind != "product" and "&" in written and not is_alone(source, node):
        written = f"({written})"
    report.cure = f"write `{written}`."
    return report.by(source.text.edit(node.start, node.end, written))


def truths_of(source: Source, node: Node) -> str | None:
    """What is written for a comparison of truth values, where it asks whether they are equal."""
    if node.name not in ("==", "!=") or any(is_number(source, part) for part in node.parts):
        return None
    left, right = map(source.shown, node.parts)
    for truth, other in ((left, right), (right, left)):
        if truth in ("true", "false"):
            return other if (truth == "true") == (node.name == "==") else f"!({other})"
    same = f"({left} & {right}) | (!({left}) & !({right}))"
    return same if node.name == "==" else f"!({same})"


def numbers_of(source: Source, node: Node) -> str | None:
    """What is written for a product of a truth value and a number."""
    for truth, other in (node.parts, node.parts[::-1]):
        if not is_number(source, truth) and is_number(source, other):
            return f"if {without_brackets(source.shown(truth))} -> {source.shown(other)} || 0 fi"
    return None


def some_number(of: Type) -> str:
    """A number of a type that is near 1."""
    before = of.bits() - of.places
    return "1" if before > 1 else "0.5" if of.places and before == 1 else "0"


def number_for(truth: str, of: Type) -> str:
    """The choice that makes a number of a truth value."""
    return f"if {truth} -> {some_number(of)} || 0 fi"


def bare_type(of: Type) -> str:
    return f"fix<{of.width},{of.places}>"


def numbers_in(node: Node) -> list[str]:
    """The numbers that an expression has, as far as they take one type."""
    return [node.value] if node.kind == "number" else [number for part in node.parts for number in numbers_in(part)]


def type_for(numbers: Sequence[str]) -> Type | None:
    """A type of 16 bits that has some numbers, or one of 40; nothing where these are too great for any."""
    shapes = [*((16, places) for places in range(15, -1, -1)), (MOST_BITS, 0)]
    return next((of for shape in shapes if all(fits(number, of := Type(*shape, "", 0, 0)) for number in numbers)), None)


def product_of(node: Node) -> str | None:
    """The product of two numbers, as a number that may be written; nothing for another expression."""
    if node.kind != "product" or any(part.kind != "number" for part in node.parts):
        return None
    text = format(Decimal(node.parts[0].value) * Decimal(node.parts[1].value), "f")
    text = text.rstrip("0").rstrip(".") if "." in text else text
    return text if sum(map(str.isdigit, text)) <= MOST_DIGITS else None


def without_brackets(text: str) -> str:
    """A text without the brackets that are around all of it."""
    depth = 0
    for place, char in enumerate(text):
        depth += {"(": 1, ")": -1}.get(char, 0)
        if depth == 0 and place < len(text) - 1:
            return text
    return text[1:-1].strip() if text.startswith("(") else text


def needs_cast(source: Source, fault: Fault) -> Report:
    node = fault.node
    typing = typing_at(source, node)
    bare = next((part for part in node.parts if typing.own(part) is None), node.parts[0])
    choice = numbers_of(source, bare) if bare.kind == "product" else None
    if choice:
        return Report(f"`{source.shown(bare)}` has truth values where numbers are wanted", f"write `{choice}`.",
                      language("The typing table"),
                      source.node_span(bare)).by(source.text.edit(bare.start, bare.end, choice))
    number = product_of(bare) if node.kind == "product" else None
    if number:
        return Report(f"`{source.shown(bare)}` has no type of its own, and a factor needs one",
                      f"write `{number}`, which is a number and takes the type of the other factor.",
                      language("Products and casts"),
                      source.node_span(bare)).by(source.text.edit(bare.start, bare.end, number))
    inner = without_brackets(source.shown(bare))
    of = next((found for part in [*node.parts, *bare.parts] if (found := typing.own(part)) and found.width), None)
    name = bare_type(of or type_for(numbers_in(node)) or WIDEST)
    what = "a factor" if node.kind == "product" else "a side of a comparison"
    both = "" if node.kind == "product" or typing.own(node.parts[0]) or typing.own(
        node.parts[1]) else ", nor does the other side"
    kind = "a product" if bare.kind == "product" else "a number"
    return Report(f"`{inner}` has no type of its own{both}, and {what} needs one",
                  f"say by a cast which type it is to have, as `{name}({inner})`.", language("Products and casts"),
                  source.node_span(bare)).by(source.text.edit(bare.start, bare.end, f"{name}({inner})")) \
        .note(f"{kind[0].upper() + kind[1:]} takes the type that is wanted, and nothing says here which that is.")


def literal(source: Source, fault: Fault) -> Report:
    of = fault.asked().type
    least, most = range_of(of)
    value = float(fault.node.value)
    nearest = most if value > 0 else least
    found = type_for([fault.node.value])
    short = f"{fault.node.value} is out of range: `{of.text}` has {least} to {most}"
    if found is None:
        return Report(short, f"write a number in this range: no type has {fault.node.value}, since a word has at most "
                      f"{MOST_BITS} bits.", language("Words and types"))
    wider = bare_type(found)
    more = f"as a factor it may be `{wider}({fault.node.value})`." if fault.asked().why.startswith(
        "the factors of") else \
        f"declare a type with more bits before the point, as `{wider}`."
    return Report(short, f"write {nearest}; or {more}", language("Words and types"))


def not_truth(source: Source, fault: Fault) -> Report:
    node, shown = fault.node, source.shown(fault.node)
    if node.kind == "target":
        return other_result(source, fault, shown)
    own = fault.found
    what = f"is {type_text(own)}" if own and own.width is not None else "is a number"
    short, rule = f"`{shown}` {what}, and a truth value is wanted", language("The typing table")
    if node.kind == "number":
        written = "false" if float(node.value) == 0 else "true"
        return Report(short, f"write `{written}`.", rule).by(source.text.edit(node.start, node.end, written))
    if own is None:
        # A product has no type of its own, which a side of a comparison needs.
        of = next((of for part in node.parts if (of := typing_at(source, node).own(part)) and of.width), WIDEST)
        shown = f"{bare_type(of)}({without_brackets(shown)})"
    # A `!` before it is tighter than a comparison.
    written = f"({shown} != 0)" if source.text.chars[:node.start].rstrip().endswith("!") else f"{shown} != 0"
    return Report(short, f"write a comparison, as `{written}`.",
                  rule).by(source.text.edit(node.start, node.end, written))
