"""Why an element is refused: subscripts, delays, definitions, limits, and loops without a delay."""
import math
from collections.abc import Callable, Iterator, Sequence

from silc.explaining.grammar import Decl, Func, Node
from silc.explaining.program import (LOAD, WHERE, Context, Element, Expansion, Indices, Overflow, Source, calls_of,
                                     contexts_of, definitions, element_name, every_item, manifest, offset, targets_of,
                                     turns, turns_of, weight_of, with_indices)
from silc.explaining.refusals import language
from silc.explaining.report import Report, counted, listed
from silc.explaining.text import Edit
from silc.sure import sure

# The elements whose lines are shown; of more, the lines' numbers are told.
MOST_SHOWN = 12
MOST_WORDS, MOST_DELAY, MOST_SHIFT, MOST_CALLS = 16, 1023, 31, 64


def first_turn(source: Source, func: Func, at: int,
               broken: Callable[[Context, int], bool]) -> tuple[Indices, int | None, Context | None]:
    """The values of the indices in the first turn in which a manifest number at a place is as it may not be."""
    for item, indices in turns_of(func.items):
        for context in own_contexts(item, func):
            if context.node.at == at and context.role in WHERE:
                try:
                    value = manifest(context.node, indices)
                except Overflow as overflow:
                    return indices, overflow.value, context
                if broken(context, value):
                    return indices, value, context
    return {}, None, None


def own_contexts(item: Node, func: Func) -> Iterator[Context]:
    for context in contexts_of(item, func, []):
        if context.item is item:
            yield context


def turn_note(report: Report, indices: Indices, value: int | None, source: Source, node: Node) -> Report:
    if indices and node.kind == "index":
        return report.note(f"This is the turn with {with_indices(indices)}.")
    if indices:
        report.note(f"With {with_indices(indices)}, `{source.shown(node)}` is {value}.")
    return report


def bad_index(source: Source, at: int) -> Report:
    context = source.there(at, *WHERE)
    try:
        indices, value, _ = first_turn(source, source.function(at), at, lambda *_: False)
    except Overflow as overflow:
        indices, value = {}, overflow.value
    shown = source.shown(context.node)
    what = f"`{shown}` is out of range" if context.node.kind == "whole" else \
        f"on the way to `{shown}` there is {'out of range' if value is None else value}"
    report = Report(f"{what}, and a manifest number is -2147483648 to 2147483647",
                    f"write {WHERE[context.role]} in its range.",
                    language("Loops"), source.node_span(context.node))
    return report.note(f"This is the turn with {with_indices(indices)}.") if indices else report


def out_of_bounds(source: Source, at: int) -> Report:
    func = source.function(at)

    def dim_of(context: Context) -> tuple[Decl, int]:
        owner = context.parent or next(target for target in targets_of(context.item)
                                       if any(sub.at == context.node.at for sub in target.subs))
        decl = source.declared(func, owner.name)
        return decl, decl.dims[next(k for k, sub in enumerate(owner.subs) if sub.at == context.node.at)]

    indices, value, found = first_turn(
        source, func, at, lambda c, v: c.role == "subscript" and not 0 <= v < dim_of(c)[1])
    context = sure(found)
    decl, dim = dim_of(context)
    report = Report(f"the subscript is {value}, and `{decl.name}` has {counted(dim, 'element')} there, 0 to {dim - 1}",
                    "", language("Declarations"), source.node_span(context.node))
    turn_note(report, indices, value, source, context.node)
    report.note(f"`{decl.name}` is declared here.", source.name_span(decl))
    good = good_turns(source.there(at, "subscript"), indices, dim)
    report.cure = f"write a subscript from 0 to {dim - 1}, or declare more elements of `{decl.name}`."
    if good:
        report.cure = f"let the loop of `{good[0]}` go from {good[1]} to {good[2]}, or write another subscript."
    return report


def good_turns(context: Context, indices: Indices, dim: int) -> tuple[str, int, int] | None:
    """The innermost loop whose index a subscript has, and the bounds with which the subscript is in its range."""
    loop = next((loop for loop in reversed(context.loops) if loop.name in names_in(context.node)), None)
    if loop is None:
        return None
    low, high = (manifest(bound, indices) for bound in loop.subs)
    good = [turn for turn in range(low, high + 1) if 0 <= value_of(context.node, {**indices, loop.name: turn}) < dim]
    if not good or good[-1] - good[0] != len(good) - 1:
        return None
    return loop.name, good[0], good[-1]


def names_in(node: Node) -> set[str]:
    """The indices that a manifest number has."""
    return {node.name} if node.kind == "index" else set().union(*map(names_in, node.parts))


def value_of(node: Node, indices: Indices) -> int:
    """The value of a manifest number, or -1 where it has none."""
    try:
        return manifest(node, indices)
    except Overflow:
        return -1


def bad_delay(source: Source, at: int) -> Report:
    func = source.function(at)
    context = source.there(at, "delay", "initial")
    parent = sure(context.parent)
    if context.role == "delay" and parent.name in source.tables:
        table = source.tables[parent.name]
        written = plain(source, parent)
        return Report(f"`{table.name}` is a table, and has no past", f"take the delay away: write `{written}`.",
                      language("Delays and initial values"), source.node_span(parent)) \
            .note("This is the table.", source.name_span(table)) \
            .by(source.text.edit(parent.start, parent.end, written))
    least = 1 if context.role == "initial" else 0
    indices, value, found = first_turn(source, func, at, lambda c, v: c.role in ("delay", "initial")
                                       and not least <= v <= MOST_DELAY)
    context = sure(found)
    what = "an initial value is 1 to 1023 samples before the first" if least else "a delay is 0 to 1023 samples"
    cure = f"write a number from {least} to {MOST_DELAY}."
    if value is not None and value > MOST_DELAY and not least:
        cure = f"write a number from 0 to {MOST_DELAY}; {longer_delay(plain(source, sure(context.parent)), value)}"
    report = Report(f"{what}, and this is {value}", cure, language("Delays and initial values"),
                    source.node_span(context.node))
    return turn_note(report, indices, value, source, context.node)


def longer_delay(shown: str, value: int) -> str:
    """How a delay is made that is longer than one may be."""
    if value <= 2 * MOST_DELAY:
        return f"a longer delay is made of two, by a signal of its own: `t = {shown}@{MOST_DELAY};` and then " \
               f"`t@{value - MOST_DELAY}`."
    return f"a longer delay is made of several, each by a signal of its own: `t = {shown}@{MOST_DELAY};`, " \
           f"`u = t@{MOST_DELAY};` and so on."


def plain(source: Source, read: Node) -> str:
    return source.text.chars[read.start:read.by().start].split("@")[0].strip()


def bad_shift(source: Source, at: int) -> Report:
    indices, value, found = first_turn(source, source.function(at), at,
                                       lambda c, v: c.role == "amount" and not 0 <= v <= MOST_SHIFT)
    context = sure(found)
    report = Report(f"a shift is by 0 to {MOST_SHIFT} bits, and this is {value}",
                    f"write a number from 0 to {MOST_SHIFT}"
                    + (", and the other shift for a negative one." if sure(value) < 0 else "."), language("Equations"),
                    source.node_span(context.node))
    return turn_note(report, indices, value, source, context.node)


def defined_twice(source: Source, at: int) -> Report:
    func = source.function(at)
    context = source.there(at, "target")
    if context.item.kind == "initial":
        return initial_twice(source, func, at)
    params = {decl.name for decl in func.params}
    if context.node.name in params:
        decl = source.declared(func, context.node.name)
        return Report(f"`{decl.name}` is a parameter, and has its word by the call or from outside",
                      "define a result, or a signal that is declared by `var`.", language("Equations"),
                      source.node_span(context.node)).note(f"`{decl.name}` is declared here.", source.name_span(decl))
    seen = {}
    for decl, place, target, indices, _ in definitions(source, func):
        name = element_name(decl, place)
        if name not in seen:
            seen[name] = target, indices
        elif target.at == at:
            return two_definitions(source, name, seen[name], (target, indices))
    return Report(f"`{source.shown(context.node)}` has two definitions", "take one of them away.",
                  language("Equations"), source.node_span(context.node))


def two_definitions(source: Source, name: str, first: tuple[Node, Indices], second: tuple[Node, Indices]) -> Report:
    index = next(reversed(second[1]), None)
    cure = f"take one of the two away, or define another {'element' if second[0].subs else 'signal'} by one of them."
    if index and not second[0].subs:
        cure = ("define an element of an array in each turn: a sum over the turns is `s[0] = 0;` before the loop, "
                f"and in it `s[{index} + 1] = s[{index}] + ..;`.")
    elif first[0] is second[0]:
        cure = f"define another element in each turn, by a subscript with `{index}`."
    report = Report(f"`{name}` is defined twice", cure, language("Equations"), source.node_span(second[0]))
    if second[1]:
        report.note(f"This is the second definition, with {with_indices(second[1])}.")
    where = f", with {with_indices(first[1])}" if first[1] else ""
    return report.note(f"This is the first definition{where}.", source.node_span(first[0]))


def initial_twice(source: Source, func: Func, at: int) -> Report:
    seen: dict[tuple[str, int], Node] = {}
    for item, indices in turns_of(func.items):
        if item.kind == "initial":
            target = item.parts[0]
            decl = source.declared(func, target.name)
            key = element_name(decl, offset(decl.dims, target.subs, indices)), manifest(item.by(), indices)
            if key in seen and target.at == at:
                return Report(f"`{key[0]}` has two initial values for the sample {key[1]} before the first",
                              "take one of the two away.", language("Delays and initial values"),
                              source.node_span(target)) \
                    .note("This is the other one.", source.node_span(seen[key]))
            seen.setdefault(key, target)
    return Report("an element has two initial values for one sample", "take one of the two away.",
                  language("Delays and initial values"), source.at_span(at))


def not_defined(source: Source, at: int) -> Report:
    func = source.function(at)
    decl = next(decl for decl in func.decls() if decl.at == at)
    made: dict[int, tuple[Node, list[int]]] = {}
    defined: set[int] = set()
    for other, place, target, _, _ in definitions(source, func):
        if other is decl:
            made.setdefault(target.at, (target, []))[1].append(place)
            defined.add(place)
    name = element_name(decl, next(place for place in range(math.prod(decl.dims)) if place not in defined))
    report = Report(f"no equation defines `{name}`", f"add an equation `{name} = ..;`.", language("Equations"),
                    source.name_span(decl))
    if not made and decl.role == "local":
        report.cure = f"add an equation `{name} = ..;`, or take `{decl.name}` away where it is declared."
    loops = [item for item, _ in every_item(func.items) if item.kind == "loop"]
    for target, places in list(made.values())[:MOST_SHOWN]:
        report.note(f"This defines {elements_of(decl, places)}.", source.node_span(target))
    if len(made) > MOST_SHOWN:
        report.note(f"{len(made) - MOST_SHOWN} more equations define other elements of it.")
    empty = [loop for loop in loops if any(target.name == decl.name for item, _ in every_item(loop.parts)
                                           for target in targets_of(item)) and not turns(loop)]
    for loop in empty:
        report.note("This loop has no turn, since its first bound is above its second.",
                    source.text.span(loop.start, loop.subs[1].end + 1))
    return report


def elements_of(decl: Decl, places: list[int]) -> str:
    """The elements at some places of an array, in words."""
    names = [f"`{element_name(decl, place)}`" for place in places]
    if len(places) > 2 and places == list(range(places[0], places[-1] + 1)):
        return f"{names[0]} to {names[-1]}"
    if len(names) > MOST_SHOWN:
        names = [*names[:MOST_SHOWN - 1], f"{len(names) - MOST_SHOWN + 1} more"]
    return listed(names)


def too_large(source: Source, at: int) -> Report:
    main = source.funcs["main"]
    if at == main.at:
        for what, decls in (("input", main.params), ("output", main.results)):
            count = sum(math.prod(decl.dims) for decl in decls)
            if count > MOST_WORDS:
                return Report(f"`main` has {count} {what} words, and at most {MOST_WORDS} go over the datapath",
                              f"have at most {MOST_WORDS} elements among the "
                              f"{'parameters' if what == 'input' else 'results'} "
                              f"of `main`.", language("Limits"), source.name_span(main))
    func = next((func for func in source.funcs.values() if func.at == at), None)
    if func and depth_of(source, func) > MOST_CALLS:
        return Report(f"this function is reached through more than {MOST_CALLS} calls in one another",
                      "write the equations of some of these functions in the place of their calls.", language("Limits"),
                      source.name_span(func))
    report = Report(f"here the program has more than {LOAD} elements, turns, initial values, operators, casts and "
                    f"conditions",
                    "have fewer of them: smaller arrays, fewer turns, or a delay, as `x@1000`, in the place of an "
                    "array.", language("Limits"), source.at_span(at))
    around = source.at(at, "loop", "target", "call")
    if around:
        for loop in [*around.loops, *([around.node] if around.role == "loop" else [])]:
            range_ = turns(loop)
            if range_ is not True:
                weight = sum(map(weight_of, [part for item, _ in every_item(loop.parts) for part in item.parts
                                             if item.kind in ("equation", "call")]))
                report.note(f"This loop has {counted(len(range_), 'turn')}, with {counted(weight, 'operator')} in "
                            f"each.", source.text.span(loop.start, loop.subs[1].end + 1))
    elements = sum(math.prod(decl.dims) for decl in (func or main).decls())
    report.note(f"The signals of `{(func or main).name}` have {counted(elements, 'element')}.")
    return report


def depth_of(source: Source, func: Func) -> int:
    """How many calls are round an instance of a function at most, by the functions that main reaches."""
    depths, waiting = {"main": 0}, ["main"]
    for name in waiting:
        for call in calls_of(source.funcs[name]):
            if depths.get(call.name, -1) < depths[name] + 1:
                depths[call.name] = depths[name] + 1
                waiting.append(call.name)
    return depths.get(func.name, 0)


def delayless_loop(source: Source, element: int) -> Report:
    expansion = Expansion(source)
    chain = expansion.loop_through(element)
    elements = [expansion.elements[number] for number in chain]
    first = elements[0]
    names = [full_name(e) for e in elements]
    way = " reads ".join(f"`{name}`" for name in [*names, names[0]]) if len(names) < 8 else \
        f"`{names[0]}` reads itself by way of {counted(len(names) - 1, 'element')}"
    cure, edits = late_read(source, elements)
    report = Report(f"`{names[0]}` depends on itself in the same sample: {way}", cure,
                    language("Delays and initial values"), source.name_span(first.decl)).by(*edits)
    if len(elements) > MOST_SHOWN:
        return report.note("The elements of the loop, each of which reads the next one: "
                           + ", ".join(f"`{full_name(e)}` in line {source.line(e.at)}" for e in elements) + ".")
    for e, after in zip(elements, [*elements[1:], elements[0]]):
        report.note(f"Here `{full_name(e)}` reads `{full_name(after)}`.", source.at_span(e.at))
    return report


def late_read(source: Source, elements: Sequence[Element]) -> tuple[str, list[Edit]]:
    """The cure of a loop: a read of it that may be one of an earlier sample, in words and as edits."""
    for element, read in zip(elements, [*elements[1:], elements[0]]):
        if element.can_wait:
            nodes = [context.node for context in source.contexts(element.func) if context.role == "expression"
                     and context.node.kind == "read" and context.node.name == read.decl.name
                     and element.at in (context.item.at, *(target.at for target in targets_of(context.item)))]
            same = {source.shown(node) for node in nodes if node.amount is None}
            shown = same.pop() if len(same) == 1 else read.name()
            edits = [source.text.edit(node.end, node.end, "@1") for node in nodes if node.amount is None and not same]
            return f"read `{shown}` one sample ago in line {source.line(element.at)}, as `{shown}@1`.", edits
    return "read one of them one sample ago.", []


def full_name(element: Element) -> str:
    """The name of an element, with that of its function where this is not main's instance."""
    return f"{element.func.name}.{element.name()}" if element.calls else element.name()
