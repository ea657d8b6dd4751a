"""Why a name is refused, a count, or a size: what the phase of names finds."""
import difflib
import math
import re
from collections.abc import Iterable, Sequence

from silc.explaining.grammar import Decl, Func, Node, Table, Type
from silc.explaining.program import WHERE, Context, Source, calls_of
from silc.explaining.refusals import language
from silc.explaining.report import Report, counted, listed
from silc.explaining.text import Span
from silc.explaining.typing_rules import MOST_BITS, Typing
from silc.sure import sure

# How much alike two names are, from 0 to 1, of which one may be meant by the other.
ALIKE = 0.6
# What is written for functions that other languages have.
WRITTEN = {"abs": ("x", "if x < 0 -> -x || x fi"), "max": ("ab", "if a < b -> b || a fi"),
           "min": ("ab", "if a < b -> a || b fi")}
# The names that are listed at most.
MOST_NAMES = 30
MOST_DIM, MOST_DELAY = 8192, 1023


def near(name: str, names: Iterable[str]) -> str | None:
    """The name that is most like another one, or nothing. Large and small letters are alike."""
    lower = {other.lower(): other for other in sorted(set(names))}
    return next((lower[found] for found in difflib.get_close_matches(name.lower(), lower, 1, ALIKE)), None)


def unknown_name(source: Source, at: int) -> Report:
    context = source.there(at, "expression", "target", "call", *WHERE)
    if context.role in WHERE:
        return unknown_index(source, context)
    reports = {"expression": unknown_read, "target": unknown_target, "call": unknown_function}
    return reports[context.role](source, context)


def unknown_index(source: Source, context: Context) -> Report:
    node, func, where = context.node, context.func, WHERE[context.role]
    name, rule = node.name, language("Loops")
    loops = {loop.name: loop for loop in context.loops}
    decl = source.decl(func, name)
    if decl and decl.role == "table":
        return table_as_index(source, node, decl, where)
    if decl:
        cure = {"subscript": "write a whole number or the index of a loop around it; to choose by a signal, write "
                             "`if .. -> .. || .. fi`.",
                "delay": "write a whole number from 0 to 1023; to choose a delay by a signal, write "
                         "`if .. -> x@1 || x@2 fi`."}.get(context.role,
                                                          "write a whole number or the index of a loop around it.")
        return Report(f"the signal `{name}` can't be {where}, which is known before the first sample", cure, rule) \
            .note(f"`{name}` is declared here.", source.name_span(decl))
    if context.role == "bound" and context.item.name == name:
        return Report(f"`{name}` is the index of this loop, and its own bounds can't depend on it",
                      "write a whole number or the index of a loop around this one.", rule)
    other = next((c.node for c in source.contexts(func) if c.role == "loop" and c.node.name == name), None)
    if other:
        return Report(f"`{name}` is the index of a loop that is not around this place",
                      "write a whole number, or put the line into the loop.", rule) \
            .note("This is the loop.", source.text.span(other.value.start, other.value.end))
    like = near(name, loops)
    cure = f"write `{like}`, the index of the loop around it." if like else \
        f"write a whole number{' or ' + listed([f'`{k}`' for k in loops], 'or') if loops else ''}."
    return Report(f"nothing that can be {where} is called `{name}`", cure, rule) \
        .by(*[source.text.edit(node.start, node.end, like)] if like else [])


def table_as_index(source: Source, node: Node, decl: Decl, where: str) -> Report:
    """The report on a table in the place of a manifest number."""
    word = source.tables[decl.name].words[0].value if not decl.dims else ""
    cure = f"write the number, {word}, in the place of `{decl.name}`." if word.isdecimal() else \
        f"write a whole number in the place of `{decl.name}`."
    return Report(f"the table `{decl.name}` can't be {where}, which is a number that is written there", cure,
                  language("Loops")) \
        .note(f"`{decl.name}` is declared here. Tables are for the words of signals.", source.name_span(decl)) \
        .by(*[source.text.edit(node.start, node.end, word)] if word.isdecimal() else [])


def unknown_read(source: Source, context: Context) -> Report:
    func, name = context.func, context.node.name
    if name in {loop.name for loop in context.loops}:
        loop = next(loop for loop in context.loops if loop.name == name)
        cure = f"put the numbers into a table and read `TABLE[{name}]`."
        if context.parent and context.parent.kind == "comparison":
            cure = "write an equation of its own for the turn that differs, and let the loop have the others."
        return Report(f"`{name}` is the index of a loop, and no signal: it stands in subscripts, delays, amounts of "
                      f"shifts and "
                      f"bounds", cure, language("Loops")) \
            .note("This is the loop.", source.text.span(loop.value.start, loop.value.end))
    if name in source.funcs:
        return Report(f"`{name}` is a function, and a call stands by itself on the right of `=`",
                      f"define a signal by the call, as `t = {name}(..);`, and write `t` here.",
                      language("Functions")) \
            .note("This is the function.", source.name_span(source.funcs[name]))
    known = [decl.name for decl in func.decls()] + list(source.tables)
    return misspelt(source, context, known, f"nothing here is called `{name}`")


def numbered(source: Source, context: Context) -> Report | None:
    """The report on a name that is another one with a number after it, as `x1` for `x@1`."""
    node, func = context.node, context.func
    found = re.fullmatch(r"(\w*?[A-Za-z_])(\d+)", node.name)
    decl = source.decl(func, found[1]) if found else None
    if found is None or decl is None or decl.role == "table" and not decl.dims:
        return None
    number = int(found[2])
    written = f"{decl.name}[{number}]" if decl.dims else f"{decl.name}@{number}"
    cure = f"write `{written}` for the element." if decl.dims else \
        f"write `{written}` for the word of {counted(number, 'sample')} ago."
    is_sure = not node.subs and not (node.amount and not decl.dims) and number < (decl.dims or [MOST_DELAY + 1])[0]
    return Report(f"nothing here is called `{node.name}`",
                  cure if is_sure else f"{cure[:-1]}, or declare `{node.name}`.",
                  language("Delays and initial values")) \
        .note(f"`{decl.name}` is declared here.", source.name_span(decl)) \
        .by(*[source.text.edit(node.at, node.at + len(node.name), written)] if is_sure else [])


def uses_of(source: Source, func: Func, name: str) -> tuple[list[Node], list[Node]]:
    """The targets that a name is in a function, and the expressions that read it."""
    nodes = [(context.role, context.node) for context in source.contexts(func) if context.node.name == name]
    return [node for role, node in nodes if role == "target"], [node for role, node in nodes if role == "expression"]


def misspelt(source: Source, context: Context, known: list[str], short: str) -> Report:
    node, func, name = context.node, context.func, context.node.name
    targets, reads = uses_of(source, func, name)
    report = numbered(source, context) if not targets else None
    if report:
        return report
    unused = [decl for decl in func.decls() if uses_of(source, func, decl.name) == ([], [])
              and not (targets and decl in func.params)]
    like = near(name, [decl.name for decl in unused])
    if like and len(targets) + len(reads) > 1:
        return misdeclared(source, func, like, name, short)
    # What defines something by a name that is nowhere read may mean a signal that has no definition.
    free = [decl.name for decl in (*func.results, *func.locals)
            if context.item.kind == "initial" or not uses_of(source, func, decl.name)[0]]
    like = near(name, known if not targets else [] if reads else free)
    if like:
        decl = source.declared(func, like)
        return Report(short, f"write `{like}`.", language("Declarations")) \
            .note(f"`{like}` is declared here.", source.name_span(decl)) \
            .by(source.text.edit(node.at, node.at + len(name), like))
    for other in source.funcs.values():
        for decl in other.decls() if other is not func else []:
            if decl.name == name and not targets:
                return Report(short, f"hand it on to `{func.name}` as a parameter.", language("Functions")) \
                    .note(f"The signal `{name}` of the function `{other.name}` is declared here.",
                          source.name_span(decl))
    return undeclared(source, context, targets, Report(short, "", language("Declarations")).note(names_of(func, known)))


def misdeclared(source: Source, func: Func, like: str, name: str, short: str) -> Report:
    """The report on a name that is declared by another one, which nothing uses."""
    decl = source.declared(func, like)
    return Report(f"{short}, and nothing uses `{like}`", f"write `{name}` where `{like}` is declared.",
                  language("Declarations")) \
        .note(f"`{like}` is declared here.", source.name_span(decl)).by(source.text.edit(decl.at, decl.end, name))


def names_of(func: Func, known: list[str]) -> str:
    """A sentence that lists the names that are known in a function."""
    shown = [f"`{word}`" for word in known[:MOST_NAMES]]
    if len(known) > MOST_NAMES:
        shown.append(f"{len(known) - MOST_NAMES} more")
    return f"In `{func.name}` there {'is' if len(known) == 1 else 'are'} {listed(shown)}."


def undeclared(source: Source, context: Context, targets: list[Node], report: Report) -> Report:
    """The report with the declaration that a name lacks as its cure."""
    func, name = context.func, context.node.name
    dims = dims_of(source, func, targets or [context.node])
    line = f"var {name}{''.join(f'[{dim}]' for dim in dims)} : {likely_type(source, context, targets)};"
    report.cure = f"declare it, as `{line}` after `begin`."
    if not targets:
        report.cure = f"{report.cure[:-1]}, and define it by an equation."
    elif ".." not in line:
        begin = next(token.end for token in source.tokens if token.text == "begin"
                     and token.start > func.results[-1].type.end)
        report.by(source.text.edit(begin, begin, f"\n  {line}"))
    return report


def dims_of(source: Source, func: Func, nodes: Sequence[Node]) -> list[int | str]:
    """The dims with which an array has the elements that some nodes name, each a number, or `..` where it is not
    known."""
    count = max(len(node.subs) for node in nodes)
    return [max_of([greatest(source, func, node, node.subs[k]) for node in nodes if len(node.subs) == count])
            for k in range(count)]


def max_of(values: Sequence[int | None]) -> int | str:
    known = [value for value in values if value is not None]
    return ".." if len(known) < len(values) or max(known) >= MOST_DIM else max(known) + 1


def greatest(source: Source, func: Func, node: Node, sub: Node) -> int | None:
    """The greatest value of a subscript, or nothing where it depends on more than one number."""
    if sub.kind == "whole":
        return sub.value
    owner = next(context for context in source.contexts(func) if context.node is node)
    loop = next((loop for loop in owner.loops if sub.kind == "index" and loop.name == sub.name), None)
    return loop.subs[1].value if loop and loop.subs[1].kind == "whole" else None


def likely_type(source: Source, context: Context, targets: list[Node]) -> str:
    """The type that a signal may have which is not declared: of what defines it, or else of what stands around it."""
    func, parent = context.func, context.parent
    equation = next((other.item for other in source.contexts(func) if other.node in targets[:1]
                     and other.item.kind == "equation"), None)
    own = own_type(source, func, equation.parts[1]) if equation else None
    if own:
        return own.text
    is_truth = not equation and parent is not None and (
        parent.kind in ("logic", "not") or parent.kind == "choice" and context.node in parent.parts[:-1:2])
    numbers = [decl.type.text for decl in (*func.results, *func.params) if decl.type.width]
    return "bool" if is_truth or not numbers else numbers[0]


def own_type(source: Source, func: Func, node: Node) -> Type | None:
    """The type that an expression has by itself, as far as its names are known."""
    typing = Typing(source)
    typing.func = func
    try:
        return typing.own(node)
    except AttributeError:
        return None


def unknown_target(source: Source, context: Context) -> Report:
    func, name = context.func, context.node.name
    if name in source.tables:
        return Report(f"`{name}` is a table, whose numbers are those that it is declared with",
                      "define a signal: a result, or one that is declared by `var`.", language("Declarations")) \
            .note("This is the table.", source.name_span(source.tables[name]))
    taken = next((loop.value for other in source.contexts(func) if other.role == "loop"
                  and (loop := other.node).name == name),
                 None)
    if name in source.funcs or taken:
        span = source.text.span(taken.start, taken.end) if taken else source.name_span(source.funcs[name])
        what = "the index of a loop" if taken else "a function"
        return Report(f"`{name}` is {what}, and no signal", "give the signal another name, and declare it by `var`.",
                      language("Declarations")).note(f"`{name}` is declared here.", span)
    known = [decl.name for decl in func.decls()]
    return misspelt(source, context, known, f"no signal of `{func.name}` is called `{name}`")


def unknown_function(source: Source, context: Context) -> Report:
    name, func = context.node.name, context.func
    decl = source.decl(func, name)
    if decl:
        past = f"write `{name}[..]` for an element, " if decl.dims else \
            f"write `{name}@1` for the word of one sample ago, "
        return Report(f"`{name}` is no function, and `{name}(..)` would be a call",
                      past + f"or `{name} * (..)` for a product.",
                      language("Functions")).note(f"`{name}` is declared here.", source.name_span(decl))
    like = near(name, source.funcs.keys() - {"main", func.name})
    if name in WRITTEN and not like:
        return written_function(source, context.node)
    if like:
        return Report(f"no function is called `{name}`", f"write `{like}`.", language("Functions")) \
            .note("This function is there.", source.name_span(source.funcs[like])) \
            .by(source.text.edit(context.node.at, context.node.at + len(name), like))
    return Report(f"no function is called `{name}`", f"write a function `func {name}(..) .. = begin .. end;`.",
                  language("Functions"))


def written_function(source: Source, call: Node) -> Report:
    """The report on a function of other languages, which is written here by a choice."""
    names, text = WRITTEN[call.name]
    report = Report(f"no function is called `{call.name}`", f"write `{text}` with your signals.",
                    language("Conditionals"))
    kinds = {part.kind for part in call.parts}
    if len(call.parts) != len(names) or "read" not in kinds or not kinds <= {"read", "number"}:
        return report
    given = dict(zip(names, map(source.shown, call.parts)))
    written = re.sub(r"\b[abx]\b", lambda found: given[found[0]], text)
    report.cure = f"write `{written}`."
    return report.by(source.text.edit(call.at, call.end - 1, written))


def declared_twice(source: Source, at: int) -> Report:
    context = source.at(at, "loop")
    if context:
        name, span = context.node.name, source.text.span(context.node.value.start, context.node.value.end)
        outer = next((loop for loop in context.loops if loop.name == name), None)
        first = source.text.span(outer.value.start, outer.value.end) if outer else \
            source.name_span(source.decl(context.func, name) or source.funcs[name])
        report = Report(f"the index `{name}` has the name of something else", "give the index another name.",
                        language("Loops"), span)
        return report.note(f"`{name}` is declared here too.", first)
    things: list[Decl | Table | Func] = [*source.tops]
    for top in source.tops:
        if isinstance(top, Func) and any(decl.at == at for decl in top.decls()):
            decl = next(decl for decl in top.decls() if decl.at == at)
            things += [other for other in top.decls() if other.at < at]
            things.append(decl)
    second = next(thing for thing in things if thing.at == at)
    other = next(thing for thing in things if thing.name == second.name and thing.at != at)
    return Report(f"`{second.name}` is declared twice", "give one of them another name, or take one away.",
                  language("Declarations"), source.name_span(second)) \
        .note("It is declared here too.", source.name_span(other))


def recursive_function(source: Source, at: int) -> Report:
    func = next(func for func in source.funcs.values() if func.at == at)
    came, waiting = {}, [func.name]
    for name in waiting:
        for call in calls_of(source.funcs[name]):
            if call.name not in came:
                came[call.name] = name, call
                waiting.append(call.name)
    chain, name = list[Node](), func.name
    while not chain or name != func.name:
        name, call = came[name]
        chain.insert(0, call)
    report = Report(f"the function `{func.name}` calls itself" if len(chain) == 1 else
                    f"the function `{func.name}` reaches itself by calls",
                    "take one of the calls away: a call is expanded where it stands, and this would never end. What a "
                    "sample needs of an earlier one is a delay, as `y@1`.", language("Functions"))
    for call in chain:
        report.note(f"Here `{call.name}` is called.", source.text.span(call.at, call.value.end))
    return report


def wrong_count(source: Source, at: int) -> Report:
    for table in source.tables.values():
        if table.at == at:
            return wrong_words(source, table)
    context = source.at(at, "call")
    if context:
        return wrong_call(source, context)
    context = source.there(at, "expression", "target")
    decl = source.decl(context.func, context.node.name) if context.node.name else None
    subs = len(context.node.subs)
    if decl is None or subs == len(decl.dims) or (decl.dims and context.parent and context.parent.kind == "call"):
        return not_bare(source, context)
    has = "has no subscripts" if not decl.dims else f"has {counted(len(decl.dims), 'subscript')}"
    cure = f"write {counted(len(decl.dims), 'subscript')}, as `{decl.name}{'[0]' * len(decl.dims)}`."
    if not decl.dims and context.role == "target" or decl.role == "table" and not decl.dims:
        cure = f"write `{decl.name}`."
    elif not decl.dims:
        past = past_of(context)
        cure = f"write `{decl.name}` for the word of this sample, and `{decl.name}@1` for that of one sample ago."
        if past is not None:
            return as_delay(source, context.node, decl, f"`{decl.name}` {has}, and here 1 stands", past)
    elif context.role == "target" and not subs:
        cure += " All elements are defined by a loop, or by a call."
    report = Report(f"`{decl.name}` {has}, and here {counted(subs, 'stands', 'stand') if subs else 'none stands'}",
                    cure, language("Declarations"), source.node_span(context.node)) \
        .note(f"`{decl.name}` is declared here.", source.name_span(decl))
    is_sure = cure == f"write `{decl.name}`."
    return report.by(*[source.text.edit(context.node.start, context.node.end, decl.name)] if is_sure else [])


def past_of(context: Context) -> int | None:
    """How many samples ago a signal is read whose subscript is `n` or `n - 1`, where `n` is no loop's index; else
    nothing."""
    sub, loops = context.node.subs[0], [loop.name for loop in context.loops]
    if len(context.node.subs) > 1 or context.node.amount:
        return None
    if sub.kind == "index" and sub.name not in loops:
        return 0
    if sub.kind != "manifest" or sub.name != "-" or [part.kind for part in sub.parts] != ["index", "whole"]:
        return None
    return sub.parts[1].value if sub.parts[0].name not in loops and sub.parts[1].value <= MOST_DELAY else None


def as_delay(source: Source, node: Node, decl: Decl, short: str, past: int) -> Report:
    """The report on a subscript that stands for a sample."""
    written = f"{decl.name}@{past}" if past else decl.name
    return Report(short, f"write `{written}` for the word of " + (f"{counted(past, 'sample')} ago." if past
                                                                  else "this sample."),
                  language("Delays and initial values"), source.node_span(node)) \
        .note(f"`{decl.name}` is declared here.",
              source.name_span(decl)).by(source.text.edit(node.start, node.end, written))


def wrong_words(source: Source, table: Table) -> Report:
    wanted, found = math.prod(table.decl.dims), len(table.words)
    name = table.decl.name + "".join(f"[{dim}]" for dim in table.decl.dims)
    cure = f"write {counted(wanted - found, 'more number')}, or declare " if wanted > found else \
        f"take {counted(found - wanted, 'number')} away, or declare "
    cure += f"`{table.name}[{found}]`." if len(table.decl.dims) == 1 else "as many as there are."
    return Report(f"the table `{name}` has {counted(wanted, 'number')}, and here are {found}", cure,
                  language("Declarations"), source.name_span(table)) \
        .note("These are the numbers.", source.text.span(table.words[0].start, table.words[-1].end))


def wrong_call(source: Source, context: Context) -> Report:
    call, callee = context.node, source.funcs[context.node.name]
    if len(call.parts) != len(callee.params):
        wanted, found, what = len(callee.params), len(call.parts), "argument"
        names = callee.params
    else:
        wanted, found, what, names = len(callee.results), len(call.subs), "result", callee.results
    return Report(f"`{callee.name}` has {counted(wanted, what)}, and here {counted(found, 'stands', 'stand')}",
                  f"write {counted(wanted, what)}, for {listed([f'`{decl.name}`' for decl in names])}.",
                  language("Functions")) \
        .note(f"`{callee.name}` is declared here.", source.name_span(callee))


def not_bare(source: Source, context: Context) -> Report:
    call = context.item
    callee = source.funcs[call.name]
    pairs = list(zip(callee.params, call.parts)) + list(zip(callee.results, call.subs))
    decl = next((decl for decl, part in pairs if part.at == context.node.at), None)
    size = "".join(f"[{dim}]" for dim in decl.dims) if decl else ""
    if decl and not decl.dims:
        return Report(f"`{decl.name}` of `{callee.name}` is one word, and here stands an array",
                      f"write one element, as `{context.node.name}[0]`.", language("Functions"),
                      source.node_span(context.node)) \
            .note(f"`{decl.name}` is declared here.", source.name_span(decl))
    fit = [f"`{other.name}`" for other in [*context.func.decls(), *(table.decl for table in source.tables.values())]
           if decl and other.dims == decl.dims][:MOST_NAMES]
    cure = f"write {listed(fit, 'or')}." if fit else (f"declare an array with {size}, define its elements, and write "
                                                      f"its name.")
    return Report(f"an array `{size}` is handed on as its bare name, and this is none of this size", cure,
                  language("Functions"),
                  source.node_span(context.node)) \
        .note(f"`{sure(decl).name}` of `{callee.name}` is declared here.", source.name_span(sure(decl)))


def bad_size(source: Source, at: int) -> Report:
    context = source.at(at, "expression")
    if context and context.node.kind == "cast":
        of = context.node.cast()
        return bad_type(source, of, source.text.span(of.start, of.end))
    decls = [top.decl for top in source.tops if not isinstance(top, Func)]
    decls += [decl for top in source.tops if isinstance(top, Func) for decl in top.decls()]
    decl = next(decl for decl in decls if decl.at == at)
    for dim in decl.dims:
        if not 1 <= dim <= MOST_DIM:
            return Report(f"a dim is 1 to {MOST_DIM}, and `{decl.name}` has {dim}",
                          f"write a number from 1 to {MOST_DIM}.", language("Limits"), source.name_span(decl))
    if math.prod(decl.dims) > MOST_DIM:
        return Report(f"an array has at most {MOST_DIM} elements, and `{decl.name}` has {math.prod(decl.dims)}",
                      "write smaller dims; a long past is a delay, as `x@1000`, and no array.", language("Limits"),
                      source.name_span(decl))
    return bad_type(source, decl.type, source.text.span(decl.type.start, decl.type.end))


def bad_type(source: Source, of: Type, span: Span) -> Report:
    if not 1 <= of.bits() <= MOST_BITS:
        return Report(f"a word has 1 to {MOST_BITS} bits, and `{of.text}` has {of.width}",
                      f"write a first number from 1 to {MOST_BITS}.", language("Words and types"), span)
    return Report(f"of the {counted(of.bits(), 'bit')} of `{of.text}` at most {of.width} are after the point, and not "
                  f"{of.places}", f"write a second number from 0 to {of.width}.", language("Words and types"), span)


def no_main(source: Source) -> Report:
    called = {call.name for func in source.funcs.values() for call in calls_of(func)}
    free = [func.name for func in source.tops if isinstance(func, Func) and func.name not in called]
    like = near("main", free) or next(iter(reversed(free)), None)
    if like:
        func = source.funcs[like]
        return Report("no function is called `main`, and that is the one that is run",
                      f"write `main` in the place of `{like}`.",
                      language("Declarations"), source.name_span(func)).by(source.text.edit(func.at, func.end, "main"))
    return Report("there is no function, and `main` is the one that is run",
                  "write `func main(x : fix<16,15>) y : fix<16,15> = begin .. end;`.", language("Declarations"),
                  about=source.text.name)
