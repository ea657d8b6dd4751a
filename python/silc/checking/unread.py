"""What a source declares and never reads."""
from silc.explaining.grammar import Decl, Func, Table
from silc.explaining.program import Source, calls_of, every_item, targets_of
from silc.explaining.refusals import language
from silc.explaining.report import Report

# A name that begins so is meant to be read by nothing.
MEANT = "_"
CURE = "take it away, or let its name begin with `_` where it is meant."


def unread(source: Source) -> list[Report]:
    """The tables, functions, signals and parameters that nothing reads."""
    called = {call.name for func in source.funcs.values() for call in calls_of(func)}
    read = {name for func in source.funcs.values() for name in reads_of(source, func)}
    made = [doubt(source, table, f"the table `{table.name}` is never read")
            for table in source.tables.values() if table.name not in read]
    for func in source.funcs.values():
        if func.name not in called | {"main"}:
            made.append(doubt(source, func, f"the function `{func.name}` is never called"))
        made += unread_signals(source, func)
    return [report for report in made if report]


def doubt(source: Source, thing: Decl | Func | Table, short: str) -> Report | None:
    if thing.name.startswith(MEANT):
        return None
    return Report(short, CURE, language("Declarations"), source.name_span(thing))


def reads_of(source: Source, func: Func) -> dict[str, bool]:
    """The names that a function reads, each with whether another equation than its own reads it."""
    made: dict[str, bool] = {}
    for context in source.contexts(func):
        if context.role == "expression" and context.node.kind == "read":
            own = {target.name for target in targets_of(context.item)}
            name = context.node.name
            made[name] = made.get(name, False) or name not in own
    return made


def unread_signals(source: Source, func: Func) -> list[Report | None]:
    read, owed = reads_of(source, func), owed_places(func)
    made = []
    for decl in [*func.params, *func.locals]:
        if decl.name not in read:
            made.append(never_read(source, func, decl) if decl.name not in owed else None)
        elif not read[decl.name]:
            made.append(doubt(source, decl, f"`{decl.name}` is read by its own equation alone"))
    return made


def never_read(source: Source, func: Func, decl: Decl) -> Report | None:
    what = f"the parameter `{decl.name}` of `{func.name}`" if decl.role == "parameter" else f"`{decl.name}`"
    return doubt(source, decl, f"{what} is never read")


def owed_places(func: Func) -> set[str]:
    """The signals that take a result of a call with several, each of which has to have a place."""
    items = [item for item, _ in every_item(func.items)]
    return {target.name for item in items if item.kind == "call" and len(item.subs) > 1 for target in item.subs}
