"""The ends that buses lack so that each word of a source gets to where it is read."""
from collections.abc import Iterable, Sequence

from silc.explaining.changes import Change, Ends, Table, made
from silc.explaining.hardware import Hardware, Node
from silc.explaining.toml_places import Tree

# More routes than this are not looked for: what is lacking then is told by the next run.
MOST_ROUTES = 64


def free_name(tables: Iterable[Tree], wanted: str) -> str:
    """A name that no table has, with a number after it where there is one."""
    names = {table["name"] for table in tables}
    return next(name for name in (wanted, *(f"{wanted}{number}" for number in range(1, len(names) + 2)))
                if name not in names)


def route_for(tree: Tree, unit: str, port: str) -> Ends | Table:
    """The change by which a bus leads from a unit to a port: of a bus that the unit drives, or else of one to the
    port."""
    driven = next((number for number, bus in enumerate(tree["bus"]) if unit in bus["from"]), None)
    if driven is not None:
        return Ends(driven, "to", (port,))
    to_port = next((number for number, bus in enumerate(tree["bus"]) if port in bus["to"]), None)
    if to_port is not None:
        return Ends(to_port, "from", (unit,))
    return Table("bus", (("name", free_name(tree["bus"], "b")), ("from", (unit,)), ("to", (port,))))


def routes_for(tree: Tree, nodes: Sequence[Node]) -> list[Change]:
    """The changes by which each node gets a unit that its words reach, as far as there is a unit of its kind."""
    changes: list[Change] = []
    while len(changes) < MOST_ROUTES:
        found = Hardware(made(changes, tree)).without_route(nodes)
        if not found or not found[1]:
            break
        _, unit, port = found[1]
        changes.append(route_for(made(changes, tree), tree["unit"][unit]["name"], port))
    return changes
