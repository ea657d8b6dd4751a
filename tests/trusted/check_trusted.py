#!/usr/bin/env python3
"""Whether `tools/trusted` reaches the definitions of a small tree of crates that tree.toml says each clause does, and
what it says of tables of worked values.

usage: tests/trusted/check_trusted.py

The tools are copied into a new folder beside that tree, since they count the crates that they stand with, and the
script runs itself with these.
"""
import os
import shutil
import subprocess
import sys
import tempfile
import tomllib
from pathlib import Path
from typing import Iterator

HERE = Path(__file__).resolve().parent
TOOLS = HERE.parent.parent / "tools"
CRATE = "small_words"
# The word by which the script is run that has the copied tools.
COPIED = "--copied"


def said(reached: dict) -> dict[str, list[str]]:
    """What was reached, as tree.toml says it: by the names of the files, in their order."""
    found: dict[str, list] = {}
    for definition in reached:
        found.setdefault(definition.module.file.stem, []).append(definition)
    return {file: [one.names[0] for one in sorted(own, key=lambda one: min(one.lines()))]
            for file, own in found.items()}


def differences(what: str, found: object, expected: object) -> Iterator[str]:
    if found != expected:
        yield f"{what}: {found!r} instead of {expected!r}"


def faults(tree: dict) -> Iterator[str]:
    from antt.reach import Reached, Specs, clauses_of
    from antt.trusted import by_module, counts_of, shown

    specs = Specs()
    clauses = clauses_of(specs, CRATE, "promise")
    yield from differences("the clauses", [one.name for one in clauses], [one["name"] for one in tree["clause"]])
    for clause, expected in zip(clauses, tree["clause"]):
        reached = Reached()
        specs.reach(clause.paths, reached)
        name = clause.name
        yield from differences(f"what {name} reaches", said(reached.definitions), expected.get("reaches", {}))
        yield from differences(f"the types of {name}", sorted(f"{one.crate}::{one.name}" for one in reached.types),
                               expected.get("types", []))
        yield from differences(f"the lines of {name}", next(counts_of(specs, [clause])).alone, expected["lines"])
        for own in by_module(reached).values():
            if text := expected.get("shows", {}).get(own[0].module.file.stem):
                yield from differences(f"the text of {name}", shown(own), text.strip("\n"))
    for case in tree["without"]:
        yield from left_out(case)
    for case in tree["worked"]:
        yield from worked(case)


def left_out(case: dict) -> Iterator[str]:
    """What a clause reaches where some names are left out."""
    from antt.reach import Reached, Specs, clauses_of

    specs = Specs(case["names"])
    clause = next(one for one in clauses_of(specs, CRATE, "promise") if one.name == case["clause"])
    reached = Reached()
    specs.reach(clause.paths, reached)
    yield from differences(f"{clause.name} without {', '.join(case['names'])}", said(reached.definitions),
                           case["reaches"])
    yield from differences(f"which of {case['names']} were met", specs.met, set(case["names"]))


def worked(case: dict) -> Iterator[str]:
    """What tables of worked values come to, against the definitions that some clauses reach."""
    from antt.reach import Reached, Specs, clauses_of
    from antt.trusted import worked_text
    from antt.worked import Unworked, Values

    specs, reached = Specs(), Reached()
    for clause in clauses_of(specs, CRATE, "promise"):
        if clause.name in case["clauses"]:
            specs.reach(clause.paths, reached)
    values, refused = Values(specs, case["shown"], case.get("without", {})), ""
    try:
        values.check(list(reached.definitions))
    except Unworked as why:
        refused = str(why)
    yield from differences(f"what is said of {case['shown']}", refused, case.get("refused", ""))
    done: dict = {}
    named = {one.names[0]: one for one in reached.definitions}
    for name, text in zip(case.get("below", []), case.get("texts", [])):
        yield from differences(f"the text below {name}", worked_text(values.below([named[name]]), done).strip("\n"),
                               text.strip("\n"))


def with_copied_tools(tree: dict) -> int:
    with tempfile.TemporaryDirectory() as folder:
        for name, text in tree["files"].items():
            path = Path(folder, name)
            path.parent.mkdir(parents=True, exist_ok=True)
            path.write_text(text)
        tools = Path(folder, "tools")
        shutil.copytree(TOOLS / "antt", tools / "antt", ignore=shutil.ignore_patterns("__pycache__"))
        variables = os.environ | {"PYTHONPATH": str(tools)}
        return subprocess.run([sys.executable, __file__, COPIED], env=variables).returncode


def main(words: list[str]) -> int:
    tree = tomllib.loads((HERE / "tree.toml").read_text())
    if words != [COPIED]:
        return with_copied_tools(tree)
    found = list(faults(tree))
    for fault in found:
        print(f"trusted: {fault}")
    print(f"trusted: {len(tree['clause'])} clauses, {len(tree['worked'])} tables of worked values, {len(found)} faults")
    return 1 if found else 0


if __name__ == "__main__":
    sys.exit(main(sys.argv[1:]))
