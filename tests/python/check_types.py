#!/usr/bin/env python3
"""Whether each function of the repository's Python has the types of all that it takes and gives, and whether mypy finds
those of the package right.

usage: tests/python/check_types.py

A line for each function that lacks a type, with its place. How mypy is asked is in python/pyproject.toml; without it
the package is not looked at by it, and where nothing else is amiss this ends with 77.
"""
import ast
import shutil
import subprocess
import sys
import tempfile
from collections.abc import Iterator
from pathlib import Path
from typing import TypeAlias

from python_files import ROOT, python_files

PYTHON = ROOT / "python"
SKIPPED = 77
Function: TypeAlias = ast.FunctionDef | ast.AsyncFunctionDef


def functions_in(tree: ast.AST, is_of_class: bool = False) -> Iterator[tuple[Function, bool]]:
    """The functions of a file, each with whether its first parameter is the object or the class that has it."""
    for node in ast.iter_child_nodes(tree):
        if isinstance(node, Function):
            names = {name.id for name in node.decorator_list if isinstance(name, ast.Name)}
            yield node, is_of_class and "staticmethod" not in names
        yield from functions_in(node, isinstance(node, ast.ClassDef))


def lacking(function: Function, has_owner: bool) -> list[str]:
    """The parameters without a type, and `return` where that of the value lacks; of `__init__` it may."""
    of = function.args
    given = [*of.posonlyargs, *of.args][has_owner:] + of.kwonlyargs + [one for one in (of.vararg, of.kwarg) if one]
    made = [one.arg for one in given if one.annotation is None]
    is_begun = function.name == "__init__" and len(made) < len(given)
    return made + ["return"] * (function.returns is None and not is_begun)


def untyped(file: Path) -> Iterator[str]:
    for function, has_owner in functions_in(ast.parse(file.read_bytes())):
        if names := lacking(function, has_owner):
            yield f"{file.relative_to(ROOT)}:{function.lineno}: {function.name} has no type of {', '.join(names)}"


def checked_by_mypy() -> int:
    if not shutil.which("mypy"):
        print("check_types: skipped: there is no mypy (apt-get install mypy)")
        return SKIPPED
    with tempfile.TemporaryDirectory(prefix="silc-mypy-") as cache:
        done = subprocess.run(["mypy", "--cache-dir", cache], cwd=PYTHON, capture_output=True, text=True)
    print((done.stdout + done.stderr).strip())
    return done.returncode


def main() -> int:
    files = python_files()
    found = [line for file in files for line in untyped(file)]
    print("\n".join([*found, f"{len(files)} files, {len(found)} functions without all their types"]))
    status = checked_by_mypy()
    return 1 if found else status


if __name__ == "__main__":
    sys.exit(main())
