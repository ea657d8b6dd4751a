#!/usr/bin/env python3
"""Whether the cells of docs/notebook.ipynb give what stands below them. It runs their code in order, through the
package alone: no Jupyter is needed.

usage: tests/python/check_notebook.py [--write]

With --write it puts what they give into the notebook. It runs the built `silc` and `silc_show`, or those that `SILC`
and `SILC_SHOW` name, with NumPy or without.
"""
import ast
import contextlib
import io
import json
import os
import sys
from pathlib import Path

from silc.made_files import put_whole

NOTEBOOK = Path(__file__).resolve().parent.parent.parent / "docs" / "notebook.ipynb"


def lines_of(text: str) -> list[str]:
    """A text as a notebook has it."""
    return text.splitlines(keepends=True)


def value_of(code: str, names: dict[str, object]) -> tuple[str, object]:
    """What a cell prints, and the value of its last expression."""
    tree, out, value = ast.parse(code), io.StringIO(), None
    last = tree.body.pop() if tree.body and isinstance(tree.body[-1], ast.Expr) else None
    with contextlib.redirect_stdout(out):
        exec(compile(tree, "cell", "exec"), names)
        if isinstance(last, ast.Expr):
            value = eval(compile(ast.Expression(last.value), "cell", "eval"), names)
    return out.getvalue(), value


def outputs_of(code: str, number: int, names: dict[str, object]) -> list[dict[str, object]]:
    """The outputs of a cell."""
    printed, value = value_of(code, names)
    made: list[dict[str, object]] = []
    if printed:
        made.append({"name": "stdout", "output_type": "stream", "text": lines_of(printed)})
    if value is not None:
        data = {"text/plain": lines_of(repr(value))}
        if hasattr(value, "_repr_svg_"):
            data = {"image/svg+xml": lines_of(value._repr_svg_()), **data}
        made.append({"data": data, "execution_count": number, "metadata": {}, "output_type": "execute_result"})
    return made


def main(words: list[str]) -> int:
    text = NOTEBOOK.read_text()
    notebook = json.loads(text)
    os.chdir(NOTEBOOK.parent)
    names: dict[str, object] = {}
    cells = [cell for cell in notebook["cells"] if cell["cell_type"] == "code"]
    differ = []
    for number, cell in enumerate(cells, 1):
        made = outputs_of("".join(cell["source"]), number, names)
        if cell["outputs"] != made:
            differ.append(number)
        cell["outputs"], cell["execution_count"] = made, number
    if "--write" in words:
        put_whole(NOTEBOOK, json.dumps(notebook, indent=1, ensure_ascii=False) + "\n")
        return 0
    for number in differ:
        print(f"docs/notebook.ipynb: cell {number} gives something else now; tests/python/check_notebook.py --write")
    print(f"notebook: {len(cells)} cells, {len(differ)} differ")
    return 1 if differ else 0


if __name__ == "__main__":
    sys.exit(main(sys.argv[1:]))
