#!/usr/bin/env python3
"""Whether `tools/alike` takes the pairs of tests/alike_pairs.toml as the same where they are, and the others not."""
import sys
import tempfile
import tomllib
from pathlib import Path

from antt.modules import read
from antt.statements import statements_of

HERE = Path(__file__).resolve().parent


def form(text: str, room: Path) -> tuple[str | int, ...]:
    """The form of the one declaration of a text."""
    (room / "text").write_text(text)
    found = statements_of(read("Rattle.tests.proofs.One", room / "text"))
    assert len(found) == 1, f"{len(found)} declarations: {text}"
    return found[0].form


def main() -> int:
    said = tomllib.loads((HERE / "alike_pairs.toml").read_text())
    failed = 0
    with tempfile.TemporaryDirectory() as room:
        for pair in said["pair"]:
            first, second = (form(f"{said['imports']}\n{pair[which].strip()}\n", Path(room))
                             for which in ("first", "second"))
            if (first == second) != pair["alike"]:
                print(
                    f"{pair['name']}: {'taken as different' if pair['alike'] else 'taken as the same'}\n  {first}\n  "
                    f"{second}")
                failed += 1
    print(f"{len(said['pair']) - failed} pairs as they should be, {failed} not")
    return 1 if failed else 0


if __name__ == "__main__":
    sys.exit(main())
