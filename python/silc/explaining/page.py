"""The page docs/ERRORS.md: every refusal with an example and its cure, from the table of refusals and the cases."""
import itertools
import re
import tomllib
from collections.abc import Sequence
from pathlib import Path

from silc.explaining.refusals import REFUSALS, refusal_of
from silc.explaining.toml_places import Tree
from silc.programs import in_checkout

CASES = Path(in_checkout("tests", "explain", "cases"))
HEAD = """# Refusals

What `silc` prints when it refuses a command, by its exit code, each with an example and its cure. `silc` prints the \
first line; `tools/explain` with the same words adds what follows it here. Capital words stand for the names and \
numbers of a case.

`tools/explain --page` makes this page, of the table in `python/silc/explaining/refusals.py` and of the cases in \
`tests/explain/cases`, which have the files of each example and more mistakes. `tests/explain/check_cases.py` runs \
them all and applies their cures. What `silc place` refuses is told by the program `silc_place`.
"""
TITLES = {1: "Memory", 2: "Words", 3: "Files", 4: "Sources", 5: "Datapath files", 6: "Units", 7: "Cells", 8: "Cycles",
          9: "Registers",
          10: "Microcode", 11: "Samples", 12: "Conflicts", 14: "Nets", 15: "Frames", 16: "Plans from elsewhere"}
# The exit code of silc_place for a plan.
OF_PLACES = 16
# A line of a file as it is shown, and the place before what is wrong.
SHOWN = re.compile(r" *\d* \| ")
PLACED = r"(?:[\w./\\-]+(?::\d+)*: )?"
# What stands for the folder of a case in its text, and the folder that the page shows.
ROOM, SHOWN_ROOM = "ROOM", "/home/user/filters"
UNSHOWN = {"no memory": "how much memory there is depends on the machine",
           "samples too long": "its file would have 4 GiB"}


class Example:
    """A case: what it is and what is said of it."""

    def __init__(self, folder: Path) -> None:
        self.name, self.text = folder.name, (folder / "stderr.txt").read_text().replace(ROOM, SHOWN_ROOM)
        self.said = tomllib.loads((folder / "case.toml").read_text())
        lines = self.text.splitlines()
        said = next((number for number, line in enumerate(lines) if refusal_of(line)), 0)
        found = refusal_of(lines[said])
        self.refusal = found[0].text if found else None
        self.lines = [line for line in lines[said + 1:] if not line.startswith("explain: ")]

    def paragraph(self, begin: str) -> str:
        """The first paragraph whose first line begins as a pattern has it, without that beginning."""
        for number, line in enumerate(self.lines):
            found = re.match(begin, line)
            if found:
                rest = itertools.takewhile(lambda more: more.startswith("  ") and not SHOWN.match(more),
                                           self.lines[number + 1:])
                return " ".join([line[found.end():], *map(str.strip, rest)])
        return ""


def examples() -> dict[str | None, list[Example]]:
    """For each refusal the cases that show it: first the one that is its example, or else in the order of their
    names."""
    made: dict[str | None, list[Example]] = {}
    for case in sorted(CASES.iterdir()):
        example = Example(case)
        made.setdefault(example.refusal, []).append(example)
    return {text: sorted(cases, key=lambda case: not case.said.get("example")) for text, cases in made.items()}


def cure_of(said: Tree) -> str:
    """The edits of a cure in words."""
    words = []
    for cure in said["cure"]:
        if "run" in cure:
            words.append(f"`{cure['run']}`")
        elif "words" in cure:
            words.append(f"`silc {' '.join(cure['words'])}`")
        elif "old" in cure:
            words.append(f"in `{cure['file']}`, {quoted(cure['new'])} in the place of {quoted(cure['old'])}"
                         if cure["new"].strip()
                         else f"in `{cure['file']}`, without {quoted(cure['old'])}")
        elif "at" in cure:
            words.append(f"in `{cure['file']}`, from byte {cure['at']} on, other bytes")
        elif "resize" in cure:
            words.append(f"`{cure['resize']}` with {cure['to']} bytes")
        elif "open" in cure:
            words.append(f"`chmod +rw {cure['open']}`")
        else:
            words.append(f"`mkdir {cure['make']}`")
    return "; ".join(words)


def quoted(text: str) -> str:
    text = " ".join(text.split())
    return f"`{text}`" if len(text) < 80 else "a shorter expression"


def shown(case: Example) -> str:
    said = case.said
    then = f" Then comes `{said['then']}`." if said.get("then") else ""
    return (f"`silc {' '.join(said['words'])}`, with the files in `tests/explain/cases/{case.name}`:\n\n"
            f"```text\n{case.text}```\n\nThe cure there: {cure_of(said)}.{then}\n")


def others(cases: Sequence[Example]) -> str:
    """The other cases of a refusal, a line each."""
    lines = [f"- `{case.name}`: {case.paragraph(PLACED)}. Cure: {case.paragraph('cure: ')}" for case in cases
             if not case.said.get("without_show")]
    return "\nOther cases, by their folders:\n\n" + "\n".join(lines) + "\n" if lines else ""


def page() -> str:
    by_refusal, parts, code = examples(), [HEAD], None
    for refusal in REFUSALS:
        if refusal.code != code:
            code = refusal.code
            parts.append(f"## {code}: {TITLES[code]}\n")
        cases = by_refusal.get(refusal.text, [])
        by = "silc_place" if refusal.code == OF_PLACES else "silc"
        parts.append(f"### `{by}: {refusal.text}`\n\n{refusal.means} The rule: {refusal.rule}.\n")
        parts.append(shown(cases[0]) + others(cases[1:]) if cases else f"No example: {UNSHOWN[refusal.text]}.\n")
    return "\n".join(parts)
