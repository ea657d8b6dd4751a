"""docs/LIBRARY.md, which is made from the blocks: their texts, numbers, and what they cost."""
from __future__ import annotations

import re
from collections.abc import Sequence
from dataclasses import dataclass
from pathlib import Path

from silc.designing.programs import Unrun, in_room, ran
from silc.linking.blocks import Block, Let, Library
from silc.linking.figures import figure_of
from silc.linking.linker import alone
from silc.linking.places import COMMENT, Unlinked
from silc.linking.trying import setting_at
from silc.programs import in_checkout

FILE, PICTURES = in_checkout("docs", "LIBRARY.md"), in_checkout("docs", "pictures")
PICTURE = "Picture: "
DATAPATH = in_checkout("library", "one_multiplier.toml")
CYCLE, NODES = re.compile(r"^node \d+ cycle (\d+) ", re.M), re.compile(r"\bnodes (\d+)")
INTRODUCTION = """# The library of blocks

`library/` has functions that filters and modems are made of, each with numbers for its widths. A source that begins \
with `use` lines is made into one plain source by `silc link`, and that is a program of the language \
(`docs/LANGUAGE.md`) like any other; the program `silc` itself knows nothing of blocks. This page is made from the \
blocks by `tools/link --pages`.

```
let N = 64;
use onepole<W=24, F=23, K=6> as smooth;
use comb<N=N, W=24, F=23> as echo;

func main(x : fix<24,23>) y : fix<24,23> =
begin
  var e : fix<24,23>;
  e = echo(x, 0.5);
  y = smooth(e);
end;
```

`silc link voice.sil -o plain.sil` writes the plain source, and `silc link --check voice.sil -o plain.sil` says in CI \
whether that is still what would be made. Its first comment has the files that it was made of, with 16 digits of their \
SHA-256.

## Sources with a head

- A head has lines `use BLOCK<NAME=NUMBER, ..> as NAME;` and `let NAME = NUMBER;`, before all functions and tables. \
Numbers that a `use` leaves out are those of the block's own; without `as` the function has the block's name.
- Where `let N = 64;` stands, `{N}` is 64 and `{N - 1}` is 63, anywhere behind the head but in comments: in dims, \
bounds, delays, types and numbers. In braces, and in the head, a number is exact, and is made by `+ - * / // % **`, \
parentheses, `min(..)`, `max(..)` and `bits(n)`, the number of bits of n; `//` rounds down. What is no whole number is \
written with 18 digits. `{k * k for k in 0 .. 7}` is a list, as for the words of a table.
- `let N = 64 in 8, 16..64 step 8;` allows these numbers alone. `silc explore` takes such a source, and links it for \
each combination of its ranges; a range may depend on the numbers before it, as `let F = W - 2 in W - 4 .. W - 1;`. A \
combination that a block does not take, or that is no program, is a row that says so.
- A block is put in once for each set of numbers. What the source names has that name. A block that only other blocks \
use is called BLOCK_NAMEnumber_.., as `onepole_W16_F15_K4`; other functions and tables of a block's file have the name \
of its function and `_` before their own. Where a name is taken, `_2`, `_3` .. stands behind it, and so for a signal \
of a block that has the name of a function.
- The source's own lines stay where they are, so that a line of `silc` for the plain source is a line of the source; \
the blocks come behind it, each function behind a comment of the file and line that it is from. `silc link --where \
LINE plain.sil` says it for a line.
- `silc check`, `silc explain` with each command that has a SRC, `silc draw schedule`, `silc values`, `silc ranges`, \
`silc noise` and, in Python, `silc.Source(..)` take the source with its head too, as the language server does \
(`editor/README.md`): they link it, in a folder that vanishes where a program has to read it, and tell places, lines \
and names in the source. What is in a block is told at the place in its file, with the line of the source that uses \
it: `library/gate.sil:22:3-4: .. (of gate<W=16, T=9, S=6>, by amplifier.sil:1)`. With `--library FOLDER` blocks of \
the folder come first. A block alone is looked at with its own numbers. Cures are offered as edits where they are of \
the source itself, outside braces; what would be one of a block, which others use too, is said in words alone. \
Elements have the names that they have in the plain source.
- What is wrong is told with file and place, and nothing is made: a block, a number or a value that there is not, a \
block that uses itself, a name twice, and each fault that `silc eval` finds in the plain source, in the source or in \
the block that has it.

## How a block is written

A block is a file NAME.sil with a function NAME. Its first comment is its page here; a last paragraph such as \
`Picture: words 200 x sin(9000/50); 200 x 0` or `Picture: response 512 of 16384; 0` asks for a picture of what `silc \
eval` makes of these rows. It has a `let` with a range and a comment for each of its numbers, whose default and range \
may depend on those before; it may `use` others. A `main` in it is left out where the block is used: it is what the \
block is tried by. A block without one is tried as `main` itself. Where `--library FOLDER` is given, blocks of the \
folder come before these.

Beside it, in `rows/NAME.txt`, stand settings with rows that come in and rows that go out. `silc link --test` tries a \
block: the front end takes it with its own numbers and at all corners of its ranges, and `silc eval` makes these rows.

## What is tested

`tests/library/check_blocks.py` has a model of each block, in Python, from the formulas of its page, with whole \
numbers and fractions without bounds. It compares all output words, of `silc eval` for the block's own numbers, up to \
six corners of its ranges and three random settings, over 120 rows of extremes, of small and of random words, and of \
`silc run` on `library/one_multiplier.toml` over 40 rows for two of these settings. For filters without coefficients \
there are also the rows that bring the output furthest. Where a page says that a word never passes its range, the \
model fails where one does. `tests/library/check_purpose.py` links sources that use some of the blocks together, and \
looks whether a message comes back, a loop locks, a filter adapts, a level is kept. These are tests on these rows, and \
no proof. What a page says in hertz and decibels follows from its formulas and is not measured.

Costs are those of the block by itself with its own numbers, as a program: how many nodes its graph has on the \
processor with one multiplier, and in which cycle the last of them is begun, with room for all words. A period of as \
many cycles more as the last node takes is enough; where samples overlap, less may be.
"""


@dataclass(frozen=True)
class Cost:
    """The nodes of a block, and the cycle in which the last one is begun."""
    nodes: int
    cycle: int


def cost_of(library: Library, block: Block) -> Cost:
    text = alone(library, setting_at(block, {})).text
    plan = in_room(text, [], lambda room: ran("silc", "schedule", "source", DATAPATH, room=room))
    nodes = NODES.search(plan)
    return Cost(int(nodes[1]) if nodes else 0, max(map(int, CYCLE.findall(plan)), default=0))


def paragraphs_of(block: Block) -> list[str]:
    """The paragraphs of the first comment of a block."""
    found = COMMENT.match(block.file.text)
    if not found:
        raise Unlinked(block.file.name, 1, None, "it does not begin with a comment, which is its page")
    text = found[0].removeprefix("/*").removesuffix("*/")
    return [" ".join(part.split()) for part in re.split(r"\n\s*\n", text)]


def picture_name(block: Block) -> str:
    return f"library_{block.name}.svg"


def pictures(library: Library, blocks: Sequence[Block]) -> dict[str, str]:
    """The pictures of the blocks that ask for one, by the names of their files."""
    made = {}
    for block in blocks:
        asked = paragraphs_of(block)[-1]
        if asked.startswith(PICTURE):
            try:
                made[picture_name(block)] = figure_of(library, block, asked)
            except (ValueError, Unrun) as fault:
                raise Unlinked(block.file.name, 1, None, str(fault)) from fault
    return made


def call_of(block: Block) -> str:
    """The head of the block's function, with its own numbers."""
    declared = next(one for one in block.declared if one.name == block.name)
    text = block.filled(declared.at, declared.end, block.numbers()).text
    return " ".join(text[:re.search(r"=\s*begin\b", text).start()].split())  # type: ignore[union-attr]


def number_row(block: Block, let: Let) -> str:
    if not let.doc or not let.range:
        raise block.file.fault(let.at, f"the number {let.name} of a block has no range or no comment")
    return f"| `{let.name}` | {let.number} | {let.range} | {let.doc} |"


def section_of(block: Block, cost: Cost) -> list[str]:
    numbers = ["| Number | Its own | Range | |", "|---|---|---|---|", *(number_row(block, let) for let in block.lets)]
    parts = paragraphs_of(block)
    text = [part for part in parts if not part.startswith(PICTURE)]
    drawn = [f"![{drawn_words(part)}](pictures/{picture_name(block)})" for part in parts if part.startswith(PICTURE)]
    return [f"## {block.name}", *text, f"`{call_of(block)}`", "\n".join(numbers),
            f"Cost with its own numbers: {cost.nodes} nodes, the last one begun in cycle {cost.cycle}.", *drawn]


def drawn_words(asked: str) -> str:
    """What a picture shows, in words."""
    kind, _, what = asked.removeprefix(PICTURE).partition(" ")
    return f"The response to {what.partition(' of ')[2]} .." if kind == "response" else f"Words of {what}"


def page(library: Library, blocks: Sequence[Block]) -> str:
    """The text of the page."""
    costs = [cost_of(library, block) for block in blocks]
    table = ["| Block | | Nodes | Last cycle |", "|---|---|---|---|"]
    table += [f"| [`{block.name}`](#{block.name}) | {paragraphs_of(block)[0]} | {cost.nodes} | {cost.cycle} |"
              for block, cost in zip(blocks, costs)]
    parts = [INTRODUCTION.rstrip("\n"), "## All blocks", "\n".join(table)]
    for block, cost in zip(blocks, costs):
        parts += section_of(block, cost)
    return "\n\n".join(parts) + "\n"


def files(library: Library, blocks: Sequence[Block]) -> dict[Path, str]:
    """The page and its pictures."""
    drawn = {Path(PICTURES) / name: text for name, text in pictures(library, blocks).items()}
    return {Path(FILE): page(library, blocks), **drawn}
