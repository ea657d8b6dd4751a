#!/usr/bin/env python3
"""Whether the layout of the language server leaves the examples as they are, keeps the tokens and comments of random
sources, and is the same when it is made once more.

usage: tests/check_layout.py
"""
import random
import sys
from collections.abc import Iterator
from pathlib import Path

from silc.fuzzing.sources import Program
from silc_lsp.layout import Refused, laid_out, pieces_of

ROOT = Path(__file__).resolve().parent.parent
SOURCES = 40
# In one line on purpose.
OTHER = {"increment"}
# By hand: blanks, signs, manifest numbers, types, and comments in all their places.
CASES = {
    "func main(x:fix< 8,0 , round,sat>)y : fix<8,0> =begin y=- - x*( x - 1 )+fix<8,0>(x)  ; end;":
        "func main(x : fix<8,0,round,sat>) y : fix<8,0> =\nbegin\n  y = - -x * (x - 1) + fix<8,0>(x);\nend;\n",
    "func main(x : fix<8,0>) y : fix<8,0> = begin\n\n\n /* a */\n ( k:0 .. 2 * n-1 )::begin s[k + 1]=x @( k+1 ) ; "
    "end;\n\n\n"
    "y=x@(2*k+1) /* b */ ; /* c */ /* d */\n/* e */ z = x; end;":
        "func main(x : fix<8,0>) y : fix<8,0> =\nbegin\n  /* a */\n  (k : 0 .. 2*n - 1) :: begin\n    s[k+1] = "
        "x@(k+1);\n"
        "  end;\n\n"
        "  y = x@(2*k + 1) /* b */; /* c */ /* d */\n  /* e */ z = x;\nend;\n",
    "const h[2]:fix<8,4> =(\n1.5,\n  -2 ) ;\r\nfunc f(x : bool) y : bool =\nbegin y = !x\n& x ; /* one\n   two */ end;":
        "const h[2] : fix<8,4> = (\n  1.5,\n  -2);\nfunc f(x : bool) y : bool =\nbegin\n  y = !x\n    & x;\n"
        "  /* one\n   two */\nend;\n",
    "func f(x : bool)\r\n  y : bool =\r\nbegin y = x; end;\r\n":
        "func f(x : bool)\r\n  y : bool =\r\nbegin\r\n  y = x;\r\nend;\r\n",
    # The head of a source that is to be linked and what stands in braces stay, in comments too.
    "/* {N} */ let  N=4 ; use  a<W={N}>;  /* c */\nfunc f(x : fix<{ N*2 },0>)\n y : bool = begin y=x@{N}<{N *N}; /* "
    "{N} */ end;":
        "/* {N} */ let  N=4 ; use  a<W={N}>;  /* c */\nfunc f(x : fix<{ N*2 },0>)\n  y : bool =\nbegin\n"
        "  y = x@{N} < {N *N};\n  /* {N} */\nend;\n",
}
REFUSED = ("func f(x : bool) y : bool = begin y = x end;", "y ? x",
           "func f(x : bool) y : bool = begin y = x; end; /* a")


def faults() -> Iterator[str]:
    """What is wrong with the layout of each source."""
    for path in sorted(path for ending in ("sil", "blocks") for path in ROOT.glob(f"examples/*/*.{ending}")):
        text = path.read_text()
        if path.stem not in OTHER and laid_out(text) != text:
            yield f"{path.name} has another layout"
    for text, expected in CASES.items():
        if laid_out(text) != expected:
            yield f"{text!r} becomes {laid_out(text)!r} in the place of {expected!r}"
    for text in REFUSED:
        try:
            yield f"{text!r} is no program, and becomes {laid_out(text)!r}"
        except Refused:
            pass
    for seed in range(SOURCES):
        text = Program(random.Random(seed)).source().text
        made = laid_out(text)
        if [(piece.kind, piece.text) for piece in pieces_of(made)] != [(piece.kind, piece.text)
                                                                       for piece in pieces_of(text)]:
            yield f"the random source {seed} has other tokens or comments"
        if laid_out(made) != made:
            yield f"the random source {seed} has another layout each time"


def main() -> int:
    found = list(faults())
    for fault in found:
        print(f"layout: {fault}")
    print(f"layout: {len(CASES) + len(REFUSED) + SOURCES} sources and the examples, {len(found)} faults")
    return 1 if found else 0


if __name__ == "__main__":
    sys.exit(main())
