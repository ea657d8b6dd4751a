#!/usr/bin/env python3
"""Whether `tools/link` makes the sources that it says, refuses what it says with the file and the place, and makes
nothing then. Blocks and sources are those of this script.

usage: tests/library/check_linker.py [--silc PROGRAM]

It runs the built `silc`, PROGRAM, or the one that `SILC` names.
"""
import contextlib
import io
import os
import subprocess
import sys
import tempfile
from collections.abc import Iterator
from dataclasses import dataclass
from pathlib import Path

from silc.commands import link as tool

ROOT = Path(__file__).resolve().parent.parent.parent

GAIN = """/* Twice and more. */
let W = 8 in 2 .. 30;       /* bits */
let K = 1 in 0 .. min(4, W - 1);  /* shift */
const half : fix<{W},0> = {2 ** (W - 2)};
func more(x : fix<{W},0>) y : fix<{W},0> = begin y = x << {K}; end;
func gain(x : fix<{W},0>) y : fix<{W},0> =
begin
  var low : fix<{W},0>;
  low = more(x);
  y = low + half;
end;
"""
TWICE = """use gain<W = W + 0, K = 2> as inner;
let W = 8 in 2 .. 20; /* bits */
func twice(x : fix<{W},0>) y : fix<{W},0> = begin y = inner(x); end;
"""
LISTS = """let N = 4 in 1 .. 8;  /* how many */
const t[{N}] : fix<16,8> = ({k * k + 0.5 for k in 0 .. N - 1});
func lists(x : fix<16,8>) y : fix<16,8> = begin y = x * t[{N - 1}]; end;
"""
BLOCKS = {
    "gain": GAIN, "twice": TWICE, "lists": LISTS,
    "round": "use trip as a;\nfunc round_trip(x : bool) y : bool = begin y = a(x); end;\n",
    "ring": "use trip as a;\nfunc ring(x : bool) y : bool = begin y = a(x); end;\n",
    "trip": "\nuse ring as b;\nfunc trip(x : bool) y : bool = begin y = b(x); end;\n",
    "broken": "/* c */\nlet W = 8 in 4 .. 9;\n\nfunc broken(x : fix<{W},0>) y : fix<{W},0> =\nbegin\n  y = x + z;\n"
              "end;\n",
    "nameless": "func other(x : bool) y : bool = begin y = x; end;\n",
    "brace": "func brace(x : fix<8,0>) y : fix<{V},0> = begin y = x; end;\n",
    "corner": "let W = 8 in 8, 41;  /* bits */\nfunc corner(x : fix<{W},0>) y : fix<{W},0> = begin y = x; end;\n",
}
MAIN = "func main(x : fix<8,0>) y : fix<8,0> = begin y = {}; end;\n"
CALLED = MAIN.replace("{}", "a(x)")


def using(*lines: str, rest: str = CALLED) -> str:
    return "".join(f"{line}\n" for line in lines) + rest


# A source, and what is said of it behind its name: the place, and words of the line.
REFUSED = [
    (using("use gian as a;"), "main.sil:1:1:", "there is no block gian; near it: gain"),
    (using("/* c */ use gain<Q=3> as a;"), "main.sil:1:9:", "the block gain has no number Q; its own are W, K"),
    (using("", "use gain<W=31> as a;"), "main.sil:2:1:", "gain: W = 31 is not in 2..30 (gain.sil:2)"),
    (using("use gain<W=2, K=2> as a;"), "main.sil:1:1:", "gain: K = 2 is not in 0..1 (gain.sil:3)"),
    (using("use gain<W=8.5> as a;"), "main.sil:1:1:", "gain: W = 8.5 is not in 2..30"),
    (using("use gain<W> as a;"), "main.sil:1:1:", "`W` is no `NAME=NUMBER`"),
    (using("use gain<W=8, W=8> as a;"), "main.sil:1:1:", "W is given twice"),
    (using("use gain<W=M> as a;"), "main.sil:1:1:", "`M`: no number is called M"),
    (using("use gain<W=8/0> as a;"), "main.sil:1:1:", "`8/0`: it divides by 0"),
    (using("use ring as a;"), "blocks/trip.sil:2:1:", "the block ring uses itself: ring -> trip -> ring"),
    (using("use gain as a;", "use gain<W=9> as a;"), "main.sil:2:1:", "two blocks have the name a"),
    (using("let N = 8;", "let N = 9;"), "main.sil:2:1:", "two numbers have the name N"),
    (using("use gain as main;"), "main.sil:1:1:", "main is the name of a function or a table of this file"),
    (using("use gain as begin;"), "main.sil:1:1:", "begin is no name for a function"),
    (using("use gain as x;"), "main.sil:2:", "declared twice"),
    (using("use gain as a", rest=""), "main.sil:1:1:", "`;` is missing after this use"),
    (using("let N;"), "main.sil:1:1:", "this is no `let NAME = NUMBER;`"),
    (using("use broken as a;"), "blocks/broken.sil:6:", "z"),
    (using("use nameless as a;"), "blocks/nameless.sil:1:1:", "it has no function that is called nameless"),
    (using("use brace as a;"), "blocks/brace.sil:1:34:", "`{V}`: no number is called V"),
    (using("use gain as a;", "", rest=MAIN.replace("{}", "a(x) + 1")), "main.sil:3:", ""),
    (using("let N = 3;", rest=MAIN.replace("{}", "x@{N + M}")), "main.sil:2:", "no number is called M"),
    (using("let N = 3 in 4 .. 5;"), "main.sil:1:1:", "N = 3 is not in 4..5"),
    (using("let N = 2 ** 1000;"), "main.sil:1:1:", "the power 1000 is none"),
    (using("let N = (2 ** 256) ** 256;"), "main.sil:1:1:", "the power 256 is none"),
    (using("let N = " + "(" * 300 + "1" + ")" * 300 + ";"), "main.sil:1:1:", "it is too deep"),
    (using("let N = 10 ** 20;", rest=MAIN.replace("{}", "{N}")), "main.sil:2:", "it has more than 18 digits"),
    (using("use ../gain as a;"), "main.sil:1:1:", "this is no `use BLOCK;`"),
    (MAIN.replace("{}", "a(x)") + "use gain as a;\n", "main.sil:2:", ""),
    (using("/* use gain as a; */"), "main.sil:2:", ""),
    (using("use gain as a; use gain<W=8, K=2> as b;", "let N = 2", rest=""), "main.sil:2:1:",
     "`;` is missing after this let"),
    (using("let N = 3;", rest=MAIN.replace("{}", "x@{N")), "main.sil:2:", ""),
    (using("let N = 3 in 1 .. 5 step 0;"), "main.sil:1:1:", "no step above 0"),
]


@dataclass
class Done:
    returncode: int
    stdout: str
    stderr: str


class Room:
    """A folder with blocks in which the tool runs, in this process."""

    def __init__(self, folder: Path) -> None:
        self.folder = folder
        (folder / "blocks").mkdir()
        for name, text in BLOCKS.items():
            (folder / "blocks" / f"{name}.sil").write_text(text)

    def put(self, text: str, name: str = "main.sil") -> None:
        (self.folder / name).write_text(text)

    def link(self, *words: str) -> Done:
        out, err = io.StringIO(), io.StringIO()
        with contextlib.chdir(self.folder), contextlib.redirect_stdout(out), contextlib.redirect_stderr(err):
            status = tool.main(list(words))
        return Done(status, out.getvalue(), err.getvalue())

    def linked(self, text: str, *words: str) -> str:
        self.put(text)
        done = self.link("--library", "blocks", *words, "--force", "-o", "linked.sil", "main.sil")
        return (self.folder / "linked.sil").read_text() if done.returncode == 0 else f"{done.returncode} {done.stderr}"

    def rows(self, text: str, samples: str) -> str:
        (self.folder / "made.sil").write_text(text)
        (self.folder / "samples").write_text(samples)
        done = subprocess.run([os.environ["SILC"], "eval", "made.sil", "samples", "/dev/stdout"], cwd=self.folder,
                              capture_output=True, text=True)
        return done.stdout or done.stderr


def refusal_faults(room: Room) -> Iterator[str]:
    for text, place, words in REFUSED:
        room.put(text)
        done = room.link("--library", "blocks", "-o", "out.sil", "main.sil")
        if done.returncode != 1 or not done.stderr.startswith(f"link: {place}") or words not in done.stderr or \
                done.stderr.count("\n") != 1:
            yield f"{text!r}: {done.returncode} {done.stderr!r} in the place of {place} {words}"
        if (room.folder / "out.sil").exists():
            yield f"{text!r}: something is made"
            (room.folder / "out.sil").unlink()


def expect(name: str, made: str, *parts: str) -> list[str]:
    """A fault for each part that is not in what was made."""
    return [f"{name}: {part!r} is not in\n{made}" for part in parts if part not in made]


def text_faults(room: Room) -> Iterator[str]:
    """Sources that are linked, with parts of what is made and their rows."""
    made = room.linked(using("/* A comment */", "use gain<W=8, K=2> as a;"))
    yield from expect("one block", made, "/* linked from main.sil ", "/* use gain<W=8, K=2> as a; */",
                      "/* from gain.sil:4: gain<W=8, K=2> */\nconst a_half : fix<8,0> = 64;",
                      "/* from gain.sil:5: gain<W=8, K=2> */\nfunc a_more(x : fix<8,0>) y : fix<8,0> = begin y = x << "
                      "2; end;", "func a(x : fix<8,0>)", "low = a_more(x);", "y = low + a_half;")
    yield from expect("its lines", "".join(made.split("\n")[2:3]), "func main(")
    yield from expect("its rows", room.rows(made, "1\n5\n"), "68\n84\n")
    yield from expect("without a name", room.linked(using("use gain;", rest=MAIN.replace("{}", "gain(x)"))),
                      "func gain(x")
    made = room.linked(using("use gain<K=2> as a;", "use gain<W=8, K=1 + 1> as b;", rest=MAIN.replace("{}", "b(x)")))
    yield from expect("one set of numbers", made, "begin y = a(x); end;")
    if made.count("func a(") != 1 or "func b(" in made:
        yield f"one set of numbers is there twice:\n{made}"
    made = room.linked(using("use twice as low;", rest=MAIN.replace("{}", "low(x)")))
    yield from expect("a block in a block, and a signal with a function's name", made, "func low(x",
                      "func gain_W8_K2(x", "y = gain_W8_K2(x)", "var low_2 : fix<8,0>;", "low_2 = gain_W8_K2_more(x);")
    yield from expect("its rows", room.rows(made, "1\n5\n"), "68\n84\n")
    text = "use twice;\n" + MAIN.replace("{}", "gain_W8_K2 + twice_half@1")
    text = text.replace("begin y",
                        "begin var gain_W8_K2, twice_half : fix<8,0>; gain_W8_K2 = twice(x); twice_half = x; y")
    yield from expect("names that are taken", room.linked(text.replace("; gain_W8_K2 = ", ";\n  gain_W8_K2 = ").replace(
        "begin var", "begin\nvar")), "func gain_W8_K2_2(x")
    made = room.linked(using("use lists<N=3> as a;",
                             rest="func main(x : fix<16,8>) y : fix<16,8> = begin y = a(x); end;"))
    yield from expect("a list", made, "const a_t[3] : fix<16,8> = (0.5, 1.5, 4.5);", "x * a_t[2]")
    made = room.linked(using("let N = 3; let M = 2 * N;", rest=MAIN.replace("{}", "x@{M - N} /* {N} */ + {1 / N}")))
    yield from expect("numbers", made, "x@3 /* {N} */ + 0.33333333333333333;")
    made = room.linked("/* \xe9 */\r\nuse gain as a;\r\n" + CALLED.replace("\n", "\r\n"))
    yield from expect("other ends of lines", made, "use gain as a; */\nfunc main(")
    made = room.linked(using("use gain as a_more;", "use gain<W=8, K=0> as a;", rest=MAIN.replace("{}", "a_more(x)")))
    yield from expect("a name that is given", made, "func a_more(x", "func a_more_2(x", "low = a_more_2(x);")
    made = room.linked("func main(x : fix<8,0>) y : fix<8,0> = begin y = x; end;")
    yield from expect("no head", made, "; do not edit */ func main(x : fix<8,0>) y : fix<8,0> = begin y = x; end;\n")
    if room.linked(using("use gain as a;")) != room.linked(using("use gain as a;")):
        yield "equal inputs give other bytes"


def other_faults(room: Room) -> Iterator[str]:
    """Stale copies, places, and files that are not written over."""
    room.put(using("use twice as a;"))
    words = ("--library", "blocks", "-o", "copy.sil", "main.sil")
    cases = [(words, 0, ""), (("--check", *words), 0, "")]
    for given, status, said in cases:
        done = room.link(*given)
        if (done.returncode, done.stderr) != (status, said):
            yield f"{given}: {done.returncode} {done.stderr}"
    copy = (room.folder / "copy.sil").read_text()
    line = copy[:copy.index("low = ")].count("\n") + 1
    yield from expect("a place", room.link("--where", str(line), "copy.sil").stdout, "gain.sil:9\n")
    yield from expect("a place of its own", room.link("--where", "2", "copy.sil").stdout, "the source itself:2\n")
    (room.folder / "blocks" / "gain.sil").write_text(GAIN + "\n")
    yield from expect("a stale copy", room.link("--check", *words).stderr,
                      "link: copy.sil is stale: gain.sil is another\n")
    (room.folder / "blocks" / "gain.sil").write_text(GAIN)
    (room.folder / "copy.sil").write_text(copy.replace("<< 2", "<< 3"))
    yield from expect("a changed copy", room.link("--check", *words).stderr,
                      "copy.sil is stale: it was changed by hand")
    yield from expect("a file of one's own", room.link(*words).stderr, "copy.sil is there, and not as a tool made it")
    block = room.folder / "blocks" / "gain.sil"
    for name in ("blocks/gain.sil", "./blocks/gain.sil", "main.sil"):
        done = room.link("--library", "blocks", "--force", "-o", name, "main.sil")
        yield from expect(f"an output that is an input, {name}", done.stderr, f"link: {name} is the input ")
        if block.read_text() != GAIN:
            yield "a block is written over"
    done = room.link("--library", "blocks", "--test", "corner")
    yield from expect("a corner", done.stdout, "blocks/corner.sil:2:", "(corner<W=41>)", "there are no rows beside it",
                      "1 blocks, 2 faults\n")
    (room.folder / "blocks" / "rows").mkdir()
    (room.folder / "blocks" / "rows"
     / "gain.txt").write_text("gain<W=8, K=2>\n1 | 68\n5 | 84\ngain<W=9, K=0>\n1 | 128\n")
    done = room.link("--library", "blocks", "--test", "gain")
    yield from expect("rows", done.stdout, "blocks/gain.sil: gain<W=9, K=0>: row 1 is (129,) in the place of (128,)",
                      "1 blocks, 1 faults\n")


def main(words: list[str]) -> int:
    if words[:1] == ["--silc"] and len(words) == 2:
        os.environ["SILC"] = str(Path(words[1]).resolve())
    elif words:
        print(__doc__, file=sys.stderr)
        return 2
    os.environ.setdefault("SILC", str(ROOT / "crates" / "silc_main" / "out" / "silc_main"))
    faults = []
    for check in (refusal_faults, text_faults, other_faults):
        with tempfile.TemporaryDirectory(prefix="silc-link-") as folder:
            os.environ["XDG_STATE_HOME"] = str(Path(folder) / "states")
            faults += check(Room(Path(folder)))
    for fault in faults:
        print(fault)
    print(f"link: {len(REFUSED)} refusals, {len(faults)} faults")
    return 1 if faults else 0


if __name__ == "__main__":
    sys.exit(main(sys.argv[1:]))
