#!/usr/bin/env python3
"""What the language server answers about sources that are to be linked: faults at their places in the source and in
blocks, those of the linker itself, what may be written in a head, and what is said of its names.

usage: tests/check_linked.py

It runs the built `silc` and `silc_show`, or those that `SILC` and `SILC_SHOW` name.
"""
import sys
import tempfile
from collections.abc import Iterator
from pathlib import Path
from typing import Any, TypeAlias

from check_messages import Client, edited, place, shown

SECONDS = 60
# A question by its name, what is answered, and what should be.
Answer: TypeAlias = tuple[str, Any, Any]
# A letter of two units in UTF-16 and four bytes stands before what is told in its line, and a block is used under two
# names.
SOURCE = """/* 𝄞 */ let N = 3; use half<W=16> as low; /* the first */
let M = N + 1 in 2 .. 8; /* how many */
use half<W=16> as same;
use twice<W = 12 + N + 1> as more;

func main(x : fix<16,0>) y : fix<16,0> =
begin
  var t[{N}] : fix<16,0>;
  /* 𝄞 */ t[0] = low(x); t[1] = same(x@{N - 1});
  t[{N - 1}] = more(t[1]);
  y = t[0] + t[1] + t[2]@{M}; /* wraps */
end;
"""
HALF = """/* Half of it,
   and no more.

   It is a page. */
let W = 8 in 2 .. 24;     /* bits */
let K = 1 in 1 .. 4;      /* shift */
func half(x : fix<{W},0>) y : fix<{W},0> =
begin
  y = x >> {K};
end;
"""
TWICE = """/* Twice a half. */
let W = 8 in 2 .. 24;     /* bits */
use half<W=W, K=2> as low;
func twice(x : fix<{W},0>) y : fix<{W},0> =
begin
  var half : fix<{W},0>;
  half = low(x);
  y = half + half; /* wraps */
end;
"""


class Session:
    """A source in a folder with blocks, and what is asked about it."""

    def __init__(self, client: Client, room: Path) -> None:
        self.client, self.room, self.version = client, room, 0
        self.uri = (room / "main.sil").as_uri()

    def marks(self, text: str) -> list[dict]:
        """What is marked in a text of the source."""
        self.version += 1
        if self.version == 1:
            self.client.open(self.uri, text)
        else:
            self.client.change(self.uri, text, self.version)
        return self.client.marks(self.uri, self.version)

    def ask(self, method: str, text: str, words: str, after: int = 0, **more: Any) -> Any:
        return self.client.ask(f"textDocument/{method}", textDocument={"uri": self.uri},
                               position=place(text, words, after), **more)

    def hover(self, words: str, after: int = 0) -> str | None:
        found = self.ask("hover", SOURCE, words, after)
        return found and found["contents"]["value"].removeprefix("```silc\n").replace("\n```", "", 1)

    def file(self, place_: dict) -> tuple:
        """The name of a file and a line and a column in it."""
        return place_["uri"].rpartition("/")[2], *place_["range"]["start"].values()


def own_faults(session: Session) -> Iterator[Answer]:
    """Faults of the source, told where they stand in it."""
    yield "without a fault", session.marks(SOURCE), []
    text = SOURCE.replace("t[2]@{M};", "t[2]@{M} + zz;")
    yield "a fault behind numbers", shown(session.marks(text)), [(10, 31, 1, "nothing here is called `zz`")]
    text = SOURCE.replace(" + t[2]@{M}; /* wraps */\nend;", "\n")
    yield "a text that is not whole", shown(session.marks(text)), [(10, 17, 1, "a `;` is missing after `]`")]
    text = SOURCE.replace("t[2]@{M};", "t[2]@{M}")
    marks = session.marks(text)
    yield "a fault with a cure", shown(marks), [(10, 28, 1, "a `;` is missing after `4`")]
    actions = session.client.ask("textDocument/codeAction", textDocument={"uri": session.uri}, range=marks[0]["range"],
                                 context={})
    yield "its cure", [edited(text, one["edit"]["changes"][session.uri]) for one in actions], [SOURCE]
    text = SOURCE.replace("var t[{N}]", "var t[{N}], {N}")
    yield "a fault of a number", shown(session.marks(text)), [(7, 14, 1, "a name is wanted here, and `3` stands there")]


def linker_faults(session: Session) -> Iterator[Answer]:
    """What the linker refuses, at its place."""
    for old, new, at, words in (
            ("use half<W=16> as same", "use halve<W=16> as same", (2, 0),
             "there is no block halve; near it: half, level"),
            ("W=16> as low", "V=16> as low", (0, 20), "the block half has no number V; its own are W, K"),
            ("W=16> as low", "W=25> as low", (0, 20), "half: W = 25 is not in 2..24 (half.sil:5)"),
            ("as same", "as low", (2, 0), "two blocks have the name low"),
            ("N + 1 in 2", "N + 1 in 5", (1, 0), "M = 4 is not in 5..8"),
            ("as same;", "as same", (2, 0), "this is no `use BLOCK;` or `use BLOCK<NAME=NUMBER, ..> as NAME;`"),
            ("@{M}", "@{M + Q}", (10, 25), "`{M + Q}`: no number is called Q"),
            ("half<W=16> as same", "ring as same", (2, 0), "ring.sil:1:1: the block ring uses itself: ring -> ring"),
            ("half<W=16> as same", "other as same", (2, 0), "other.sil:1:1: it has no function that is called other")):
        yield f"{new} in the place of {old}", shown(session.marks(SOURCE.replace(old, new))), [(*at, 1, words)]
    marks = session.marks(SOURCE.replace("use twice<W = 12 + N + 1>", "use twice<W=25>"))
    yield "a range in the source", [mark["range"]["end"]["character"]
                                    for mark in marks], [len("use twice<W=25> as more;")]


def block_faults(session: Session) -> Iterator[Answer]:
    """Faults in a block, at the line of the source that led there, and the source anew where the block is mended."""
    broken = (session.room / "blocks" / "half.sil").as_uri()
    session.marks(SOURCE)
    session.client.open(broken, HALF.replace("x >> {K}", "x >> {K} >> q"))
    yield "a block by itself", shown(session.client.marks(broken)), [
        (8, 18, 1, "nothing that can be the amount of a shift is called `q`")]
    marks = session.client.marks(session.uri)
    yield "a fault in a block", [(*mark["range"]["start"].values(), mark["message"].partition(" ")[0])
                                 for mark in marks], [
        (0, 20, "half.sil:9:19:"), (3, 0, "half.sil:9:19:")]
    yield "its place", [session.file(one["location"]) for one in marks[0]["relatedInformation"]], [("half.sil", 8, 18)]
    outline = session.client.ask("textDocument/documentSymbol", textDocument={"uri": broken})
    yield "outline of a block", [(one["name"], one["detail"])
                                 for one in outline], [("half", "func half(x : fix<8,0>) y : fix<8,0>")]
    session.client.change(broken, HALF, 2)
    yield "a block that is mended", session.client.marks(session.uri), []
    session.client.tell("textDocument/didClose", textDocument={"uri": broken})


def questions(session: Session) -> Iterator[Answer]:
    """Names of the source and of its head."""
    session.marks(SOURCE)
    for words, after, said in (
            ("N = 3", 0, "N = 3"), ("M = N", 0, "M = 4 = N + 1 in 2 .. 8\nhow many"), ("{N - 1}", 1, "N = 3"),
            ("{M}", 1, "M = 4 = N + 1 in 2 .. 8\nhow many"), ("+ N + 1>", 2, "N = 3"),
            ("half<", 1, "func half(x : fix<{W},0>) y : fix<{W},0>\nHalf of it, and no more."),
            ("low; /*", 1, "func half(x : fix<{W},0>) y : fix<{W},0>\nHalf of it, and no more."),
            ("W=16> as low", 0, "let W = 8 in 2 .. 24\nbits"),
            ("low(x)", 1, "func low(x : fix<16,0>) y : fix<16,0>\nHalf of it, and no more."),
            ("same(x", 1, "func same(x : fix<16,0>) y : fix<16,0>\nHalf of it, and no more."),
            ("more(t", 1, "func more(x : fix<16,0>) y : fix<16,0>\nTwice a half."),
            ("t[0] =", 0, "t[3] : fix<16,0> (local of main, 3 elements)"), ("the first", 0, None)):
        yield f"hover at {words}", session.hover(words, after), said
    for words, after, at in (("low(x)", 0, ("half.sil", 6, 5)), ("{M}", 1, ("main.sil", 1, 0)),
                             ("half<", 1, ("half.sil", 6, 0)),
                             ("W=16> as low", 0, ("half.sil", 4, 0)), ("t[1] =", 0, ("main.sil", 7, 6))):
        yield f"declaration of {words}", session.file(session.ask("definition", SOURCE, words, after)), at
    places = [session.file(one)
              for one in session.ask("references", SOURCE, "t[0] =", context={"includeDeclaration": True})]
    yield "uses of a signal", places, [("main.sil", 7, 6), ("main.sil", 8, 11), ("main.sil", 8, 26), ("main.sil", 9, 2),
                                       ("main.sil", 9, 20), ("main.sil", 10, 6), ("main.sil", 10, 13),
                                       ("main.sil", 10, 20)]
    outline = session.client.ask("textDocument/documentSymbol", textDocument={"uri": session.uri})
    yield "outline", [(one["name"], [inner["name"] for inner in one["children"]])
                      for one in outline], [("main", ["x", "y", "t"])]
    help_ = session.ask("signatureHelp", SOURCE, "more(t", 5)
    yield "parameters", help_["signatures"][0]["label"], "func more(x : fix<16,0>) y : fix<16,0>"
    text = SOURCE.replace("  y = t", "     y   =  t").replace("{N - 1}", "{N  - 1}")
    session.marks(text)
    edits = session.client.ask("textDocument/formatting", textDocument={"uri": session.uri}, options={})
    yield "laid out", edits[0]["newText"], SOURCE.replace("{N - 1}", "{N  - 1}").replace(
        "/* 𝄞 */ t[0] = low(x); t[1]", "/* 𝄞 */ t[0] = low(x);\n  t[1]")


def completions(session: Session) -> Iterator[Answer]:
    """What may be written at the end of a text, in a source that is not whole."""
    head = "/* 𝄞 */ let N = 3;\n"
    for text, labels in (("use ", ["half", "ring", "twice"]), ("use tw", ["half", "ring", "twice"]),
                         ("use half<", ["W", "K"]), ("use half<W=16, ", ["K"]), ("use half<W=16, K=", ["N"]),
                         ("let M = 2 * ", ["N"]),
                         ("use half<W=8> as ", []), (SOURCE[SOURCE.index("func"):SOURCE.index("{N")] + "{", ["N"])):
        session.marks(head + text)
        found = session.ask("completion", head + text, head + text, len(head + text))
        own = [one["label"] for one in found if one["label"] in ("half", "other", "ring", "twice", "W", "K", "N")]
        yield f"completion behind {text.splitlines()[-1]}", own, labels
    session.marks(head + "use ")
    found = {one["label"]: one for one in session.ask("completion", head + "use ", "use ", 4)}
    yield "what a block is", (found["half"]["detail"], found["half"]["documentation"]), (
        "func half(x : fix<{W},0>) y : fix<{W},0>", "Half of it, and no more.")
    session.marks(SOURCE)
    names = [one["label"] for one in session.ask("completion", SOURCE, "y = t", 4)]
    yield "names of the source alone", [name in names
                                        for name in ("low", "same", "more", "t", "half_W16_K2", "half")], [
        True, True, True, True, False, False]
    by_blank = session.ask("completion", SOURCE, "y = t", 4, context={"triggerKind": 2, "triggerCharacter": " "})
    yield "behind a blank that one types", by_blank, []


def main() -> int:
    answers: list[Answer] = []
    with tempfile.TemporaryDirectory(prefix="silc-linked-") as folder:
        room = Path(folder).resolve()
        (room / "blocks").mkdir()
        blocks = {"half": HALF, "twice": TWICE,
                  "ring": "use ring as b;\nfunc ring(x : bool) y : bool = begin y = b(x); end;\n",
                  "other": "func some(x : bool) y : bool = begin y = x; end;\n"}
        for name, text in blocks.items():
            (room / "blocks" / f"{name}.sil").write_text(text)
        client = Client()
        client.ask("initialize", capabilities={}, initializationOptions={"library": "blocks"})
        session = Session(client, room)
        for part in (own_faults, linker_faults, block_faults, questions, completions):
            answers += part(session)
        client.ask("shutdown")
        client.tell("exit")
        answers.append(("it ends", client.process.wait(SECONDS), 0))
    wrong = [(name, got, expected) for name, got, expected in answers if got != expected]
    for name, got, expected in wrong:
        print(f"linked: {name}: {got} in the place of {expected}")
    print(f"linked: {len(answers)} answers, {len(wrong)} faults")
    return 1 if wrong else 0


if __name__ == "__main__":
    sys.exit(main())
