#!/usr/bin/env python3
"""Whether the language server answers a real client: headless Neovim opens a source, asks about its names, and changes
it; and whether the lines for Neovim 0.7 in editor/README.md start it, and Vim's compiler takes the lines of tools/check
apart.

usage: tests/check_server.py

It runs the built `silc`, or the one that `SILC` names. Without Neovim it is skipped, and ends with 77.
"""
import json
import os
import re
import shutil
import subprocess
import sys
import tempfile
from pathlib import Path
from typing import Any

HERE = Path(__file__).resolve().parent
ROOT = HERE.parent
SERVER = ROOT / "editor" / "lsp" / "silc-lsp"
README = ROOT / "editor" / "README.md"
SECONDS, SKIPPED = 240, 77
# A comment with a letter that has two units in UTF-16, so that columns after it are those of the protocol.
SOURCE = """/* 𝄞 datapath */ const h[2] : fix<16,15> = (0.5, 0.25);
/* datapath: plain.toml */

func twice(x : fix<16,15>) y : fix<16,15> =
begin
  y = x + x;
end;

func main(x : fix<16,15>) y : fix<16,15,round> =
begin
  var s[3] : fix<16,15>;
  s[0] = twice(x);
  (k : 0 .. 1) :: begin
    s[k+1] = s[k] + h[k] * x@k;
  end;
  y = s[2];
end;
"""
DATAPATH = ROOT / "examples" / "lowpass16" / "one_multiplier.toml"
# Of each question its method and where it is asked: a line from 0, and a text there with the place in it.
QUESTIONS = {"hover_table": ("hover", 13, "h[k] *"), "hover_local": ("hover", 15, "s[2]"),
             "hover_index": ("hover", 13, "k] +"), "hover_function": ("hover", 11, "twice"),
             "hover_other_x": ("hover", 5, "x;"), "hover_nothing": ("hover", 4, "begin"),
             "definition": ("definition", 13, "h[k] *"), "definition_of_x": ("definition", 13, "x@k"),
             "references": ("references", 10, "s[3]"), "references_of_k": ("references", 12, "k :"),
             "outline": ("documentSymbol", 0, ""), "completion": ("completion", 13, "s[k] +"),
             "completion_before": ("completion", 5, "y")}
# Edits one after another: the line, the old text in it and the new one.
EDITS = {"broken": (15, "y", "z"), "mended": (15, "z", "y"), "undefined": (15, "y = s[2];", "")}


def asked(room: Path) -> dict[str, Any]:
    lines = SOURCE.splitlines()

    def column(line: int, text: str) -> int:
        return len(lines[line][: lines[line].index(text)].encode("utf-16-le")) // 2

    questions = [{"name": name, "method": f"textDocument/{method}", "line": line, "column": column(line, text)}
                 for name, (method, line, text) in QUESTIONS.items()]
    edits = []
    for name, (line, old, new) in EDITS.items():
        start = lines[line].index(old)
        edits.append({"name": name, "line": line, "from": start, "to": start + len(old), "text": new})
        lines[line] = lines[line].replace(old, new, 1)
    return {"command": [sys.executable, str(SERVER)], "source": str(room / "some.sil"), "options": {},
            "questions": questions, "edits": edits}


def answered(room: Path, text: str, asked_for: dict[str, Any], configuration: str | Path = "NONE") -> dict[str, Any]:
    """What the server answers in Neovim about a text."""
    (room / "some.sil").write_text(text)
    shutil.copy(DATAPATH, room / "plain.toml")
    (room / "asked.json").write_text(json.dumps(asked_for))
    (room / "answers.json").unlink(missing_ok=True)
    environment = os.environ | {"ASKED": str(room / "asked.json"), "ANSWERS": str(room / "answers.json"),
                                "HOME": str(room),
                                "XDG_STATE_HOME": str(room), "XDG_DATA_HOME": str(room), "XDG_CONFIG_HOME": str(room)}
    words = ["nvim", "--headless", "-u", configuration, "-i", "NONE", "-n", "-c",
             f"luafile {HERE / 'check_server.lua'}"]
    done = subprocess.run(words, cwd=room, env=environment, stdin=subprocess.DEVNULL, capture_output=True, text=True,
                          timeout=SECONDS)
    if not (room / "answers.json").is_file():
        sys.exit(f"lsp: Neovim gave no answers: {done.stderr.strip()[-400:]}")
    return json.loads((room / "answers.json").read_text())


def by_readme(room: Path) -> dict[str, Any]:
    """What Neovim 0.7 answers with the lines of editor/README.md and the package for Vim."""
    (block,) = re.findall(r"```lua\n( *-- 0\.7\n.*?)```", README.read_text(), re.S)
    lines = block.replace("REPOSITORY", str(ROOT)).replace("one_multiplier.toml", "plain.toml")
    (room / "init.lua").write_text(f"vim.opt.runtimepath:prepend('{ROOT / 'editor' / 'vim'}')\n{lines}")
    text = SOURCE.replace("  y = x + x;", "  var t : fix<16,15>;\n  t = x;\n     y = x   +  x;")
    text = text.replace("/* datapath: plain.toml */\n", "")
    session = {"source": str(room / "some.sil"), "questions": [], "edits": [], "layout": True, "make": True}
    answers = answered(room, text, session, room / "init.lua")
    return {"by README": sorted((line, text) for line, _, _, _, text in answers["opened"]),
            "laid out": answers["layout"] == text.replace("     y = x   +  x;", "  y = x + x;").splitlines(),
            "make": answers["make"]}


def told(answer: Any) -> str | None:
    return answer["contents"]["value"].removeprefix("```silc\n").removesuffix("\n```") if answer else None


def places(answer: Any) -> list[tuple[int, int]]:
    """The lines and columns of places, from 0."""
    listed = answer if isinstance(answer, list) else [answer]
    return [(place["range"]["start"]["line"], place["range"]["start"]["character"]) for place in listed]


def labels(answer: Any) -> list[str]:
    return [item["label"] for item in answer]


def outlined(answer: Any) -> dict[str, list[str]]:
    return {symbol["name"]: [inner["name"] for inner in symbol["children"]] for symbol in answer}


def found(answers: dict[str, Any]) -> dict[str, Any]:
    """What is compared, by its name."""
    hovers = {name: told(answers[name]) for name in QUESTIONS if name.startswith("hover")}
    return hovers | {"definition": places(answers["definition"]), "definition_of_x": places(answers["definition_of_x"]),
                     "references": places(answers["references"]), "references_of_k": places(answers["references_of_k"]),
                     "outline": outlined(answers["outline"]),
                     "completion": {name: name in labels(answers["completion"])
                                    for name in ("h", "s", "k", "x", "twice", "round", "sat")},
                     "no index before": "k" in labels(answers["completion_before"]), **{
                         name: [(line, text) for line, _, _, _, text in answers[name]] for name in ("opened", *EDITS)},
                     "severities": [severity for name in ("opened", *EDITS) for *_, severity, _ in answers[name]]}


PLANNED = (8, "over plain.toml: a period of 22 cycles, 13 nodes")
# Of x = -1.0: -2.0 of `twice`, and 0.5 and 0.25 times x.
WRAPPING = (13,
            "`s[k] + h[k] * x@k` reaches -2.75 with inputs at the ends of their ranges, where `k` = 1, and "
            "`fix<16,15>` wraps below -1")
EXPECTED = {
    "hover_table": "h[2] : fix<16,15> (table, 2 elements)",
    "hover_local": "s[3] : fix<16,15> (local of main, 3 elements)",
    "hover_index": "k : 0 .. 1 (index of a loop)",
    "hover_function": "func twice(x : fix<16,15>) y : fix<16,15>",
    "hover_other_x": "x : fix<16,15> (parameter of twice, 1 element)",
    "hover_nothing": None,
    "definition": [(0, 24)],
    "definition_of_x": [(8, 10)],
    "references": [(10, 6), (11, 2), (13, 4), (13, 13), (15, 6)],
    "references_of_k": [(12, 3), (13, 6), (13, 15), (13, 22), (13, 29)],
    "outline": {"h": [], "twice": ["x", "y"], "main": ["x", "y", "s", "k"]},
    "completion": {"h": True, "s": True, "k": True, "x": True, "twice": True, "round": True, "sat": True},
    "no index before": False,
    "opened": [WRAPPING, PLANNED],
    "broken": [(15, "no signal of `main` is called `z`")],
    "mended": [WRAPPING, PLANNED],
    "undefined": [(8, "no equation defines `y`")],
    "severities": [2, 4, 1, 2, 4, 1],
    "by README": [(4, "`t` is never read"), (PLANNED[0] + 1, PLANNED[1]), (WRAPPING[0] + 1, WRAPPING[1])],
    "laid out": True,
    "make": [[5, 7, "w", "`t` is never read"], [WRAPPING[0] + 2, 14, "w", WRAPPING[1]]],
}


def main() -> int:
    if not shutil.which("nvim"):
        print("lsp: Neovim is not there (apt-get install neovim): 1 session skipped")
        return SKIPPED
    with tempfile.TemporaryDirectory(prefix="silc-lsp-test-") as folder:
        room = Path(folder).resolve()
        got = found(answered(room, SOURCE, asked(room))) | by_readme(room)
    wrong = [name for name, value in EXPECTED.items() if got[name] != value]
    for name in wrong:
        print(f"lsp: {name} is {got[name]} in the place of {EXPECTED[name]}")
    print(f"lsp: {len(EXPECTED)} answers in Neovim, {len(wrong)} faults")
    return 1 if wrong else 0


if __name__ == "__main__":
    sys.exit(main())
