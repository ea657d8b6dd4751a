#!/usr/bin/env python3
"""Whether the extension for VS Code hands on what the language server says: Node.js runs it with a stub of the editor.

usage: tests/check_vscode.py

It runs the built `silc`, or the one that `SILC` names. Without Node.js it is skipped, and ends with 77.
"""
import json
import shutil
import subprocess
import sys
import tempfile
from pathlib import Path

HERE = Path(__file__).resolve().parent
ROOT = HERE.parent
EXTENSION = ROOT / "editor" / "vscode"
DATAPATH = ROOT / "examples" / "lowpass16" / "one_multiplier.toml"
SECONDS, SKIPPED = 120, 77
SOURCE = """func same(x : fix<8,0>) y : fix<8,0> = begin y = x; end;
func main(x : fix<8,0>) y : fix<8,0> =
begin
  var t, s : fix<8,0>;
  s = same(x);
  t = x + x;
  y = t + s;
end;
"""
LAID_OUT = SOURCE.replace("= begin y = x; end;", "=\nbegin\n  y = x;\nend;")


def place(line: int, start: int, end: int) -> dict:
    return {"start": {"line": line, "character": start}, "end": {"line": line, "character": end}}


def mark(place_: dict, message: str, severity: int) -> dict:
    return {"range": place_, "message": message, "severity": severity, "source": "silc"}


# The editor counts severities from 0: a fault, a warning, information, a hint.
DOUBT = mark(place(6, 6, 11),
             "`t + s` reaches -384 with inputs at the ends of their ranges, and `fix<8,0>` wraps below -128",
             1)
MEANT = {"range": place(6, 12, 12), "newText": " /* wraps */"}
EXPECTED = {
    # An input, two sums and an output.
    "opened": [DOUBT, mark(place(1, 5, 9), "over plain.toml: a period of 22 cycles, 4 nodes", 3)],
    "hover": {"contents": {"value": "```silc\nt : fix<8,0> (local of main, 1 element)\n```"}, "range": place(5, 2, 3)},
    "nothing": None,
    "definition": {"uri": "some.sil", "range": place(3, 6, 7)},
    "references": [{"uri": "some.sil", "range": place(5, 2, 3)}, {"uri": "some.sil", "range": place(6, 6, 7)}],
    "symbols": [("same", 11, ["x", "y"]), ("main", 11, ["x", "y", "t", "s"])],
    "completion": [("x", 5), ("y", 5)],
    "signature": {"signatures": [{"label": "func same(x : fix<8,0>) y : fix<8,0>",
                                  "parameters": [{"label": "x : fix<8,0>"}]}],
                  "activeSignature": 0, "activeParameter": 0},
    "layout": [{"range": {"start": {"line": 0, "character": 0}, "end": {"line": 8, "character": 0}},
                "newText": LAID_OUT}],
    "actions": [{"title": "write `/* wraps */` behind it where that is meant; or give it a type with more bits before "
                          "the "
                          "point, or one that saturates", "kind": "quickfix", "edit": {"edits": {"some.sil": [MEANT]}},
                 "diagnostics": [DOUBT], "isPreferred": False}],
    "changed": [mark(place(6, 6, 7), "nothing here is called `u`", 0)],
    "said": ["silc: the source has a fault of its grammar, and its layout stays as it is",
             "silc: the language server /nowhere/silc-lsp does not run: spawn /nowhere/silc-lsp ENOENT",
             "spawn /nowhere/silc-lsp ENOENT"],
}


def answered(room: Path) -> dict:
    """What the extension hands to the editor, where the extension is linked as its users link it."""
    (room / "some.sil").write_text(SOURCE)
    shutil.copy(DATAPATH, room / "plain.toml")
    (room / "extension").symlink_to(EXTENSION)
    words = ["node", HERE / "check_vscode.js", room / "extension", room / "some.sil"]
    done = subprocess.run(words, cwd=room, stdin=subprocess.DEVNULL, capture_output=True, text=True, timeout=SECONDS)
    if done.returncode or not done.stdout:
        sys.exit(f"vscode: the session did not end well: {done.stderr.strip()[-600:]}")
    got = json.loads(done.stdout)
    got["symbols"] = [(one["name"], one["kind"], [inner["name"] for inner in one["children"]])
                      for one in got["symbols"]]
    got["completion"] = [(one["label"], one["kind"]) for one in got["completion"]]
    return got


def main() -> int:
    if not shutil.which("node"):
        print("vscode: Node.js is not there (apt-get install nodejs): 1 session skipped")
        return SKIPPED
    with tempfile.TemporaryDirectory(prefix="silc-vscode-test-") as folder:
        got = answered(Path(folder).resolve())
    wrong = [name for name, value in EXPECTED.items() if got.get(name) != value]
    for name in wrong:
        print(f"vscode: {name} is {got.get(name)} in the place of {EXPECTED[name]}")
    print(f"vscode: {len(EXPECTED)} answers, {len(wrong)} faults")
    return 1 if wrong else 0


if __name__ == "__main__":
    sys.exit(main())
