#!/usr/bin/env python3
"""Whether the grammars in editor/ have the words and symbols of the language, and give each part of the examples a
colour, and whether the problem matcher takes the lines of tools/check apart, as the cases in tests/check have them.

usage: tests/check_editor.py
"""
import json
import re
import sys
import tomllib
from collections.abc import Iterator
from pathlib import Path
from typing import Any, TypeAlias

# Scopes with what they match.
Patterns: TypeAlias = list[tuple[str, re.Pattern[str]]]

ROOT = Path(__file__).resolve().parent.parent
TEXTS = ROOT / "crates" / "silage_lex" / "specs" / "Texts.antt"
VSCODE = ROOT / "editor" / "vscode"
GRAMMAR = VSCODE / "syntaxes" / "silc.tmLanguage.json"
CHECK_CASES = ROOT / "tests" / "check" / "cases.toml"
# Sources, those that are to be linked, and blocks.
SOURCES = ("examples/*/*.sil", "examples/*/*.blocks", "library/*.sil")
VIM = ROOT / "editor" / "vim" / "syntax" / "silc.vim"


def texts(name: str) -> list[str]:
    """A list of texts by its definition."""
    body = re.search(rf"\n{name} =\n(.*?)∷ \[\]", TEXTS.read_text(), re.S)[1]
    return re.findall(r'codes "([^"]+)"', body)


def rules(grammar: dict[str, Any]) -> Patterns:
    """The patterns of a grammar in their order, as scopes with what they match."""
    waiting, made = list(grammar["patterns"]), []
    while waiting:
        rule = waiting.pop(0)
        if "include" in rule:
            waiting.insert(0, grammar["repository"][rule["include"][1:]])
        elif "patterns" in rule:
            waiting[:0] = rule["patterns"]
        elif "begin" in rule:
            made.append((rule["name"], re.compile(f"{rule['begin']}.*?{rule['end']}", re.S)))
        else:
            made.append((rule.get("name", "captures"), re.compile(rule["match"])))
    return made


def coloured(text: str, patterns: Patterns) -> list[tuple[str, str]]:
    """What the grammar makes of a text: scopes and parts, with an empty scope for a part that no pattern matches."""
    place, made = 0, []
    while place < len(text):
        found = [(match.start(), number, match) for number, (_, pattern) in enumerate(patterns)
                 if (match := pattern.search(text, place))]
        start, number, match = min(found, default=(len(text), 0, None))
        if text[place:start].strip():
            made.append(("", text[place:start].strip()))
        if match:
            made.append((patterns[number][0], match[0]))
        place = match.end() if match else len(text)
    return made


def vim_words() -> set[str]:
    lines = re.findall(r"^syntax keyword (?!silcTodo)\S+ (.*)$", VIM.read_text(), re.M)
    return {word for line in lines for word in line.split()}


def matcher_faults() -> Iterator[str]:
    """The lines of tools/check that the matcher, which the task names, takes apart otherwise."""
    (matcher,) = json.loads((VSCODE / "package.json").read_text())["contributes"]["problemMatchers"]
    (task,) = json.loads((VSCODE / "tasks.json").read_text())["tasks"]
    if task["problemMatcher"] != f"${matcher['name']}":
        yield f"the task has another problem matcher than {matcher['name']}"
    pattern = matcher["pattern"]
    places = [pattern[part] for part in ("file", "line", "column", "endColumn", "severity", "message")]
    rows = [row for case in tomllib.loads(CHECK_CASES.read_text())["case"] for row in case.get("rows", [])]
    said = [(None, row["fault"]) for row in rows if "fault" in row]
    said += [("warning", f"{row['place']}: {row['warning']}") for row in rows if "warning" in row]
    for severity, text in said:
        line, column, end, message = re.fullmatch(r"(\d+):(\d+)-(\d+): (.*)", text).groups()
        text = f"{line}:{column}-{end}: {'warning: ' if severity else ''}{message}"
        for file in ("SRC", "/a folder/one:two.sil"):
            found = re.search(pattern["regexp"], f"{file}:{text}")
            if not found or [found[place] for place in places] != [file, line, column, end, severity, message]:
                yield f"the problem matcher does not take {file}:{text} apart"


def main() -> int:
    words, symbols = texts("reserved_words"), texts("symbols")
    patterns = rules(json.loads(GRAMMAR.read_text()))
    faults = []
    for word in words:
        if [scope for scope, _ in coloured(word, patterns)] == ["variable.other.silc"]:
            faults.append(f"{word} is a name in the grammar")
    for symbol in symbols:
        if [part for scope, part in coloured(symbol, patterns) if scope] != [symbol]:
            faults.append(f"{symbol} is no symbol in the grammar")
    if vim_words() != set(words):
        faults.append(f"Vim's words differ: {sorted(vim_words() ^ set(words))}")
    for source in sorted(source for pattern in SOURCES for source in ROOT.glob(pattern)):
        for scope, part in coloured(source.read_text(), patterns):
            if scope in ("", "invalid.illegal.silc"):
                faults.append(f"{source.name}: {part!r} has no colour")
    faults += matcher_faults()
    for fault in faults:
        print(fault)
    return 1 if faults else 0


if __name__ == "__main__":
    sys.exit(main())
