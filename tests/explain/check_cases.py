#!/usr/bin/env python3
"""Whether tools/explain says of each mistake in tests/explain/cases what is written there, and whether the cure helps.

usage: tests/explain/check_cases.py [NAME ..]             the cases with these words in their names, or all
       tests/explain/check_cases.py --write [NAME ..]     writes what is said now into them, to be read and judged

A case is a folder with the files of a command, `case.toml` and `stderr.txt`, the whole text that is expected. In
`case.toml` are `words`, the `code` with which the command ends, and `cure`: edits of files, each with `file`, `old` and
`new`, a command to `run`, or other `words`. After the cure the command is done, or it ends with the line `then`. Where
the tool tells the cure as edits, these are applied too, to the files as they were: the command is then done, or meets
another fault. Further keys: `options` of the tool; `large`, files that are filled up with a text to a size; `links` and
`folders`; `closed`, names that no one has a right to, and `kept`, folders in which no one may make files; `before`,
commands of silc that run first; `without_show`, where it is tried as if `silc_show` were not built; `example`, at the
case of a refusal that docs/ERRORS.md shows whole. ROOM in the text stands for the folder in which the command runs, and
a name in the words with `\\x` in it for one with such bytes.

Without a name it compares docs/ERRORS.md too. It runs the built `silc`, `silc_show` and `silc_place`, or those that
`SILC`, `SILC_SHOW` and `SILC_PLACE` name. The cases of `place` are left out where `silc_place` is not built.
"""
import json
import os
import re
import shutil
import subprocess
import sys
import tempfile
import tomllib
from collections.abc import Iterator, Sequence
from concurrent.futures import ThreadPoolExecutor
from pathlib import Path
from typing import Any, TypeAlias

from silc import programs
from silc.explaining.outputs import OF_PLACE
from silc.explaining.refusals import SAID_BY
from silc.made_files import put_whole

# A case as its file has it.
Said: TypeAlias = dict[str, Any]

HERE = Path(__file__).resolve().parent
ROOT = HERE.parent.parent
CASES = HERE / "cases"
PAGE = ROOT / "docs" / "ERRORS.md"
SILC = Path(programs.SILC.place())
SHOW = Path(programs.SHOW.place())
PLACE = Path(programs.PLACE.place())
EXPLAIN = ROOT / "tools" / "explain"
SAID, EXPECTED = "case.toml", "stderr.txt"
KEYS = {"words", "code", "cure", "then", "options", "large", "links", "folders", "closed", "kept", "before",
        "without_show", "example"}
EDIT = re.compile(r'edit: (.*):(\d+):(\d+)-(\d+): (".*")')
SECONDS = 600
NOWHERE = Path("/nowhere/silc_show")
# What takes from root the right to read and write what the mode of a file forbids.
WITHOUT_RIGHTS = ["setpriv", "--bounding-set=-dac_override,-dac_read_search"]


class BadCase(Exception):
    """A case that can't be run."""


class Skipped(Exception):
    """Why a case is left out on this machine."""


def prepare(case: Path, said: Said, room: Path) -> None:
    """Makes the files of a case."""
    for file in case.iterdir():
        if file.name not in (SAID, EXPECTED):
            shutil.copy2(file, room / file.name)
    for name, large in said.get("large", {}).items():
        data = (room / name).read_bytes() if (room / name).exists() else b""
        text = large["text"].encode()
        (room / name).write_bytes((data + text * (large["size"] // len(text) + 1))[:large["size"]])
    for name in said.get("folders", []):
        (room / name).mkdir()
    for name, to in said.get("links", {}).items():
        (room / os.fsdecode(named(name))).symlink_to(to)
    for words in said.get("before", []):
        subprocess.run([SILC, *words], cwd=room, check=True, timeout=SECONDS)
    for name in said.get("closed", []):
        (room / name).chmod(0)
    for name in said.get("kept", []):
        (room / name).chmod(0o555)


def named(word: str) -> bytes:
    """A word of a case as bytes."""
    return re.sub(rb"\\x([0-9a-f]{2})", lambda byte: bytes.fromhex(byte[1].decode()), word.encode())


def ran(program: Path, words: Sequence[str], room: Path, lead: Sequence[str] = (),
        show: Path = SHOW) -> subprocess.CompletedProcess[str]:
    return subprocess.run([*lead, program, *map(named, words)], cwd=room, stdin=subprocess.DEVNULL, capture_output=True,
                          text=True,
                          timeout=SECONDS,
                          env=os.environ | {"SILC": str(SILC), "SILC_SHOW": str(show), "SILC_PLACE": str(PLACE),
                                            "LANG": "C.UTF-8"})


def told_by_program(words: Sequence[str], room: Path, lead: Sequence[str] = ()) -> subprocess.CompletedProcess[str]:
    """What the program of a command says."""
    return ran(PLACE, words[1:], room, lead) if words[:1] == [OF_PLACE] else ran(SILC, words, room, lead)


def lead_of(said: Said) -> list[str]:
    """The command before the program by which root has no more rights than others."""
    if not (said.get("closed") or said.get("kept")) or os.geteuid() != 0:
        return []
    if not shutil.which(WITHOUT_RIGHTS[0]):
        raise Skipped("it needs setpriv (apt-get install util-linux) where root runs it")
    return WITHOUT_RIGHTS


def cured(said: Said, room: Path) -> list[str]:
    """Applies the cure. Gives the words of the command after it."""
    words = said["words"]
    for cure in said["cure"]:
        if "words" in cure:
            words = cure["words"]
        elif "run" in cure:
            subprocess.run(["bash", "-c", cure["run"]], cwd=room, check=True, timeout=SECONDS)
        elif "open" in cure:
            (room / cure["open"]).chmod(0o755)
        elif "resize" in cure:
            os.truncate(room / cure["resize"], cure["to"])
        elif "make" in cure:
            (room / cure["make"]).mkdir(parents=True)
        elif "at" in cure:
            data = bytearray((room / cure["file"]).read_bytes())
            data[cure["at"]:cure["at"] + cure["remove"]] = bytes.fromhex(cure["put"])
            (room / cure["file"]).write_bytes(data)
        else:
            text = (room / cure["file"]).read_text()
            if text.count(cure["old"]) != 1:
                raise BadCase(f"{cure['old']!r} stands {text.count(cure['old'])} times in {cure['file']}, and not once")
            (room / cure["file"]).write_text(text.replace(cure["old"], cure["new"]))
    return words


def judged(case: Path, writes: bool) -> list[str]:
    """What is wrong with a case."""
    said = tomllib.loads((case / SAID).read_text())
    unknown = said.keys() - KEYS
    if unknown or not {"words", "code", "cure"} <= said.keys():
        raise BadCase(f"unknown keys {sorted(unknown)}, or words, code or cure are missing")
    if said["words"][0] == OF_PLACE and not os.access(PLACE, os.X_OK):
        raise Skipped("it needs silc_place, which `tools/build silc_place` builds")
    with tempfile.TemporaryDirectory(prefix="silc-explain-") as folder:
        room = Path(folder)
        prepare(case, said, room)
        lead = lead_of(said)
        done = ran(EXPLAIN, ["--edits", *said.get("options", []), *said["words"]], room, lead,
                   NOWHERE if said.get("without_show") else SHOW)
        told = [line for line in done.stderr.splitlines(True) if not EDIT.match(line)]
        edits = [EDIT.match(line) for line in done.stderr.splitlines() if EDIT.match(line)]
        done.stderr = "".join(told).replace(os.path.realpath(room), "ROOM")
        if writes:
            put_whole(case / EXPECTED, done.stderr)
        faults = [*compared(case, said, done), *cure_compared(said, room, lead)]
        for name in said.get("kept", []):
            (room / name).chmod(0o755)
    return faults + (edits_compared(case, said, edits, told) if edits else [])


def edits_compared(case: Path, said: Said, edits: Sequence[re.Match[str]], told: Sequence[str]) -> list[str]:
    """Where the edits that are told lead to the fault that was there before."""
    with tempfile.TemporaryDirectory(prefix="silc-explain-") as folder:
        room = Path(folder)
        prepare(case, said, room)
        for name in {edit[1] for edit in edits}:
            (room / name).write_bytes(edited((room / name).read_bytes().decode(),
                                             [edit for edit in edits if edit[1] == name]).encode())
        done = told_by_program(said["words"], room)
    first = next(line for line in told if line.startswith(SAID_BY)).strip()
    if done.returncode and done.stderr.strip() in (first, ""):
        return [f"after the edits {[edit[0] for edit in edits]}: {done.stderr.strip() or done.returncode}"]
    return []


def edited(text: str, edits: Sequence[re.Match[str]]) -> str:
    """A text with the edits of the tool's lines."""
    starts = [0, *(found.end() for found in re.finditer("\n", text))]
    for edit in sorted(edits, key=lambda edit: (int(edit[2]), int(edit[3])), reverse=True):
        place = starts[int(edit[2]) - 1] + int(edit[3]) - 1
        text = text[:place] + json.loads(edit[5]) + text[place + int(edit[4]) - int(edit[3]):]
    return text


def compared(case: Path, said: Said, done: subprocess.CompletedProcess[str]) -> list[str]:
    faults = [] if done.returncode == said["code"] else [f"exit code: expected {said['code']}, got {done.returncode}"]
    expected = (case / EXPECTED).read_text()
    # Where a line with the folder's name is folded depends on the name.
    is_same = done.stderr.split() == expected.split() if "ROOM" in expected else done.stderr == expected
    if not is_same:
        faults.append(f"it says\n{done.stderr}in the place of\n{expected}")
    return faults


def cure_compared(said: Said, room: Path, lead: Sequence[str]) -> list[str]:
    """How the command ends after the cure, where that is not what the case says."""
    words = cured(said, room)
    done = told_by_program(words, room, lead)
    expected = said.get("then", "")
    if done.stderr.strip() != expected or (done.returncode == 0) != (not expected):
        return [f"after the cure: expected {expected or 'done'}, got {done.stderr.strip() or done.returncode}"]
    return []


def outcome(case: Path, writes: bool) -> tuple[Path, list[str], str | None]:
    try:
        return case, judged(case, writes), None
    except Skipped as why:
        return case, [], str(why)
    except (BadCase, OSError, ValueError, subprocess.SubprocessError) as fault:
        return case, [f"it can't be run: {fault}"], None


def lost_rules() -> Iterator[str]:
    """The rules that are told and name a section that no page has."""
    said = {line.removeprefix("rule: ") for case in CASES.iterdir()
            for line in (case / EXPECTED).read_text().splitlines()
            if line.startswith("rule: ")}
    said |= set(re.findall(r"The rule: (.*)\.\n", PAGE.read_text()))
    for rule in sorted(said):
        page, _, section = rule.partition(", ")
        heads = {line.lstrip("#").strip() for line in (ROOT / page).read_text().splitlines() if line.startswith("#")}
        if section.strip('"') not in heads:
            yield f"no section of the repository is {rule}"


def main(words: list[str]) -> int:
    writes = words[:1] == ["--write"]
    names = words[1:] if writes else words
    cases = [case for case in sorted(CASES.iterdir()) if not names or any(name in case.name for name in names)]
    for program in (SILC, SHOW):
        if not os.access(program, os.X_OK):
            print(f"explain: there is no program {program}; `tools/build silc_main silc_show` builds it")
            return 1
    failed = skipped = 0
    with ThreadPoolExecutor(2) as pool:
        for case, faults, why in pool.map(lambda case: outcome(case, writes), cases):
            failed, skipped = failed + bool(faults), skipped + (why is not None)
            if why:
                print(f"{case.name}: left out: {why}")
            if faults:
                print("\n".join([f"{case.name}:", *faults]), flush=True)
    print(
        f"explain: {len(cases) - failed - skipped} of {len(cases)} cases as expected, {failed} failed, {skipped} left "
        f"out")
    if not names and subprocess.run([EXPLAIN, "--page"], capture_output=True, text=True,
                                    check=True).stdout != PAGE.read_text():
        failed += 1
        print(
            "docs/ERRORS.md is not what `tools/explain --page` prints; write it anew: tools/explain --page > "
            "docs/ERRORS.md")
    for fault in lost_rules() if not names else ():
        failed += 1
        print(fault)
    return 1 if failed or not cases else 0


if __name__ == "__main__":
    sys.exit(main(sys.argv[1:]))
