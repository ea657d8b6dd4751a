"""What the tools print with --json, against the keys of docs/PYTHON.md and the answers of the package."""
import json
import subprocess
import tempfile
import unittest
from pathlib import Path

import silc

TOP = Path(__file__).resolve().parent.parent.parent
DATA = Path(__file__).resolve().parent / "data"
PAGE = (TOP / "docs" / "PYTHON.md").read_text()


def keys_of(what: str) -> set[str]:
    """The words in backquotes that the page has for a tree, but for those of its parts."""
    line, = (line for line in PAGE.splitlines() if line.startswith(f"- **{what}**"))
    return {word for place, word in enumerate(line.split("`")) if place % 2}


class Printed(unittest.TestCase):
    def setUp(self) -> None:
        self.room = tempfile.TemporaryDirectory(prefix="silc-json-")
        self.samples = Path(self.room.name, "samples")
        self.samples.write_text("16384\n-16384\n")

    def tearDown(self) -> None:
        self.room.cleanup()

    def printed(self, *words: object, status: int = 0) -> object:
        done = subprocess.run([TOP / "tools" / str(words[0]), *words[1:]], capture_output=True, text=True,
                              cwd=self.room.name)
        self.assertEqual(done.returncode, status, done.stderr)
        return json.loads(done.stdout)

    def test_plan(self) -> None:
        made = self.printed("explain", "--json", "schedule", DATA / "eq.sil", DATA / "processor.toml")
        self.assertEqual(made,
                         json.loads(json.dumps(silc.Source(DATA / "eq.sil").plan(DATA / "processor.toml").as_json())))
        self.assertLessEqual({*made, *made["operations"][0]}, keys_of("a plan"))

    def test_image(self) -> None:
        made = self.printed("explain", "--json", "list", TOP / "tests" / "machine" / "accumulator.mic")
        self.assertLessEqual({*made, *made["units"][0], *made["words"][0]}, keys_of("an image"))

    def test_refusal(self) -> None:
        made = self.printed("explain", "--json", "eval", DATA / "processor.toml", self.samples, "out", status=4)
        self.assertEqual(set(made), keys_of("a refusal") - {"length"})
        self.assertEqual((made["status"], made["said"]), (4, "line 1: bad byte"))

    def test_values(self) -> None:
        self.assertEqual(self.printed("values", "--json", DATA / "eq.sil", self.samples, "w[0]"),
                         {"w[0]": [32768, -32768]})

    def test_ranges(self) -> None:
        made = self.printed("ranges", "--json", DATA / "eq.sil", self.samples)
        self.assertEqual(set(made[0]), keys_of("a range"))

    def test_explored(self) -> None:
        made = self.printed("explore", "--json", "--pool", "--out", "made", DATA / "eq.sil", DATA / "template.toml")
        self.assertEqual({key for trade in made["trades"] for key in trade} | {"fits"}, keys_of("a trade"))


if __name__ == "__main__":
    unittest.main()
