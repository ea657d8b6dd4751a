"""The blocks of docs/PYTHON.md, run as they stand, with what they print there."""
import contextlib
import io
import os
import re
import shutil
import tempfile
import unittest
from pathlib import Path
from typing import Any

HERE = Path(__file__).resolve().parent
PAGE = HERE.parent.parent / "docs" / "PYTHON.md"
# The inner words of the page's filter, by hand: means of two, and then e = w[3] - e@2 / 4, of which all are whole.
WORDS = {"w[1]": [16384, 0, -8192, 8192, 0, 0], "w[2]": [8192, 8192, -4096, 0, 4096, 0],
         "w[3]": [4096, 8192, 2048, -2048, 2048, 2048], "e": [4096, 8192, 1024, -4096, 1792, 3072]}
BLOCK = re.compile(r"^```python\n(.*?)^```\n(?:\n```\n(.*?)^```\n)?", re.M | re.S)


class Page(unittest.TestCase):
    def setUp(self) -> None:
        self.room = tempfile.TemporaryDirectory(prefix="silc-page-")
        self.before = os.getcwd()
        for file in (HERE / "data").iterdir():
            shutil.copy(file, self.room.name)
        os.chdir(self.room.name)

    def tearDown(self) -> None:
        os.chdir(self.before)
        self.room.cleanup()

    def test_blocks(self) -> None:
        blocks = BLOCK.findall(PAGE.read_text())
        self.assertGreaterEqual(len(blocks), 2)
        names: dict[str, Any] = {"x": [16384, -16384, 8192, 0, 0, 0], "blocks": [[100, 200], [300]]}
        for code, printed in blocks:
            out = io.StringIO()
            with contextlib.redirect_stdout(out):
                exec(compile(code, PAGE.name, "exec"), names)
            if printed:
                self.assertEqual(out.getvalue(), printed)
        self.assertEqual(sorted(file.name for file in Path("core").iterdir()),
                         ["core.map", "core.v", "core_code.hex", "core_tb.v", "silc_parts.v"])
        self.assertEqual(names["inner"], {**WORDS, "w[0]": [2 * word for word in names["x"]]})
        self.assertEqual(names["y"], [word // 4 for word in WORDS["e"]])
        self.assertEqual(names["mic"].run(names["x"]), names["y"])
        self.assertEqual(names["plan"].period, 27)


if __name__ == "__main__":
    unittest.main()
