"""Sources from Python: rows as lists and arrays, streams, inner words, and what is refused. Expected rows are worked
out by hand, or stand in the examples."""
import contextlib
import io
import math
import tempfile
import unittest
from collections.abc import Callable, Iterator
from pathlib import Path
from types import ModuleType
from unittest import mock

import silc
from silc import words
from silc.commands import noise, ranges, values

TOP = Path(__file__).resolve().parent.parent.parent
DATA = Path(__file__).resolve().parent / "data"
BIQUADS = TOP / "examples" / "biquads"
INCREMENT = "func main(x : fix<8,0>) y : fix<8,0> = begin y = x + 1; end;"
TWO = """func main(a[2] : fix<8,4>, t : bool) (s : fix<9,4>, u : bool) = begin
  s = fix<9,4>(a[0]) - fix<9,4>(a[1]); u = !t; end;"""


def column(file: Path) -> list[int]:
    return [int(line) for line in file.read_text().split()]


class Rows(unittest.TestCase):
    def test_rows_of_an_example(self) -> None:
        rows = silc.Source(BIQUADS / "biquads.sil").evaluate(column(BIQUADS / "samples.txt"))
        self.assertEqual(rows, column(BIQUADS / "expected.txt"))

    def test_no_rows(self) -> None:
        self.assertEqual(silc.Source(text=INCREMENT).evaluate([]), [])

    def test_wrapped(self) -> None:
        self.assertEqual(silc.Source(text=INCREMENT).evaluate([127, -128]), [-128, -127])

    def test_several_words(self) -> None:
        source = silc.Source(text=TWO)
        self.assertEqual([str(port) for port in source.inputs], ["a[0] : fix<8,4>", "a[1] : fix<8,4>", "t : bool"])
        self.assertEqual(source.inputs[0].raw, (-128, 127))
        self.assertEqual(source.inputs[0].real, (-8.0, 7.9375))
        self.assertEqual(source.evaluate([(16, -16, 1), [0, 127, 0]]), [(32, 0), (-127, 1)])

    def test_values_are_quantised_and_scaled(self) -> None:
        source = silc.Source(text=TWO)
        self.assertEqual(source.evaluate([(0.5, 0.03125, True), (99.0, -99.0, 0)], real=True),
                         [(0.4375, 0.0), (127 / 16 + 8, 1.0)])

    def test_no_whole_number(self) -> None:
        with self.assertRaises(TypeError):
            silc.Source(text=INCREMENT).evaluate([0.5])

    def test_wrong_count_of_words(self) -> None:
        with self.assertRaises(ValueError):
            silc.Source(text=TWO).evaluate([(1, 2)])

    def test_a_long_stream(self) -> None:
        source = silc.Source(text=INCREMENT)
        blocks = ([number % 100] * 5000 for number in range(40))
        got = [block[0] for block in source.stream(blocks)]
        self.assertEqual(got, [number % 100 + 1 for number in range(40)])

    def test_a_stream_asks_for_no_block_ahead(self) -> None:
        asked = []

        def blocks() -> Iterator[list[int]]:
            for number in range(3):
                asked.append(number)
                yield [number]

        stream = silc.Source(text=INCREMENT).stream(blocks())
        self.assertEqual(next(stream), [1])
        self.assertEqual(asked, [0])
        stream.close()

    def test_a_fault_of_the_blocks_comes_through(self) -> None:
        def blocks() -> Iterator[list[int]]:
            yield [1]
            raise KeyError("mine")

        with self.assertRaisesRegex(KeyError, "mine"):
            list(silc.Source(text=INCREMENT).stream(blocks()))


class Lists(unittest.TestCase):
    """What may stand in a list of rows, with NumPy where it is there."""

    def test_words(self) -> None:
        source = silc.Source(text=INCREMENT)
        self.assertEqual(source.evaluate([True, False, -1]), [2, 1, 0])
        self.assertEqual(source.evaluate([(1,), [2]]), [2, 3])
        self.assertEqual(source.evaluate(range(40000, 40000)), [])
        self.assertEqual(source.evaluate([number % 100 for number in range(70000)]),
                         [number % 100 + 1 for number in range(70000)])

    def test_other_things(self) -> None:
        one, three = silc.Source(text=INCREMENT), silc.Source(text=TWO)
        for source, rows, fault in ((one, [1, 2.0], TypeError), (one, ["1"], TypeError), (one, [None], TypeError),
                                    (one, [(1, 2)], ValueError), (three, [(1, 2, 0.5)], TypeError),
                                    (three, [1, 2, 3], ValueError), (three, [(1, 2, 0), (1, 2)], ValueError),
                                    (three, [(1, 2), (3, 4, 5, 6)], ValueError), (one, [1 << 70], silc.Refused)):
            with self.assertRaises(fault, msg=str(rows)):
                source.evaluate(rows)


class ListsAlone(Lists):
    """The same where there is no NumPy."""

    def setUp(self) -> None:
        patch = mock.patch("silc.words.numpy", lambda: None)
        self.addCleanup(patch.stop)
        patch.start()


@unittest.skipUnless(words.numpy(), "NumPy is not there (apt-get install python3-numpy)")
class Arrays(unittest.TestCase):
    def test_arrays(self) -> None:
        numpy = words.numpy()
        source = silc.Source(text=INCREMENT)
        made = source.evaluate(numpy.array([1, 2, 127], dtype=numpy.int8))
        self.assertEqual((made.tolist(), made.dtype, made.shape), ([2, 3, -128], numpy.int64, (3,)))
        self.assertEqual(source.evaluate(numpy.empty((0, 1), dtype=int)).shape, (0,))
        two = silc.Source(text=TWO).evaluate(numpy.array([[16, -16, 1], [0, 127, 0]]))
        self.assertEqual(two.tolist(), [[32, 0], [-127, 1]])

    def test_values(self) -> None:
        numpy = words.numpy()
        made = silc.Source(text=TWO).evaluate(numpy.array([[0.5, 0.03125, 1], [99.0, -99.0, 0]]), real=True)
        self.assertEqual(made.tolist(), [[0.4375, 0.0], [127 / 16 + 8, 1.0]])

    def test_wrong_shapes_and_types(self) -> None:
        numpy = words.numpy()
        with self.assertRaises(ValueError):
            silc.Source(text=TWO).evaluate(numpy.zeros((3, 2), dtype=int))
        with self.assertRaises(TypeError):
            silc.Source(text=INCREMENT).evaluate(numpy.array([0.5]))

    def test_streams_and_inner_words(self) -> None:
        numpy = words.numpy()
        source = silc.Source(text=INCREMENT)
        self.assertEqual([block.tolist() for block in source.stream([numpy.array([1, 2]), numpy.array([3])])],
                         [[2, 3], [4]])
        self.assertEqual(source.values(numpy.array([1, 2]), "y")["y"].tolist(), [2, 3])


class Texts(unittest.TestCase):
    """What goes to the program, which may have leading zeros, and what comes back."""

    def test_words_of_all_widths(self) -> None:
        for width in (1, 2, 4, 5, 8, 13, 14, 16, 17, 27, 28, 32, 40, 53, 54, 64):
            least, greatest = -(1 << width - 1), (1 << width - 1) - 1
            near = list(range(max(least, -1100), greatest)[:2500])
            for some in ([least, greatest, 0], [greatest, 0], [0], [least], near):
                for columns in (1, 2, 3):
                    self.expect([number for number in some for _ in range(columns)], columns)

    def expect(self, numbers: list[int], columns: int) -> None:
        rows = numbers if columns == 1 else list(zip(*[iter(numbers)] * columns))
        expected = "".join(",".join(map(str, numbers[start:start + columns])) + "\n"
                           for start in range(0, len(numbers), columns)).encode()
        self.assertEqual(words.text_of(rows, columns), expected)
        self.assertEqual(words.rows_of(expected, columns, False), rows)
        given = [rows, words.numpy().array(rows, dtype="int64")] if words.numpy() else [rows]
        for one in given:
            text = b"".join(words.pieces_of(one, columns)).decode()
            self.assertEqual([[int(word) for word in line.split(",")] for line in text.splitlines()],
                             [numbers[start:start + columns] for start in range(0, len(numbers), columns)])


class Inner(unittest.TestCase):
    def test_names(self) -> None:
        found = silc.Source(DATA / "eq.sil").values([16384, 0], ["w[*]", "e"])
        self.assertEqual(found,
                         {"w[0]": [32768, 0], "w[1]": [16384, 16384], "w[2]": [8192, 16384], "w[3]": [4096, 12288],
                          "e": [4096, 12288]})

    def test_no_such_name(self) -> None:
        with self.assertRaisesRegex(KeyError, "no element is called z"):
            silc.Source(DATA / "eq.sil").values([0], "z")


class Measures(unittest.TestCase):
    def test_response(self) -> None:
        source = silc.Source(text="func main(x : fix<16,15>) y : fix<16,14,round> = begin y = 0.5 * x; end;")
        response = source.response(16, amplitude=16384)
        self.assertEqual(response.impulse, [0.5] + [0.0] * 15)
        self.assertTrue(all(math.isclose(level, 20 * math.log10(0.5)) for level in response.decibels))
        self.assertIn("<svg", response._repr_svg_())

    def test_ranges(self) -> None:
        found = {each.name: each for each in silc.Source(text=INCREMENT).ranges([126, 127])}
        self.assertEqual((found["y"].least, found["y"].greatest, found["y"].said),
                         (127, 128, "wraps at sample 2, 1 in all"))
        bounds = {each.name: each for each in silc.Source(text=INCREMENT).ranges(seconds=1)}
        self.assertEqual((bounds["y"].least, bounds["y"].greatest), (-128, 128))

    def test_noise(self) -> None:
        source, finer = silc.Source(DATA / "eq.sil"), silc.Source(DATA / "finer.sil")
        rows = [int(20000 * math.sin(number / 7)) for number in range(200)]
        by_source, = source.noise(rows, against=finer)
        by_file, = source.noise(rows, against=DATA / "finer.sil")
        by_rows, = source.noise(rows, against=finer.evaluate([row / 32768 for row in rows], real=True))
        self.assertEqual(by_source.ratio(), by_file.ratio())
        self.assertEqual(by_source.ratio(), by_rows.ratio())
        self.assertTrue(60 < by_source.ratio() < 100)


class Refusals(unittest.TestCase):
    def refused(self, run: Callable[[], object]) -> silc.Refused:
        with self.assertRaises(silc.Refused) as caught:
            run()
        return caught.exception

    def test_source(self) -> None:
        why = self.refused(lambda: silc.Source(text="func main(x : fix<8,0>) y : fix<8,0> =\nbegin y = z; end;\n"))
        self.assertEqual((why.status, why.line, why.column, why.end), (4, 2, 11, 12))
        self.assertEqual(why.text, "nothing here is called `z`")
        self.assertIn("declare it", why.cure)
        self.assertIn("^", why.explanation())
        self.assertEqual(why.said, "line 2: unknown name")
        self.assertEqual(why.as_json()["line"], 2)

    def test_rows(self) -> None:
        why = self.refused(lambda: silc.Source(text=INCREMENT).evaluate([1, 2, 128]))
        self.assertEqual((why.status, why.line, why.file), (11, 3, "rows"))

    def test_rows_of_a_stream(self) -> None:
        stream = silc.Source(text=INCREMENT).stream([[1], [1000]])
        self.assertEqual(next(stream), [2])
        self.assertEqual(self.refused(lambda: next(stream)).status, 11)

    def test_the_row_and_the_byte_in_a_stream(self) -> None:
        stream = silc.Source(text=INCREMENT).stream([[1, -100], [3, -4], [100, 5, 1000]])
        self.assertEqual([next(stream), next(stream)], [[2, -99], [4, -3]])
        self.assertEqual(self.refused(lambda: next(stream)).said, "samples line 7 byte 3")

    def test_rows_of_inner_words(self) -> None:
        self.assertEqual(self.refused(lambda: silc.Source(text=INCREMENT).values([128])).status, 11)

    def test_plan(self) -> None:
        text = (DATA / "processor.toml").read_text().replace("period = 27", "period = 5")
        why = self.refused(lambda: silc.Source(DATA / "eq.sil").plan(text=text))
        self.assertEqual(why.status, 8)
        self.assertIn("period", why.cure)

    def test_microcode(self) -> None:
        why = self.refused(lambda: silc.Microcode(b"none"))
        self.assertEqual((why.status, why.said), (10, "bad magic"))

    def test_no_program(self) -> None:
        with self.assertRaises(silc.NoProgram):
            silc.Source(text=INCREMENT, silc="/nowhere/silc")


HALF = """/* Half of it. */
let W = 8 in 2 .. 24;     /* bits */
func half(x : fix<{W},0>) y : fix<{W},0> =
begin
  y = x >> 1;
end;
"""
LINKED = """use half<W=16> as low;
let N = 3;
func main(x : fix<16,0>) y : fix<16,0> =
begin
  var t : fix<16,0>;
  t = low(x@{N - 2});
  y = t + x; /* wraps */
end;
"""


class Linked(unittest.TestCase):
    """A source with `use` and `let` lines, and the block that it uses, told at the places of their files."""

    def setUp(self) -> None:
        room = tempfile.TemporaryDirectory(prefix="silc-linked-")
        self.addCleanup(room.cleanup)
        self.room = Path(room.name).resolve()
        self.main, self.block = self.room / "main.sil", self.room / "blocks" / "half.sil"
        self.block.parent.mkdir()
        self.block.write_text(HALF)
        self.main.write_text(LINKED)
        (self.room / "samples").write_text("4\n8\n-5\n")

    def source(self) -> silc.Source:
        return silc.Source(self.main, library=[self.block.parent])

    def refused(self) -> silc.Refused:
        with self.assertRaises(silc.Refused) as caught:
            self.source()
        return caught.exception

    def put(self, tool: ModuleType, *more: str) -> tuple[int, str, str]:
        """What a tool prints, and says, of the source."""
        out, said = io.StringIO(), io.StringIO()
        with contextlib.redirect_stdout(out), contextlib.redirect_stderr(said):
            status = tool.main(["--library", str(self.block.parent), str(self.main), str(self.room / "samples"),
                                *more])
        return status, out.getvalue(), said.getvalue()

    def test_rows(self) -> None:
        source = self.source()
        self.assertEqual((str(source.inputs[0]), source.blocks), ("x : fix<16,0>", [str(self.block)]))
        self.assertEqual(source.evaluate([4, 8, -5]), [4, 10, -1])
        self.assertEqual(source.values([4, 8, -5], "y"), {"y": [4, 10, -1]})
        smooth = silc.Source(text="use onepole<W=16, F=15>;\nfunc main(x : fix<16,15>) y : fix<16,15> = begin\n"
                                  "y = onepole(x); end;\n")
        self.assertEqual(smooth.evaluate([0, 0]), [0, 0])

    def test_a_fault_of_its_own(self) -> None:
        self.main.write_text(LINKED.replace("+ x;", "+ x"))
        why = self.refused()
        self.assertEqual((why.status, why.file, why.line), (4, str(self.main), 7))
        self.assertEqual(why.text, "a `;` is missing after `x`")
        self.assertEqual([(edit.file, edit.line, edit.text) for edit in why.edits], [(str(self.main), 7, ";")])

    def test_a_fault_of_a_block(self) -> None:
        self.block.write_text(HALF.replace(">> 1;", ">> 1"))
        why = self.refused()
        self.assertEqual((why.status, why.file, why.line), (4, str(self.block), 5))
        self.assertEqual((why.text, why.cure), ("a `;` is missing after `1`", "write `;` after `1`."))
        self.assertEqual(why.edits, [])
        self.assertIn(f"{self.main}:1", why.explanation())

    def test_a_fault_of_the_linker(self) -> None:
        self.main.write_text(LINKED.replace("half<W=16>", "halve<W=16>"))
        why = self.refused()
        self.assertEqual((why.status, why.file, why.line), (4, str(self.main), 1))
        self.assertIn("there is no block halve", why.text)

    def test_a_plan(self) -> None:
        text = (DATA / "processor.toml").read_text().replace("period = 27", "period = 2")
        with self.assertRaises(silc.Refused) as caught:
            self.source().plan(text=text)
        self.assertIn(caught.exception.status, (6, 7, 8, 9))
        self.assertNotIn("silc-link-", caught.exception.explanation())

    def test_tools(self) -> None:
        self.assertEqual(self.put(values, "y"), (0, "y\n4\n10\n-1\n", ""))
        status, table, _ = self.put(ranges)
        self.assertEqual((status, table.splitlines()[0].split()[0]), (0, "element"))
        self.assertIn("-5 .. 8", table)
        self.assertEqual(self.put(noise, "--against", str(self.main))[:2][0], 0)

    def test_faults_in_tools(self) -> None:
        self.main.write_text(LINKED.replace("+ x;", "+ zz;"))
        place = f"{self.main}:7:11: nothing here is called `zz`"
        self.assertEqual(self.put(values, "y"), (4, "", f"values: {place} (line 7: unknown name)\n"))
        self.assertEqual(self.put(ranges), (1, "", f"ranges: {place}\n"))
        self.assertEqual(self.put(noise, "--against", str(self.main)), (1, "", f"noise: {place}\n"))


if __name__ == "__main__":
    unittest.main()
