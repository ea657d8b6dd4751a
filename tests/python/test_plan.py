"""Plans, microcode, cores, explorations, designs and sweeps from Python."""
import json
import math
import tempfile
import tomllib
import unittest
from collections.abc import Callable
from pathlib import Path
from typing import Any

import silc
from silc.hardware.netlist import NoCore
from silc.made_files import NotMade

TOP = Path(__file__).resolve().parent.parent.parent
DATA = Path(__file__).resolve().parent / "data"
EXAMPLES = TOP / "examples"
INCREMENT = "func main(x : fix<8,0>) y : fix<8,0> = begin y = x + 1; end;"
PLAIN = EXAMPLES / "increment" / "plain.toml"
ROUNDED = """func main(x : fix<24,23>) y : fix<{W},{F},round> =
begin
  y = fix<{W},{F},round>(0.3 * x + 0.3 * x@1);
end;
"""


class Plans(unittest.TestCase):
    def test_plan(self) -> None:
        plan = silc.Source(text=INCREMENT).plan(PLAIN)
        self.assertEqual((plan.period, plan.unroll, len(plan.operations)), (16, 1, 4))
        self.assertEqual([(node.cycle, node.unit, node.op) for node in plan.operations],
                         [(0, "inp", "input"), (1, "rom", "const"), (2, "add", "add"), (3, "outp", "output")])
        self.assertEqual(plan.registers, {"add.0": 1, "add.1": 1, "outp.0": 1})
        self.assertEqual([(life.node, life.file, life.written, life.reads) for life in plan.lifetimes],
                         [(0, "add.0", 0, [2]), (1, "add.1", 1, [2]), (2, "outp.0", 2, [3])])
        json.dumps(plan.as_json())

    def test_pictures_are_those_of_the_docs(self) -> None:
        source = silc.Source(EXAMPLES / "biquads" / "biquads.sil")
        plan = source.plan(EXAMPLES / "biquads" / "one_multiplier.toml")
        schedule = (TOP / "docs" / "pictures" / "biquads.schedule").read_text()
        self.assertEqual(plan.text, schedule)
        self.assertTrue(plan._repr_svg_().startswith("<svg"))
        self.assertTrue(plan.lifetimes_svg().startswith("<svg"))

    def test_trees(self) -> None:
        tree = tomllib.loads(PLAIN.read_text())
        self.assertEqual(silc.Source(text=INCREMENT).plan(tree).text, silc.Source(text=INCREMENT).plan(PLAIN).text)


class Frames(unittest.TestCase):
    def setUp(self) -> None:
        self.source = silc.Source(text="func main(x : fix<8,0>) y : fix<8,0> = begin y = x + x@1; end;")
        self.datapath = tomllib.loads(PLAIN.read_text()) | {"hold": 1}

    def test_down(self) -> None:
        microcode = self.source.frame(self.datapath, 2, down=[0])
        assert microcode.origin
        self.assertEqual(list(map(str, microcode.origin.inputs)), ["x.0 : fix<8,0>", "x.1 : fix<8,0>"])
        self.assertEqual([port.name for port in microcode.origin.outputs], ["y"])
        self.assertEqual(microcode.run([(1, 2), (3, 4), (5, 6)]), [1, 5, 9])
        self.assertEqual(microcode.run([(1.0, 2.4)], real=True), [1.0])

    def test_up(self) -> None:
        microcode = self.source.frame(self.datapath, 2, up={0})
        self.assertEqual(microcode.run([4, 9]), [(4, 4), (9, 9)])
        self.assertEqual(microcode.run([4.0], real=True), [(4.0, 4.0)])

    def test_one_sample(self) -> None:
        self.assertEqual(self.source.frame(self.datapath).data, self.source.plan(self.datapath).microcode.data)

    def test_refused(self) -> None:
        for phases, status in ((2, 15), (9, 2)):
            with self.assertRaises(silc.Refused) as caught:
                self.source.frame(self.datapath, phases, down=[1])
            self.assertEqual(caught.exception.status, status)
            self.assertTrue(caught.exception.cure)


class Runs(unittest.TestCase):
    def setUp(self) -> None:
        self.source = silc.Source(text=INCREMENT)
        self.microcode = self.source.plan(PLAIN).microcode

    def test_bytes_and_rows(self) -> None:
        self.assertEqual(len(self.microcode.data), 57)
        self.assertEqual(self.microcode.run([1, 127]), [2, -128])
        self.assertEqual(self.microcode.run([1.0, 126.6], real=True), [2.0, -128.0])
        again = silc.Microcode(self.microcode.data)
        self.assertEqual(again.run([1, 127]), [2, -128])
        self.assertEqual(again.listing(), self.microcode.listing())
        self.assertEqual(again.image.listing(), again.listing())
        json.dumps(again.as_json())
        with self.assertRaises(TypeError):
            again.run([1.0], real=True)

    def test_conflict(self) -> None:
        accumulator = silc.Microcode(file=TOP / "tests" / "machine" / "accumulator.mic")
        self.assertEqual(len(accumulator.run([1, 1, 1])), 3)

    def test_core(self) -> None:
        with tempfile.TemporaryDirectory() as folder:
            names = self.microcode.verilog(folder, name="increment")
            self.assertEqual(names,
                             ["increment.map", "increment.v", "increment_code.hex", "increment_tb.v", "silc_parts.v"])
            self.assertEqual(self.microcode.verilog(folder, name="increment"), names)
            Path(folder, "increment.v").write_text("mine")
            with self.assertRaises(NotMade):
                self.microcode.verilog(folder, name="increment")
            with self.assertRaises(NoCore):
                self.microcode.verilog(folder, name="module")
            self.microcode.write(Path(folder, "mic"))
            self.assertEqual(Path(folder, "mic").read_bytes(), self.microcode.data)

    def test_full_core(self) -> None:
        with tempfile.TemporaryDirectory() as folder:
            self.microcode.verilog(folder, full=(2, 2))
            self.assertIn("in_1", Path(folder, "core.v").read_text())
            with self.assertRaises(NoCore):
                self.microcode.verilog(folder, full=(0, 1))


class Many(unittest.TestCase):
    def test_exploration(self) -> None:
        found = silc.Source(DATA / "eq.sil").explore(DATA / "template.toml", jobs=2)
        self.assertEqual([trade.period for trade in found.trades], [16, 24, 32])
        self.assertTrue(all(trade.fits() for trade in found.front))
        self.assertIn("<svg", found._repr_svg_())
        json.dumps(found.as_json())

    def sweep(self, as_rows: Callable[[list[int]], Any]) -> None:
        rows = [int(8000000 * math.sin(number / 9)) for number in range(300)]
        finest = silc.Source(text=ROUNDED.replace("{W}", "30").replace("{F}", "28"))
        points = silc.sweep(ROUNDED, {"W": range(12, 15), "F": (8, 10, 14)}, as_rows(rows), against=finest, jobs=2)
        self.assertEqual([point.choice for point in points],
                         [{"W": width, "F": places} for width in (12, 13, 14) for places in (8, 10, 14)])
        self.assertEqual([bool(point.refused) for point in points],
                         [False, False, True, False, False, True, False, False, False])
        self.assertEqual(points[2].refused.status, 4)
        self.assertTrue(points[0].ratio < points[1].ratio < 70)
        self.assertEqual(points[0].ratio, points[3].ratio)
        self.assertTrue(math.isnan(points[2].ratio))
        json.dumps([point.as_json() for point in points])

    def test_sweep(self) -> None:
        self.sweep(list)

    def test_sweep_of_an_array(self) -> None:
        from silc.words import numpy
        if not numpy():
            self.skipTest("NumPy is not there (apt-get install python3-numpy)")
        self.sweep(numpy().array)


class Designs(unittest.TestCase):
    def test_levels(self) -> None:
        design = silc.design
        self.assertAlmostEqual(design.peak(1000, db=3, q=0.7, rate=48000).decibels(1000), 3)
        self.assertAlmostEqual(design.low_shelf(200, db=6, rate=48000).decibels(0.001), 6)
        self.assertAlmostEqual(design.high_shelf(5000, db=-6, rate=48000).decibels(23999.99), -6)
        self.assertAlmostEqual(design.lowpass(1000, rate=48000).decibels(1000), 10 * math.log10(0.5))
        self.assertAlmostEqual(design.highpass(1000, rate=48000).decibels(1000), 10 * math.log10(0.5))
        self.assertLess(design.notch(50, q=10, rate=8000).decibels(50), -200)
        with self.assertRaises(ValueError):
            design.peak(24000, db=3, q=1, rate=48000)

    def test_source(self) -> None:
        peak = silc.design.peak(1000, db=3, q=0.7, rate=48000)
        source = peak.source(shape=(24, 23))
        self.assertEqual(str(source.inputs[0].type), "fix<24,23>")
        self.assertAlmostEqual(source.response(4096, rate=48000).at(1000), 3, places=2)
        both = peak.then(silc.design.notch(5000, q=2, rate=48000)).source(shape=(20, 19))
        self.assertLess(both.response(1024, rate=48000).at(5016), -20)

    def test_taps(self) -> None:
        taps = silc.design.taps([0.25, 0.5, 0.25], rate=8000)
        self.assertAlmostEqual(taps.decibels(2000), 20 * math.log10(0.5))
        self.assertIn("const h", taps.text(shape=(16, 15)))


if __name__ == "__main__":
    unittest.main()
