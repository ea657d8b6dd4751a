"""What is known of FPGAs and of cores on them: pins, capacities, and the longest path in the words of a datapath."""
import tomllib
import unittest
from pathlib import Path

from silc.hardware.core_files import files_of
from silc.hardware.datapath import numbered
from silc.hardware.fpga import PARTS
from silc.hardware.netlist import core_for_image
from silc.hardware.paths import Unit, net_names, path_names, path_of, remedies
from silc.hardware.pins import pins_of, ports_of, wrapped
from silc.hardware.routing import misfit_in
from silc.micro_file import image_of
from silc.pictures.plan import plan_of
from silc.pictures.waits import waits_of

MICROCODE = Path(__file__).resolve().parent.parent / "increment" / "add-8-1.mic"
# The plan of docs/PLANNING.md, with an addition that is begun late.
PLAN = """\
period 16 unroll 1 nodes 4
node 0 cycle 0 unit inp op input 0 to add.0 bus b0 regs 0
node 1 cycle 1 unit rom op const 1 to add.1 bus b0 regs 0
node 2 cycle 9 unit add op add 0 1 fmt 0 trunc 8 to outp.0 bus b0 regs 0
node 3 cycle 10 unit outp op output 0 2
"""
# What nextpnr 0.4 says of a design before it places it.
PACKED = """\
Info: Device utilisation:
Info: \t         ICESTORM_LC:  5300/ 5280   100%
Info: \t        ICESTORM_RAM:    30/   30   100%
Info: \t               SB_IO:    40/   96    41%
Info: \t        ICESTORM_DSP:     9/    8   112%

ERROR: Unable to place cell 'x', no Bels remaining of type 'ICESTORM_DSP'
"""
SAID = """\
Info: Critical path report for clock 'clk$SB_IO_IN_$glb_clk' (posedge -> posedge):
Info: curr total
Info:  1.2  1.2  Source core.program_rows.words.0.1_RAM.RDATA_4
Info:  1.8  2.9    Net core.cu_sum_code budget 9.996000 ns (6,3) -> (7,4)
Info:                Sink core.add_sum.right_SB_LUT4_O_29_LC.I2
Info:  1.2  4.1  Source core.add_sum.right_SB_LUT4_O_29_LC.O
Info:  1.8  5.9    Net core.quantise_sum.floored[0] budget 9.995000 ns (7,4) -> (7,5)
Info:  0.6  6.5  Source core.quantise_sum.floored_SB_LUT4_O_14_LC.COUT
Info:  1.8  8.9    Net core.b_data[3] budget 9.995000 ns (7,4) -> (7,5)
Info:                Sink core.multiply_times_two.exact_DSP.A_3
Info:  5.1 14.0  Source core.multiply_times_two.exact_DSP.O_3
Info:  0.4 14.4  Setup core.file_mul_0.words[0]_SB_DFFE_Q_DFFLC.I0

Info: Critical path report for cross-domain path '<async>' -> 'posedge clk':
"""


class Fpga(unittest.TestCase):
    def setUp(self) -> None:
        image = image_of(MICROCODE.read_bytes())
        image, core = core_for_image(image, "core", numbered(image))
        self.verilog = files_of(image, core)["core.v"]

    def test_ports_are_those_of_the_module(self) -> None:
        ports = ports_of(self.verilog)
        self.assertEqual([port.name for port in ports], ["clk", "rst", "in_valid", "in_ready", "in_0", "out_valid",
                                                         "out_ready", "out_0", "active", "fault"])
        self.assertEqual(pins_of(ports), 8 + 2 * 8)

    def test_rows_go_through_shift_registers(self) -> None:
        text = wrapped("core", ports_of(self.verilog))
        self.assertEqual(pins_of(ports_of(text)), 8 + 3)
        self.assertIn("{row_in[6:0], bit_in}", text)

    def test_what_is_above_a_part_is_told(self) -> None:
        self.assertEqual(PARTS["up5k"].over({"logic cells": 5281, "block memories": 30}),
                         ["5281 logic cells, and an up5k has 5280"])
        self.assertEqual(PARTS["hx8k"].over({"multipliers": 1}), ["1 multipliers, and an hx8k has 0"])

    def test_what_nextpnr_packs_is_told(self) -> None:
        self.assertEqual(misfit_in(PACKED, PARTS["up5k"]), "it does not fit: placed, it takes 5300 logic cells, and an "
                         "up5k has 5280; 9 multipliers, and an up5k has 8")
        self.assertIsNone(misfit_in(PACKED.replace("5300/", "5280/").replace("9/", "8/"), PARTS["up5k"]))

    def test_the_longest_path_is_told_in_words_of_the_datapath(self) -> None:
        units = [Unit("sum", "alu", 1), Unit("times", "mul", 2), Unit("times_two", "mul", 2), Unit("mul", "mul", 3)]
        path = path_of(path_names(SAID), units)
        self.assertEqual(str(path),
                         "the microword, sum of sum, format of sum, bus data, product of times_two, file mul.0")
        self.assertEqual(list(remedies(path)), [
            "latency 2 of sum puts a register behind it",
            "latency 3 of times_two puts a register before its multiplier",
            "bus data with fewer units that drive it, its units split over two, has a smaller choice in the path"])

    def test_icetime_tells_the_nets(self) -> None:
        said = ("Resolvable net names on path:\n     1.491 ns ..  3.252 ns core.exact_mul[26]\n"
                "                  lcout -> core.f_a[2]\n")
        self.assertEqual(net_names(said), ["core.exact_mul[26]"])

    def test_words_that_wait_are_told_with_their_cycles(self) -> None:
        datapath = tomllib.loads((MICROCODE.parent.parent / "datapath" / "plain.toml").read_text())
        waits = {wait.file: (wait.there, wait.read, wait.cycles()) for wait in waits_of(plan_of(PLAN, datapath))}
        self.assertEqual(waits, {"add.0": (1, 9, 8), "add.1": (2, 9, 7), "outp.0": (10, 10, 0)})


if __name__ == "__main__":
    unittest.main()
