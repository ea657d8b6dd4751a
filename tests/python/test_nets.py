"""Nets of processors from Python: the faults of a net file, what its wires bring, and the rows of the examples."""
import tempfile
import unittest
from pathlib import Path

from silc.designing.shapes import Shape
from silc.nets import Net, NetFault, NetFile, Ports, Row, Wire, check_names, net_file_of, row_types, solution
from silc.words import Port, Type

EXAMPLES = Path(__file__).resolve().parent.parent.parent / "examples"
PROC = '[[proc]]\nsrc = "a.sil"\ndp = "a.toml"\nfeed = ["in.0"]\n'
CHAIN = "inputs = 1\n" + PROC + PROC.replace("in.0", "0.0")
# A net file, and what is wrong with it by docs/NETS.md.
REFUSED = [
    ("#" * (1 << 20) + "\n", "net too long"),
    ("inputs = \n", "net is not TOML"),
    ("inputs = 9223372036854775808\n", "net is not TOML"),
    ("inputs = 1\nspeed = 1\n", "net top: unknown key"),
    ("capacity = 1\n", "net top: missing key"),
    ("inputs = 1.0\n", "net top: wrong kind"),
    ("inputs = true\n", "net top: wrong kind"),
    ("inputs = 17\n", "net top: out of range"),
    ("inputs = 1\ncapacity = 0\n", "net top: out of range"),
    ("inputs = 1\ncapacity = 65\n", "net top: out of range"),
    ("inputs = 1\n", "net top: missing key"),
    ("inputs = 1\nproc = []\n", "net top: out of range"),
    ("inputs = 1\nproc = [1]\n", "net top: wrong kind"),
    ("inputs = 1\n" + 9 * PROC, "net top: out of range"),
    ("inputs = 1\n" + PROC + "name = 1\n", "net processor 0: unknown key"),
    ("inputs = 1\n" + PROC + '[[proc]]\nsrc = "a.sil"\n', "net processor 1: missing key"),
    ("inputs = 1\n" + PROC.replace('"a.sil"', "1"), "net processor 0: wrong kind"),
    ("inputs = 1\n" + PROC.replace('"a.toml"', '""'), "net processor 0: out of range"),
    ("inputs = 1\n" + PROC.replace('["in.0"]', '"in.0"'), "net processor 0: wrong kind"),
    ("inputs = 1\n" + PROC.replace('["in.0"]', "[]"), "net processor 0: out of range"),
    ("inputs = 1\n" + PROC.replace('"in.0"', '"in.1", 0'), "net processor 0: wrong kind"),
    ("inputs = 1\n" + PROC.replace("in.0", "in.1"), "net processor 0: out of range"),
    ("inputs = 1\n" + PROC.replace("in.0", "0.0"), "net processor 0: out of range"),
    ("inputs = 1\n" + PROC + PROC.replace("in.0", "0.16"), "net processor 1: out of range"),
    ("inputs = 1\n" + PROC + PROC.replace("in.0", "0.00"), "net processor 1: out of range"),
    ("inputs = 1\n" + PROC.replace("in.0", "in.00"), "net processor 0: out of range"),
]


def ports(inputs: str, outputs: str) -> Ports:
    """The words of a program that takes and puts so many bits, 0 for a truth value."""
    kinds = {"0": Type(None), "8": Type(Shape(8, 0)), "r": Type(Shape(8, 0), "round"), "9": Type(Shape(8, 1))}
    return Ports(*([Port(f"w{place}", kinds[kind]) for place, kind in enumerate(words)] for words in (inputs, outputs)))


class Files(unittest.TestCase):
    def fault(self, text: str) -> str:
        with self.assertRaises(NetFault) as raised:
            net_file_of(text.encode())
        return str(raised.exception)

    def test_refused(self) -> None:
        for text, said in REFUSED:
            with self.subTest(text[:80]):
                self.assertEqual(self.fault(text), said)

    def test_read(self) -> None:
        net = net_file_of(("\ufeff" + CHAIN).encode())
        self.assertEqual((net.inputs, net.capacity, net.queues()), (1, 1, [(0, 1)]))
        self.assertEqual(list(net.wires()), [(0, 0, Wire(None, 0)), (1, 0, Wire(0, 0))])

    def test_names(self) -> None:
        for text, out, said in ((CHAIN.replace("= 1", "= 3"), None, "net input 1 unused"),
                                (CHAIN, "a.toml", "net output overwrites a file of processor 0")):
            with self.assertRaises(NetFault) as raised:
                check_names(net_file_of(text.encode()), out)
            self.assertEqual(str(raised.exception), said)


class Words(unittest.TestCase):
    def net(self, inputs: int, *feeds: str) -> NetFile:
        processors = (f'[[proc]]\nsrc = "a"\ndp = "b"\nfeed = {feed.split()}\n' for feed in feeds)
        return net_file_of((f"inputs = {inputs}\n" + "".join(processors)).encode())

    def test_types(self) -> None:
        net = self.net(2, "in.1", "in.1 in.0 0.0")
        self.assertEqual(row_types(net, [ports("r", "8"), ports("80r", "8")]), [Type(None), Type(Shape(8, 0), "round")])

    def test_unfit(self) -> None:
        net = self.net(1, "in.0", "in.0 0.1")
        for first, second, said in ((ports("88", "88"), ports("88", "8"), "wrong feeds of processor 0"),
                                    (ports("8", "88"), ports("8", "8"), "wrong feeds of processor 1"),
                                    (ports("8", "88"), ports("98", "8"), "feed 0 of processor 1 does not fit"),
                                    (ports("8", "8"), ports("88", "8"), "feed 1 of processor 1 does not fit"),
                                    (ports("8", "80"), ports("88", "8"), "feed 1 of processor 1 does not fit")):
            with self.assertRaises(NetFault) as raised:
                row_types(net, [first, second])
            self.assertEqual(str(raised.exception), said)

    def test_rows(self) -> None:
        def stage(number: int, rows: list[Row]) -> list[Row]:
            return [(sum(row) + 1, number) for row in rows]
        put = solution(self.net(2, "in.0 in.1", "in.0", "0.0 0.1 1.0"), [(1, 2), (5, 6)], stage)
        self.assertEqual(put, [[(4, 0), (12, 0)], [(2, 1), (6, 1)], [(7, 2), (19, 2)]])


class Examples(unittest.TestCase):
    def test_rows(self) -> None:
        for folder in sorted(file.parent for file in EXAMPLES.glob("*/net.toml")):
            with self.subTest(folder.name):
                net = Net(folder / "net.toml", folder=folder)
                rows = [tuple(map(int, line.split(","))) for line in (folder / "samples.txt").read_text().split()]
                expected = [tuple(map(int, line.split(","))) for line in (folder / "expected.txt").read_text().split()]
                self.assertEqual(net.evaluate(rows), expected)

    def test_no_program(self) -> None:
        with tempfile.TemporaryDirectory() as folder:
            Path(folder, "net.toml").write_text(CHAIN)
            Path(folder, "a.sil").write_text("func other(x : bool) y : bool = begin y = x; end;")
            with self.assertRaisesRegex(ValueError, "has no main"):
                Net(Path(folder, "net.toml"), folder=folder)
