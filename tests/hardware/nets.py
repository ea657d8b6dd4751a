"""Random nets of small images for tests of cores that queues join, with the rows that they have to put."""
import random
from dataclasses import dataclass

from machine import Machine
from silc.fuzzing.microcode import image, issue, unit, word
from silc.hardware.datapath import numbered
from silc.hardware.net_files import texts_of
from silc.micro_file import image_of
from silc.micro_file.image import Image
from silc.nets import NetFile, Processor, Wire, solution

WIDTH, TRUTH, ROWS = 16, 0, 12
IN, ALU, OUT = range(3)
MOST_CORES, MOST_WORDS, MOST_CAPACITY = 5, 3, 3


def of_outputs(inputs: list[int], outputs: list[tuple[int, int]], idle: int) -> Image:
    """An image whose outputs each read an input: a sum of all its words so far, or whether it is less than in the
    sample before. An output is the number of its input with a width."""
    words = []
    for number, (read, width) in enumerate(outputs):
        words.append(word([issue(IN, "input", argument=read)], [(IN, 0)], [(ALU, 0, 0, 0)]))
        if width == TRUTH:
            words.append(word([issue(IN, "input", argument=read), issue(ALU, "lt", [0, number])], [(IN, 1), (ALU, 0)],
                              [(ALU, 1, 1, number), (OUT, 0, 0, 0)]))
        else:
            words.append(word([issue(ALU, "add", [0, number], width=width)], [(ALU, 0)],
                              [(ALU, 1, 0, number), (OUT, 0, 0, 0)]))
        words.append(word([issue(OUT, "output", [0], number)]))
    words += [word()] * idle
    units = [unit("in"), unit("alu", files=[[0], [5 * number for number in range(len(outputs))]]),
             unit("out", files=[[0]])]
    return image_of(image(len(words), 1, inputs, len(outputs), units, 2, words))


@dataclass
class RandomNet:
    """A net, the image of each processor, and rows that go in and come out."""
    net: NetFile
    images: list[Image]
    samples: list[list[int]]
    rows: list[list[int]]

    def files(self, name: str) -> dict[str, str]:
        return texts_of(self.net, [(one, numbered(one)) for one in self.images], name)


def random_net(seed: int) -> RandomNet:
    dice = random.Random(seed)
    row = [dice.choice((WIDTH, WIDTH, TRUTH)) for _ in range(dice.randint(1, MOST_WORDS))]
    widths = {Wire(None, place): width for place, width in enumerate(row)}
    unfed, processors, images = [*widths], [], []
    count = dice.randint(1, MOST_CORES)
    for number in range(count):
        feed = dice.choices([*widths], k=dice.randint(1, MOST_WORDS)) + (unfed if number == count - 1 else [])
        unfed = [wire for wire in unfed if wire not in feed]
        inputs = [widths[wire] for wire in feed]
        outputs = [(dice.randrange(len(feed)), dice.choice((WIDTH, WIDTH, TRUTH)))
                   for _ in range(dice.randint(1, MOST_WORDS))]
        images.append(of_outputs(inputs, outputs, dice.choice((0, 1, 7))))
        processors.append(Processor("", "", tuple(feed)))
        widths |= {Wire(number, place): width for place, (_, width) in enumerate(outputs)}
    net = NetFile(len(row), dice.randint(1, MOST_CAPACITY), tuple(processors))
    half = 1 << (WIDTH - 1)
    samples = [tuple(dice.randrange(-half, half) if width else dice.randrange(2) for width in row) for _ in range(ROWS)]
    put = solution(net, samples, lambda number, taken: [tuple(made) for made in Machine(images[number]).rows(taken)])
    return RandomNet(net, images, [list(row) for row in samples], [list(row) for row in put[-1]])
