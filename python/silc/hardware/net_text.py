"""The module of a net: a core a processor, and before each core a queue for the net's row and for each core that it
reads.

Names: v_P a row is offered to core P, r_P it is ready for one, t_P it takes it, h_P it offers a row of its own, p_P
there is a place for that, g_P it gives it, o_P_J its output word J. q_in_P and q_Q_P are the queues before core P, with
the oldest row in rows_*, and has_* and free_* whether they have a row and a place. A net has no signal and no bit of
one that nothing reads.
"""
from __future__ import annotations

from collections.abc import Iterator
from dataclasses import dataclass

from silc.hardware.core_text import declared, fitted, instance, unread, vector
from silc.hardware.netlist import Core
from silc.hardware.words import Range, index_bits
from silc.nets import NetFile, Wire


@dataclass(frozen=True)
class Queue:
    """A queue before a core: the core that fills it, or nothing for the net's row, and the words that are read of its
    rows, each with the words that it may be."""
    producer: int | None
    reader: int
    words: dict[int, Range]

    @property
    def name(self) -> str:
        return f"{'in' if self.producer is None else self.producer}_{self.reader}"

    def bits(self) -> int:
        return sum(words.bits() for words in self.words.values())

    def place(self, word: int) -> str:
        """The bits of a word in a row, the first word in the highest."""
        below = sum(words.bits() for other, words in self.words.items() if other > word)
        return f"rows_{self.name}[{below + self.words[word].bits() - 1}:{below}]"


class NetText:
    """The text of the module over the cores of the processors."""

    def __init__(self, name: str, net: NetFile, cores: list[Core]) -> None:
        self.name, self.net, self.cores = name, net, cores
        self.queues = [self.queue(producer, reader) for reader, processor in enumerate(net.processors)
                       for producer in [*([None] if self.words_of(reader, None) else []), *processor.reads()]]
        fed: dict[int, Range] = {}
        for queue in self.queues:
            if queue.producer is None:
                fed = queue.words | fed
        self.inputs = [fed[word] for word in range(net.inputs)]

    def core(self) -> Core:
        """What the net is to its bench: a core with its words, whose period is that of all its cores one after
        another."""
        return Core(self.name, False, None, sum(core.period for core in self.cores), 0, 0, self.inputs,
                    self.cores[-1].outputs)

    def words_of(self, reader: int, producer: int | None) -> dict[int, Range]:
        """The words that a core reads of the rows of another, or of the net's."""
        inputs = self.cores[reader].inputs
        feed = self.net.processors[reader].feed
        return dict(sorted((wire.word, inputs[place]) for place, wire in enumerate(feed) if wire.processor == producer))

    def queue(self, producer: int | None, reader: int) -> Queue:
        return Queue(producer, reader, self.words_of(reader, producer))

    def before(self, reader: int) -> list[Queue]:
        return [queue for queue in self.queues if queue.reader == reader]

    def behind(self, producer: int | None) -> list[Queue]:
        return [queue for queue in self.queues if queue.producer == producer]

    def text(self) -> str:
        return "".join([self.head(), *self.signals(), *map(self.queue_text, self.queues),
                        *map(self.core_text, range(len(self.cores))), self.ends(),
                        "endmodule\n`default_nettype wire\n"])

    def head(self) -> str:
        ins = "".join(f"    input wire {vector(words.bits())} in_{place},\n" for place, words in enumerate(self.inputs))
        outs = "".join(f"    output wire {vector(words.bits())} out_{place},\n"
                       for place, words in enumerate(self.cores[-1].outputs))
        return (f"// A net of {len(self.cores)} cores, made by tools/verilog. It needs silc_parts.v and the files of "
                f"the cores.\n"
                f"`default_nettype none\nmodule {self.name} #(\n    parameter RESTART = 1\n) (\n"
                "    input wire clk,\n    input wire rst,\n    input wire in_valid,\n    output wire in_ready,\n"
                f"{ins}    output wire out_valid,\n    input wire out_ready,\n{outs}"
                "    output wire active,\n    output wire fault\n);\n")

    def signals(self) -> Iterator[str]:
        """What cores and queues have in common."""
        for number, core in enumerate(self.cores):
            is_last = number == len(self.cores) - 1
            yield f"    wire v_{number}, r_{number}, t_{number}, p_{number}, active_{number}, fault_{number};\n"
            offered = f"    wire h_{number};\n"
            is_read = is_last or bool(self.behind(number))
            yield offered if is_read else unread(offered, "No core reads these rows.")
            yield f"    wire g_{number};\n" if self.behind(number) else ""
            for word, words in enumerate(core.outputs):
                wire = declared("wire", words.bits(), f"o_{number}_{word}")
                is_whole = is_last or words.bits() <= max(
                    (queue.words[word].bits() for queue in self.behind(number) if word in queue.words), default=0)
                yield wire if is_whole else unread(wire, "A word, or bits above those that it has, that no core reads.")
        for queue in self.queues:
            yield declared("wire", queue.bits(), f"rows_{queue.name}")
            yield f"    wire has_{queue.name}, free_{queue.name};\n"

    def queue_text(self, queue: Queue) -> str:
        if queue.producer is None:
            put, given = "in_valid && in_ready", [f"in_{word}" for word in queue.words]
        else:
            outputs = self.cores[queue.producer].outputs
            put = f"g_{queue.producer}"
            given = [fitted(f"o_{queue.producer}_{word}", outputs[word], words.bits())
                     for word, words in queue.words.items()]
        return "\n" + instance(
            "silc_queue", f"q_{queue.name}",
            {"WIDTH": queue.bits(), "LAST_PLACE": self.net.capacity - 1, "BITS": index_bits(self.net.capacity)},
            {"clk": "clk", "rst": "rst", "put": put, "newest": f"{{{', '.join(given)}}}",
             "has_place": f"free_{queue.name}",
             "take": f"t_{queue.reader}", "oldest": f"rows_{queue.name}", "has_row": f"has_{queue.name}"})

    def word_for(self, reader: int, wire: Wire) -> str:
        """The bits that a wire brings, of the oldest row of its queue."""
        return next(queue for queue in self.before(reader) if queue.producer == wire.processor).place(wire.word)

    def core_text(self, number: int) -> str:
        behind = self.behind(number)
        is_last = number == len(self.cores) - 1
        place = "out_ready" if is_last else " && ".join(f"free_{queue.name}" for queue in behind) or "1'b1"
        lines = [f"\n    assign v_{number} = {' && '.join(f'has_{queue.name}' for queue in self.before(number))};\n",
                 f"    assign t_{number} = v_{number} && r_{number};\n", f"    assign p_{number} = {place};\n"]
        if behind:
            lines.append(f"    assign g_{number} = h_{number} && p_{number};\n")
        ports = {"clk": "clk", "rst": "rst", "in_valid": f"v_{number}", "in_ready": f"r_{number}",
                 **{f"in_{place}": self.word_for(number, wire)
                    for place, wire in enumerate(self.net.processors[number].feed)},
                 "out_valid": f"h_{number}", "out_ready": f"p_{number}",
                 **{f"out_{word}": f"o_{number}_{word}" for word in range(len(self.cores[number].outputs))},
                 "active": f"active_{number}", "fault": f"fault_{number}"}
        return "".join(lines) + instance(f"{self.name}_{number}", f"processor_{number}", {"RESTART": "RESTART"}, ports)

    def ends(self) -> str:
        """The rows of the net, and the signals of all cores."""
        numbers, last = range(len(self.cores)), len(self.cores) - 1
        outs = "".join(f"    assign out_{word} = o_{last}_{word};\n" for word in range(len(self.cores[-1].outputs)))
        return (f"\n    assign in_ready = {' && '.join(f'free_{queue.name}' for queue in self.behind(None))};\n"
                f"    assign out_valid = h_{last};\n{outs}"
                f"    assign active = {' || '.join(f'active_{number}' for number in numbers)};\n"
                f"    assign fault = {' || '.join(f'fault_{number}' for number in numbers)};\n")
