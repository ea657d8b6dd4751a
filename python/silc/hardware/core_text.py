"""The generated module of a core: its ports, its microprogram's fields, units, buses, register files and latches.

Names: i_J the held input word J, l_J the output latch J, u_UNIT a unit's result, f_UNIT_PORT the register that a port
reads, n_UNIT_PORT the address that it reads in the next cycle, b_BUS a bus, cu_, cf_ and cb_ the columns of a unit, a
file and a bus. A core has no signal and no bit of one that nothing reads.
"""
from __future__ import annotations

from collections.abc import Iterable, Iterator, Mapping, Sequence
from typing import TYPE_CHECKING, TypeAlias

from silc.micro_file.image import ROUNDING, SATURATING
from silc.micro_file.operations import FORMATTED, OF_KIND, TRUTHS, number_bits, number_of

from .columns import Program, stages
from .netlist import Core, File, Part, Quantisation
from .words import Range, index_bits, of_width

if TYPE_CHECKING:
    from .core_files import Files

# What a parameter of a part in Verilog is given, and the signal at each of its ports.
Parameters: TypeAlias = dict[str, int | str]
Ports: TypeAlias = dict[str, str]

CODE, OP_BITS, FORMAT_BITS = "code", number_bits("alu"), 8
LINE = 108
UNREAD, READ = "/* verilator lint_off UNUSEDSIGNAL */", "/* verilator lint_on UNUSEDSIGNAL */"


def vector(bits: int) -> str:
    return f"[{bits - 1}:0]"


def number(bits: int, value: int) -> str:
    return f"{bits}'d{value}"


def fitted(name: str, words: Range, bits: int) -> str:
    """A signal that holds these words, in so many bits."""
    own = words.bits()
    if own >= bits:
        return name if own == bits else f"{name}[{bits - 1}:0]"
    fill = f"{{{bits - own}{{{name}[{own - 1}]}}}}" if words.is_signed() else f"{bits - own}'d0"
    return f"{{{fill}, {name}}}"


def operand(name: str, words: Range) -> str:
    """The signal in two's complement."""
    return fitted(name, words, words.signed_bits())


def chosen(selector: str, bits: int, options: list[str]) -> str:
    """One of the options, by their numbers; the last one where the selector has no such number."""
    tests = [f"{selector} == {number(bits, place)} ? {option} : " for place, option in enumerate(options[:-1])]
    return "".join(tests) + options[-1]


def packed(values: Sequence[int], bits: int) -> str:
    """Numbers as a literal with so many bits each, number 0 in the lowest."""
    whole = sum((value & ((1 << bits) - 1)) << (bits * place) for place, value in enumerate(values))
    return f"{bits * len(values)}'h{whole:x}"


def filled(items: Iterable[str]) -> str:
    """Items with commas, in lines that are not too long."""
    lines = [""]
    for item in items:
        if lines[-1] and len(lines[-1]) + len(item) > LINE:
            lines.append("")
        lines[-1] += f"{', ' if lines[-1] else ''}{item}"
    return ",\n        ".join(lines)


def instance(part: str, name: str, parameters: Mapping[str, int | str], ports: Mapping[str, str]) -> str:
    given = filled(f".{key}({value})" for key, value in parameters.items())
    joined = filled(f".{key}({value})" for key, value in ports.items())
    return f"    {part} #({given}) {name} (\n        {joined});\n"


def declared(kind: str, bits: int, name: str, value: str | None = None) -> str:
    return f"    {kind} {vector(bits)} {name}{'' if value is None else f' = {value}'};\n"


def unread(text: str, why: str) -> str:
    """Lines that declare what nothing reads, with the reason why it is there."""
    return f"    // {why}\n    {UNREAD}\n{text.rstrip()}\n    {READ}\n"


def low(name: str, bits: int, own: int) -> str:
    """The lowest bits of a signal that has so many of its own."""
    return name if bits == own else f"{name}[{bits - 1}:0]"


def fill_last_of(core: Core) -> int:
    """The last address in the largest file or memory of a core."""
    return max([1, *(file.size - 1 for _, file in core.memories())])


class CoreText:
    """The text of a core whose microprogram is given."""

    def __init__(self, core: Core, program: Program, files: Files) -> None:
        self.core, self.program, self.files = core, program, files
        self.fill_bits = max([1, *(file.address_bits() for _, file in core.memories())])
        self.fill_last = fill_last_of(core)
        self.first_bits = max([0, *(file.address_bits() for name, file in core.memories() if name in files.first)])
        self.held = sorted({word for part in core.parts.values() for word in part.inputs})

    def text(self) -> str:
        return "".join([self.head(), self.control(), self.fields(), self.begun(), self.signals(), *self.parts(),
                        *self.buses(), self.inputs(), self.outputs(), "endmodule\n`default_nettype wire\n"])

    def filled(self, name: str, file: File) -> tuple[str, Parameters, Ports]:
        """What words of a file or a memory have in common: what reads their first ones, parameters, and ports."""
        bits, address = file.words.bits(), file.address_bits()
        parameters: Parameters = {"WIDTH": bits, "SIZE": file.size, "BITS": address,
                                  "FILE": f'"{self.files.first.get(name, "")}"'}
        ports = {"clk": "clk", "fill": "fill", "fill_at": low("fill_at", address, self.fill_bits),
                 "first": f"first_{name}" if name in self.files.first else number(bits, 0)}
        if name not in self.files.first:
            return "", parameters, ports
        return declared("wire", bits, f"first_{name}") + instance("silc_first", f"firsts_{name}", parameters, {
            "clk": "clk", "next": low("first_at", address, self.first_bits),
            "word": f"first_{name}"}), parameters, ports

    # Ports, control, microprogram

    def ports(self) -> str:
        def port(direction: str, words: Range, name: str) -> str:
            return f"    {direction} {vector(words.bits())} {name},\n"

        def in_port(place: int, words: Range) -> str:
            text = port("input wire", words, f"in_{place}")
            return text if place in self.held else unread(text, "A word of the row that no operation reads.")

        return "".join([
            "    input wire clk,\n    input wire rst,\n    input wire in_valid,\n    output wire in_ready,\n",
            *(in_port(place, words) for place, words in enumerate(self.core.inputs)),
            "    output wire out_valid,\n    input wire out_ready,\n",
            *(port("output reg", words, f"out_{place}") for place, words in enumerate(self.core.outputs)),
            "    output wire active,\n    output wire fault"])

    def head(self) -> str:
        core = self.core
        build = f"any program over a datapath of words of {core.word} bits" if core.is_full else "one program alone"
        return (f"// A core for {build}, made by tools/verilog. It needs silc_parts.v.\n`default_nettype none\n"
                f"module {core.name} #(\n    parameter RESTART = 1\n) (\n{self.ports()}\n);\n")

    def control(self) -> str:
        core, bits, width = self.core, index_bits(self.core.rows), self.program.width
        wires = "".join(f"    wire {name};\n" for name in ("step", "run", "put_row", "stray"))
        taking, filling = "    wire take_row;\n", "    wire fill;\n" + declared("wire", self.fill_bits, "fill_at")
        wires += taking if self.held else unread(taking, "No word of a row is held.")
        wires += filling if any(core.memories()) else unread(filling, "No file and no memory is filled.")
        if self.first_bits:
            after = f"{low('fill_at', self.first_bits, self.fill_bits)} + {number(self.first_bits, 1)}"
            wires += declared("wire", self.first_bits, "first_at", f"rst ? {number(self.first_bits, 0)} : {after}")
        parameters: Parameters = {"BITS": bits, "START": core.start, "FILL_BITS": self.fill_bits,
                                  "FILL_LAST": self.fill_last, "RESTART": "RESTART"}
        names = "clk rst in_valid in_ready out_valid out_ready stray at step run take_row put_row fault fill fill_at"
        ports = {name: name for name in names.split()} | {"last": "c_last", "again": "c_again"}
        memory: Parameters = {"WIDTH": width, "WORDS": core.rows, "BITS": bits, "FILE": f'"{self.files.program}"'}
        return "".join([
            wires, declared("wire", bits, "at"), declared("wire", width, "row"),
            "    wire [0:0] c_last, c_again;\n    assign active = run;\n",
            instance("silc_sequencer", "sequencer", parameters, ports),
            instance("silc_program", "program_rows", memory,
                     {"clk": "clk", "step": "step", "at": "at", "word": "row"})])

    def fields(self) -> str:
        lines = ["\n"]
        for column in self.program.columns:
            place = self.program.places.get(column.name)
            value = number(column.bits, self.program.constants[column.name]) if place is None else \
                f"row[{place + column.bits - 1}:{place}]"
            if column.name in ("c_last", "c_again"):
                lines.append(f"    assign {column.name} = {value};\n")
            else:
                lines.append(declared("wire", column.bits, column.name, value))
        return "".join(lines)

    def begun(self) -> str:
        """The number of the sample, up to that from which on all is due."""
        if not any(self.program.has(f"cu_{part.name}_due") for part in self.core.parts.values()):
            return ""
        last = self.core.last_stage()
        bits = index_bits(last + 1)
        return (f"\n{declared('reg', bits, 'begun')}    always @(posedge clk)\n"
                f"        if (rst) begun <= {number(bits, 0)};\n"
                f"        else if (run && c_last && begun != {number(bits, last)}) "
                f"begun <= begun + {number(bits, 1)};\n")

    def does(self, part: Part, flag: str) -> str:
        """Whether a unit begins what leaves something behind, of a sample that there is."""
        does, due = f"cu_{part.name}_{flag}", f"cu_{part.name}_due"
        return f"{does} && begun >= {due}" if self.program.has(due) else does

    def signals(self) -> str:
        """What parts have in common, declared before any part."""
        lines = ["\n"]
        for place in self.held:
            lines.append(declared("reg", self.core.inputs[place].bits(), f"i_{place}"))
        for part in self.core.parts.values():
            for port, file in part.files.items():
                lines.append(declared("wire", file.words.bits(), f"f_{part.name}_{port}"))
                if part.is_ahead(port):
                    lines.append(declared("wire", next_bits(part), f"n_{part.name}_{port}"))
            if part.result:
                lines.append(declared("wire", part.gives().bits(), f"u_{part.name}"))
        for bus in self.core.buses.values():
            lines.append(declared("wire", bus.words.bits(), f"b_{bus.name}"))
        return "".join(lines)

    # Units

    def parts(self) -> Iterator[str]:
        for unit, part in self.core.parts.items():
            yield f"\n    // {part.name}, {part.kind}\n"
            for port, file in part.files.items():
                yield self.file(part, port, file)
            yield getattr(self, f"{part.kind}_part")(unit, part)

    def file(self, part: Part, port: int, file: File) -> str:
        """The register file at a port. One register is words alone, and an address that is read ahead comes a clock
        early."""
        name, column = f"{part.name}_{port}", f"cf_{part.name}_{port}"
        first, parameters, ports = self.filled(name, file)
        bits, address = file.words.bits(), file.address_bits()
        ports |= {"write": f"run && {column}_take", "into": f"{column}_into",
                  "data": self.taken(part, port, file, bits)} \
            if file.sources else {"write": "1'b0", "into": number(address, 0), "data": number(bits, 0)}
        if file.size == 1:
            ports |= {"into": "1'd0", "at": "1'd0", "word": f"f_{name}"}
            ahead = f"    assign n_{name} = {self.coming(part, port, file)};\n" if part.is_ahead(port) else ""
            return first + instance("silc_words", f"file_{name}", parameters, ports) + ahead
        ports |= {"step": "step", "next": f"{column}_read", "word": f"f_{name}"}
        if part.is_ahead(port):
            return first + instance("silc_file_ahead", f"file_{name}", parameters | {"NEXT": next_bits(part)},
                                    ports | {"word_next": f"n_{name}"})
        return first + instance("silc_file", f"file_{name}", parameters, ports)

    def taken(self, part: Part, port: int, file: File, bits: int) -> str:
        """What a file takes, in so many bits."""
        options = [fitted(f"b_{self.core.buses[bus].name}", self.core.buses[bus].words, bits) for bus in file.sources]
        return chosen(f"cf_{part.name}_{port}_from", index_bits(len(options)), options)

    def coming(self, part: Part, port: int, file: File) -> str:
        """What a file of one register holds in the next cycle, as far as it is an address of a memory."""
        name, bits = f"{part.name}_{port}", next_bits(part)
        now = low(f"f_{name}", bits, file.words.bits())
        return f"run && cf_{name}_take ? {self.taken(part, port, file, bits)} : {now}" if file.sources else now

    def delayed(self, part: Part, cycles: int, value: str) -> str:
        """The unit's result, which is `value` so many cycles before."""
        return self.delay(f"result_{part.name}", part.gives().bits(), cycles, value, f"u_{part.name}")

    @staticmethod
    def delay(name: str, bits: int, cycles: int, value: str, to: str, clear: str = "1'b0") -> str:
        if not cycles:
            return f"    assign {to} = {value};\n"
        return instance("silc_delay", name, {"WIDTH": bits, "CYCLES": cycles},
                        {"clk": "clk", "clear": clear, "run": "run", "in": value, "out": to})

    def in_part(self, _: int, part: Part) -> str:
        bits = part.gives().bits()
        options = [fitted(f"i_{word}", self.core.inputs[word], bits) for word in part.inputs]
        return self.delayed(part, part.latency - 1, chosen(f"cu_{part.name}_word", index_bits(len(options)), options))

    def rom_part(self, _: int, part: Part) -> str:
        return f"    assign u_{part.name} = cu_{part.name}_value;\n"

    def sel_part(self, _: int, part: Part) -> str:
        bits, name = part.gives().bits(), part.name
        options = [fitted(f"f_{name}_{port}", part.files[port].words, bits) for port in (1, 2)]
        test = f"f_{name}_0 != {number(part.files[0].words.bits(), 0)}"
        return self.delayed(part, part.latency - 1, f"{test} ? {options[0]} : {options[1]}")

    def alu_part(self, _: int, part: Part) -> str:
        name, bits = part.name, part.gives().bits()
        words = [part.files[port].words if port in part.files else Range(0, 0) for port in (0, 1)]
        sizes = [one.signed_bits() for one in words]
        exact = max(sizes) + 1
        given = {letter: operand(f"f_{name}_{port}", one) if port in part.files else number(one.signed_bits(), 0)
                 for (port, one), letter in zip(enumerate(words), "ab")}
        codes = part.operations or [(operation, None) for operation in OF_KIND["alu"]]
        names = sorted({operation for operation, _ in codes}, key=number_of)
        mask = sum(1 << number_of(operation) for operation in names)
        size = {"A": sizes[0], "B": sizes[1], "EXACT": exact}
        lines = [declared("wire", OP_BITS, f"op_{name}", self.alu_op(part)), declared("wire", exact, f"exact_{name}"),
                 instance("silc_sum", f"add_{name}", size | {"OPS": f"16'h{mask:04x}"},
                          {"op": f"op_{name}"} | given | {"exact": f"exact_{name}"})]
        truths = [operation for operation in names if operation in TRUTHS]
        if truths:
            lines += [f"    wire truth_{name};\n",
                      instance("silc_truth", f"judge_{name}", size,
                               {"op": f"op_{name}"} | given | {"exact": f"exact_{name}", "truth": f"truth_{name}"})]
        truth = fitted(f"truth_{name}", Range(0, 1), bits)
        if len(truths) == len(names):
            return "".join(lines) + self.delayed(part, part.latency - 1, truth)
        summed = quantised_words(part)
        lines += [declared("wire", summed.bits(), f"sum_{name}"),
                  self.quantised(part, exact, f"exact_{name}", f"sum_{name}")]
        value = fitted(f"sum_{name}", summed, bits)
        if truths:
            is_truth = " || ".join(f"op_{name} == {number(OP_BITS, number_of(operation))}" for operation in truths)
            value = f"{is_truth} ? {truth} : {value}"
        return "".join(lines) + self.delayed(part, part.latency - 1, value)

    @staticmethod
    def alu_op(part: Part) -> str:
        """The number of the operation, by the code that the program has for it."""
        if not part.operations:
            return f"cu_{part.name}_op"
        options = [number(OP_BITS, number_of(operation)) for operation, _ in part.operations]
        return chosen(f"cu_{part.name}_{CODE}", index_bits(len(options)), options)

    def quantised(self, part: Part, exact_bits: int, exact: str, to: str) -> str:
        """A part that brings the exact number to the issue's format."""
        name = part.name
        size, ports = {"IN": exact_bits, "OUT": quantised_words(part).bits()}, {"exact": exact, "word": to}
        if not part.formats:
            return instance("silc_quantise_any", f"quantise_{name}", size | {"BITS": index_bits(self.core.widest())},
                            {field: f"cu_{name}_{field}" for field in ("shift", "round", "sat", "width")} | ports)
        if len(part.formats) == 1:
            (shift, mode, _), = part.formats
            return instance("silc_quantise_one", f"quantise_{name}", size | {
                "SHIFT": shift, "ROUND": int(mode in ROUNDING), "SAT": int(mode in SATURATING)}, ports)
        bits = index_bits(len(part.formats))
        codes = part.operations if part.kind == "alu" else [(FORMATTED[-1], form) for form in part.formats]
        places = [number(bits, part.formats.index(form) if form else 0) for _, form in codes]
        format_ = chosen(f"cu_{name}_{CODE}", index_bits(len(codes)), places)
        return declared("wire", bits, f"format_{name}", format_) + \
            instance("silc_quantise", f"quantise_{name}", size | format_parameters(part.formats),
                     {"format": f"format_{name}"} | ports)

    def mul_part(self, _: int, part: Part) -> str:
        name, words = part.name, [part.files[port].words for port in (0, 1)]
        sizes = [one.signed_bits() for one in words]
        before, after, behind = stages(part.latency)
        product = quantised_words(part)
        lines = []
        for side, size, one, port in zip(("left", "right"), sizes, words, (0, 1)):
            lines += [declared("wire", size, f"{side}_{name}"),
                      self.delay(f"{side}s_{name}", size, before, operand(f"f_{name}_{port}", one), f"{side}_{name}")]
        return "".join([
            *lines, declared("wire", sum(sizes), f"product_{name}"), declared("wire", sum(sizes), f"exact_{name}"),
            declared("wire", product.bits(), f"word_{name}"),
            instance("silc_product", f"multiply_{name}", {"A": sizes[0], "B": sizes[1]},
                     {"a": f"left_{name}", "b": f"right_{name}", "exact": f"product_{name}"}),
            self.delay(f"products_{name}", sum(sizes), after, f"product_{name}", f"exact_{name}"),
            self.quantised(part, sum(sizes), f"exact_{name}", f"word_{name}"),
            self.delayed(part, behind, fitted(f"word_{name}", product, part.gives().bits()))])

    def ram_part(self, _: int, part: Part) -> str:
        """The memory. One of latency 1 is read ahead, as a register file is."""
        if not part.has_memory():
            return ""
        name, cells, words = part.name, part.memory(), part.memory().words
        first, parameters, ports = self.filled(f"{name}_cells", cells)
        bits, address = cells.address_bits(), part.files[0].words
        value = fitted(f"f_{name}_1", part.files[1].words, words.bits()) if 1 in part.files else number(words.bits(), 0)
        at, ports = fitted(f"f_{name}_0", address, bits), ports | {"word": f"read_{name}"}
        lines = [first, declared("wire", words.bits(), f"read_{name}")]
        if part.is_ahead(0):
            ports |= {"step": "step", "next": fitted(f"n_{name}_0", address.cut(bits), bits),
                      "write": f"run && {self.does(part, 'stores')}", "into": at, "data": value}
            lines.append(instance("silc_file", f"memory_{name}", parameters | {"SMALL": 0}, ports))
        else:
            ports |= {"rst": "rst", "run": "run", "address": at, "store": self.does(part, "stores"),
                      "value": value}
            kind = "silc_large" if part.is_large else "silc_memory"
            own = {key: value for key, value in parameters.items() if key != "FILE"} if part.is_large else parameters
            lines.append(instance(kind, f"memory_{name}", own | {"LATENCY": part.latency}, ports))
        lines.append(f"    assign u_{name} = {fitted(f'read_{name}', words, part.gives().bits())};\n")
        return "".join(lines)

    def acu_part(self, _: int, part: Part) -> str:
        name, bits = part.name, part.gives().bits()
        last = part.gives().high
        return "".join([
            declared("wire", bits, f"origin_{name}"), declared("wire", bits, f"address_{name}"),
            instance("silc_ring", f"ring_{name}", {"LAST_CELL": last, "BITS": bits},
                     {"clk": "clk", "rst": "rst", "run": "run", "last": "c_last", "origin": f"origin_{name}"}),
            instance("silc_address", f"add_{name}", {"CELLS": last + 1, "BITS": bits},
                     {"offset": f"cu_{name}_offset", "origin": f"origin_{name}", "address": f"address_{name}"}),
            self.delayed(part, part.latency - 1, f"address_{name}")])

    def out_part(self, _: int, part: Part) -> str:
        name, cycles = part.name, part.latency - 1
        bits = part.files[0].words.bits()
        return "".join([
            f"    wire ends_{name};\n", declared("wire", bits, f"word_{name}"),
            self.delay(f"flag_{name}", 1, cycles, self.does(part, "does"), f"ends_{name}", "rst"),
            self.delay(f"delay_{name}", bits, cycles, f"f_{name}_0", f"word_{name}")])

    # Buses, rows, faults

    def buses(self) -> Iterator[str]:
        yield "\n"
        for bus in self.core.buses.values():
            bits = bus.words.bits()
            options = [fitted(f"u_{self.core.parts[unit].name}", self.core.parts[unit].gives(), bits)
                       for unit in bus.drivers]
            value = chosen(f"cb_{bus.name}_from", index_bits(len(options)), options) if options else number(bits, 0)
            yield f"    assign b_{bus.name} = {value};\n"
        tests = [stray_test(part) for part in self.core.parts.values() if part.can_stray()]
        yield f"    assign stray = {' || '.join(tests) or number(1, 0)};\n"

    def inputs(self) -> str:
        lines = "".join(f"            i_{place} <= in_{place};\n" for place in self.held)
        return lines and f"\n    always @(posedge clk)\n        if (take_row) begin\n{lines}        end\n"

    def outputs(self) -> str:
        """The latches, into which the unit with the greatest number writes last, and the row that is put."""
        places = range(len(self.core.outputs))
        bits = [words.bits() for words in self.core.outputs]
        regs = "".join(declared("reg", bits[place], f"l_{place}") for place in places)
        zeros = "".join(f"            l_{place} <= {number(bits[place], 0)};\n" for place in places)
        writes = "".join(self.latch_writes(part) for part in self.core.parts.values() if part.kind == "out")
        puts = "".join(f"            out_{place} <= l_{place};\n" for place in places)
        return (f"\n{regs}    always @(posedge clk)\n        if (rst) begin\n{zeros}        end else if (run) begin\n"
                f"{writes}"
                f"        end\n    always @(posedge clk)\n        if (put_row) begin\n{puts}        end\n")

    def latch_writes(self, part: Part) -> str:
        return "".join(self.writes_of(part))

    def writes_of(self, part: Part) -> Iterator[str]:
        column = f"cu_{part.name}_word"
        bits = index_bits(len(self.core.outputs))
        constant = self.program.constants.get(column)
        for place, words in enumerate(self.core.outputs):
            if constant is None or constant == place:
                value = fitted(f"word_{part.name}", part.files[0].words, words.bits())
                test = f" && {column} == {number(bits, place)}" if len(self.core.outputs) > 1 else ""
                yield f"            if (ends_{part.name}{test}) l_{place} <= {value};\n"


def next_bits(part: Part) -> int:
    """How many bits of the next address a memory reads."""
    return part.files[0].words.cut(part.memory().address_bits()).bits()


def quantised_words(part: Part) -> Range:
    """The words of the widest format of a unit, where formats are listed, or else all that it may give."""
    return of_width(part.formats[0][2]) if part.formats else part.gives()


def format_parameters(formats: list[Quantisation]) -> Parameters:
    """Shifts, modes and widths of formats as parameters. Where no format rounds, the lowest bit adds what is always
    0."""
    shifts, modes, widths = zip(*formats)
    return {"COUNT": len(formats), "BITS": index_bits(len(formats)), "SHIFTS": packed(shifts, FORMAT_BITS),
            "ROUNDS": packed([int(mode in ROUNDING) for mode in modes], FORMAT_BITS),
            "SATS": packed([int(mode in SATURATING) for mode in modes], FORMAT_BITS),
            "WIDTHS": packed(widths, FORMAT_BITS),
            "ROUNDED": max([1, *(width for mode, width in zip(modes, widths) if mode in ROUNDING)])}


def stray_test(part: Part) -> str:
    """The condition under which a load or a store is outside of its memory. As an unsigned number the address is then
    at least that of the first cell that is not there, or of the least negative number."""
    address, cells = part.files[0].words, part.memory().size
    least = min(cells, 1 << (address.bits() - 1)) if address.is_signed() else cells
    test = f"f_{part.name}_0 >= {number(address.bits(), least)}"
    return f"((cu_{part.name}_loads || cu_{part.name}_stores) && {test})"
