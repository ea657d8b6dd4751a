"""The files of a core: parts, module, microprogram, first words, map, bench."""
from pathlib import Path

from silc.micro_file.image import Image
from silc.programs import PACKAGE, in_checkout

from .bench import bench_of
from .columns import Program
from .core_text import CoreText
from .netlist import Core, File
from .ports import ports_of
from .words import Range


def parts_file() -> Path:
    """The file with the modules that every core is made of: the package's own copy, or the checkout's."""
    own = Path(PACKAGE, "hardware", "silc_parts.v")
    return own if own.is_file() else Path(in_checkout("hardware", own.name))


PARTS = parts_file()


class Files:
    """The names of the files that the module reads: the microprogram, and what is there first where it is not all 0."""

    def __init__(self, core: Core) -> None:
        self.program = f"{core.name}_code.hex"
        self.first = {name: f"{core.name}_{name}.hex" for name, file in core.memories() if core.is_full
                      or any(file.first)}


def first_lines(file: File) -> str:
    bits = file.words.bits()
    digits = (bits + 3) // 4
    return "".join(f"{word & ((1 << bits) - 1):0{digits}x}\n" for word in file.first)


def shown_range(words: Range) -> str:
    return f"{words.low} to {words.high} in {words.bits()} bits, {'signed' if words.is_signed() else 'unsigned'}"


def widest_of(image: Image, core: Core) -> dict[str, str]:
    """For the file at each port of a core for one program what it is as wide as."""
    made = {}
    for port in ports_of(image, core) if not core.is_full else ():
        source = port.sources[0]
        came = "holds that first" if source.unit is None else (
            f"takes that from {core.parts[source.unit].name}, of cycle {source.cycle}")
        made[f"{port.part.name}_{port.port}"] = f"; {came}"
    return made


def map_of(image: Image, core: Core, program: Program) -> str:
    """What each port holds, and what the bits of a row of the microprogram mean, as text."""
    widest = widest_of(image, core)
    lines = [f"core {core.name}: {core.period} cycles a sample, {core.rows} rows of {program.width} bits"]
    for kind, ports in (("in", core.inputs), ("out", core.outputs)):
        lines += [f"{kind}_{place}: {shown_range(words)}" for place, words in enumerate(ports)]
    lines += [f"file {name}: {file.size} words, {shown_range(file.words)}{widest.get(name, '')}"
              for name, file in core.memories()]
    for column in program.columns:
        place = program.places.get(column.name)
        where = f"always {program.constants[column.name]}" if place is None else \
            f"bits {place + column.bits - 1}:{place}" if column.bits > 1 else f"bit {place}"
        lines.append(f"{column.name}: {where}: {column.says}")
    return "".join(line + "\n" for line in lines)


def files_of(image: Image, core: Core) -> dict[str, str]:
    """The text of each file by its name. Equal images give equal files."""
    files, program = Files(core), Program(image, core)
    made = CoreText(core, program, files)
    texts = {PARTS.name: PARTS.read_text(), f"{core.name}.v": made.text(), files.program: program.lines(),
             f"{core.name}.map": map_of(image, core, program), f"{core.name}_tb.v": bench_of(core, made.fill_last)}
    for name, file in core.memories():
        if name in files.first:
            texts[files.first[name]] = first_lines(file)
    return texts
