"""The files of a net in Verilog: those of its cores, the module that joins them, a map, and a bench."""
from __future__ import annotations

from silc.hardware.bench import bench_of
from silc.hardware.core_files import files_of, shown_range
from silc.hardware.core_text import fill_last_of
from silc.hardware.datapath import Names, names_of
from silc.hardware.net_text import NetText
from silc.hardware.netlist import Core, core_for_image
from silc.micro_file.image import Image
from silc.microcode import check_name, checked_image
from silc.nets import Net, NetFile


def map_of(made: NetText) -> str:
    """What each port of the net holds, and which rows go through which queue."""
    lines = [f"net {made.name}: {len(made.cores)} cores, queues of {made.net.capacity} rows"]
    for kind, ports in (("in", made.inputs), ("out", made.cores[-1].outputs)):
        lines += [f"{kind}_{place}: {shown_range(words)}" for place, words in enumerate(ports)]
    for number, core in enumerate(made.cores):
        lines.append(f"core {core.name}: processor {number}, {core.period} cycles a sample")
    for queue in made.queues:
        of = "the net's row" if queue.producer is None else f"the row of core {queue.producer}"
        words = ", ".join(f"word {word} in {words.bits()} bits" for word, words in queue.words.items())
        lines.append(f"queue {queue.name}: {words} of {of}, for core {queue.reader}")
    return "".join(line + "\n" for line in lines)


def texts_of(net: NetFile, images: list[tuple[Image, Names]], name: str) -> dict[str, str]:
    """The text of each file by its name, for the image of each processor with the names of its units and buses."""
    cores: list[Core] = []
    texts: dict[str, str] = {}
    for number, (whole, names) in enumerate(images):
        image, core = core_for_image(whole, f"{name}_{number}", names)
        cores.append(core)
        texts |= files_of(image, core)
        del texts[f"{core.name}_tb.v"]
    made = NetText(name, net, cores)
    bench = bench_of(made.core(), max(map(fill_last_of, cores)), len(cores))
    return texts | {f"{name}.v": made.text(), f"{name}.map": map_of(made), f"{name}_tb.v": bench}


def net_texts(net: Net, name: str) -> dict[str, str]:
    """The same for a net, whose processors `silc` plans. Equal files give equal texts."""
    check_name(name)
    images = []
    for plan in net.plans:
        image = checked_image(plan.microcode.data)
        images.append((image, names_of(plan.content.decode(), image)))
    return texts_of(net.file, images, name)
