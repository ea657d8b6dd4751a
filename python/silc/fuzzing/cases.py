"""The cases of each kind: files by a seed and a number, and what has to hold for the program on them.

A case is told by its kind, its seed and its number, and is made again from these three.
"""
import random
import re
import tomllib
from dataclasses import dataclass
from random import Random

from silc.fuzzing import damage, datapaths, images, plans, samples, sources
from silc.fuzzing.running import CONFLICT, DONE, SAMPLES, Ended, Room
from silc.micro_file import NEWEST, VERSIONS, BadImage, bytes_of, image_of
from silc.sure import sure

KINDS = ("sources", "datapaths", "microcode", "samples", "damaged")
ALL = "all"
OLDER = [None, None, b"older\n"]
PLACE_OF_VERSION = 4
# Places that a text of the same program may have elsewhere.
PLACE = re.compile(rb"line \d+: ")
BAD_ROW = re.compile(rb"silc: samples line (\d+) byte \d+\n")
AT_CYCLE = re.compile(rb"silc: conflict at cycle (\d+): ")
PLACE_IN_FILE = re.compile(rb"silc: (short|bad field|trailing bytes) at (\d+)\n")
HEAD = re.compile(rb"period (\d+) unroll \d+ inputs (\d+) outputs (\d+) ")
INCREMENT = b"func main(x : fix<8,0>) y : fix<8,0> = begin y = x + 1; end;\n"


@dataclass(frozen=True)
class Case:
    kind: str
    seed: str
    number: int

    def again(self) -> str:
        return f"tools/fuzz {self.kind} {self.seed} 1 --case {self.number}"

    def run(self, room: Room) -> None:
        """Makes the files of the case in the room, and raises Broken where something does not hold."""
        kind = KINDS[self.number % len(KINDS)] if self.kind == ALL else self.kind
        rng = random.Random(f"{self.kind} {self.seed} {self.number}")
        {"sources": of_source, "datapaths": of_datapath, "microcode": of_microcode, "samples": of_samples,
         "damaged": of_damaged}[kind](room, rng)


# Kinds


def of_source(room: Room, rng: Random) -> None:
    """A program, or one that is damaged, on an ample datapath."""
    source = sources.Program(rng, rng.choice([8, 16, 16, 32, 40])).source()
    text = source.text.encode()
    if rng.random() < 0.35:
        text = damage.of_text(rng, text)
    path = datapaths.text_of(datapaths.Maker(rng, True).datapath(), rng).encode()
    rows = samples.text_of(rng, samples.rows_of(rng, source.inputs))
    check_program(room, rng, text, path, rows)


def of_datapath(room: Room, rng: Random) -> None:
    """A datapath of any size, or one that is damaged, and a program that often has a place there."""
    source = sources.Program(rng, 16).source() if rng.random() < 0.6 else sources.Source(INCREMENT.decode(), [], [])
    path = datapaths.text_of(datapaths.Maker(rng, rng.random() < 0.3).datapath(), rng).encode()
    if rng.random() < 0.5:
        path = damage.of_text(rng, path)
    rows = samples.text_of(rng, samples.rows_of(rng, source.inputs)) if source.inputs else b"0\n127\n-128\n"
    check_program(room, rng, source.text.encode(), path, rows)


def of_samples(room: Room, rng: Random) -> None:
    """Rows in any way of writing them, often with a damage; a program that puts each word as it is."""
    if rng.random() < 0.5:
        source, is_identity = sources.Program(rng, 16).source(), False
    else:
        source, is_identity = identity(rng), True
    rows = samples.rows_of(rng, source.inputs)
    text = samples.text_of(rng, rows)
    is_whole = rng.random() < 0.4
    if not is_whole:
        text = samples.damaged(rng, text, source.inputs)
    path = datapaths.text_of(datapaths.Maker(rng, True).datapath(), rng).encode()
    solved = check_program(room, rng, source.text.encode(), path, text)
    if is_whole:
        room.expect(solved.code == DONE, f"whole samples are refused: {solved.line!r}")
        if is_identity:
            room.expect(solved.out == samples.plain(rows), "the words of whole samples do not come back")


def identity(rng: Random) -> sources.Source:
    types = [sources.BOOL if rng.random() < 0.2 else sources.Type(rng.randint(1, 40)) for _ in range(rng.randint(1, 5))]
    inputs = ", ".join(f"x{number} : {type_.text(rng)}" for number, type_ in enumerate(types))
    outputs = ", ".join(f"y{number} : {type_.text(rng)}" for number, type_ in enumerate(types))
    lines = " ".join(f"y{number} = x{number};" for number in range(len(types)))
    return sources.Source(f"func main({inputs}) ({outputs}) = begin {lines} end;\n", types, types)


def of_microcode(room: Room, rng: Random) -> None:
    """Microcode without a conflict, with one, or with other bytes."""
    image = images.Image(rng)
    is_sound = rng.random() < 0.5
    if not is_sound:
        image.spoil()
    finished = image.finished()
    data = bytes_of(finished, rng.choice(VERSIONS))
    is_damaged = rng.random() < 0.4
    if is_damaged:
        data = damage.of_microcode(rng, data)
    rows = samples.rows_of(rng, image.inputs)
    text = samples.text_of(rng, rows)
    if rng.random() < 0.1:
        text = samples.damaged(rng, text, image.inputs)
        is_sound = False
    room.put("MIC", data)
    listed = room.silc("list", "MIC")
    ran = check_rows(room, rng, "SAMPLES", text, "sim", "MIC")
    check_microcode(room, data, listed, ran)
    if not is_damaged:
        room.expect(listed.code == DONE, f"an image is refused: {listed.line!r}")
        room.expect(listed.printed.decode() == finished.listing(), "the listing is another than that of the image")
        room.expect(not is_sound or ran.code == DONE, f"an image without a conflict ends with {ran.line!r}")


def of_damaged(room: Room, rng: Random) -> None:
    """Microcode with other bytes or bits, in each version as often as in the other, and a few rows."""
    image = images.Image(rng)
    data = damage.of_microcode(rng, bytes_of(image.finished(), rng.choice(VERSIONS)))
    room.put("MIC", data)
    room.put("SAMPLES", samples.plain(samples.rows_of(rng, image.inputs)))
    check_microcode(room, data, room.silc("list", "MIC"), room.silc("sim", "MIC", "SAMPLES", "ROWS", out="ROWS"))


# What has to hold


def check_microcode(room: Room, data: bytes, listed: Ended, ran: Ended) -> None:
    """`list` and `sim` take or refuse bytes alike: what the table of their fields has is taken and listed. The place of
    a fault is in the file, or at its end where that comes too early. In the other version `list` says and `sim` does
    the same."""
    room.expect(ran.code == 10 or listed.code == DONE, "sim takes what list refuses")
    room.expect(ran.code != 10 or ran.said() == listed.said(), "list and sim refuse the microcode in two ways")
    place = PLACE_IN_FILE.fullmatch(listed.line)
    if place:
        is_short, at = place[1] == b"short", int(place[2])
        room.expect(at == len(data) if is_short else at < len(data), f"no place of {len(data)} bytes: {listed.line!r}")
    try:
        image = image_of(data)
    except BadImage as fault:
        expected = f"silc: {fault.refusal()}\n".encode()
        room.expect(expected == listed.line, f"it is refused otherwise than by the table of its fields: {expected!r}")
        return
    room.expect(listed.code == DONE, f"what the table of the fields has is refused: {listed.line!r}")
    room.expect(listed.printed.decode() == image.listing(), "the listing is another than that of the fields")
    room.put("OTHER", bytes_of(image, sum(VERSIONS) - data[PLACE_OF_VERSION]))
    room.expect(room.silc("list", "OTHER") == listed, "in the other version the listing is another")
    other = room.silc("sim", "OTHER", "SAMPLES", "ROWS", out="ROWS")
    room.expect((other.said(), other.out) == (ran.said(), ran.out), f"in the other version it ends with {other.line!r}")


def check_program(room: Room, rng: Random, source: bytes, path: bytes, rows: bytes) -> Ended:
    """The ways to plan and to run a program agree. Gives how `eval` ended."""
    room.put("SRC", source)
    room.put("DP", path)
    solved = check_rows(room, rng, "SAMPLES", rows, "eval", "SRC")
    planned = room.silc("schedule", "SRC", "DP")
    made = room.silc("compile", "SRC", "DP", "MIC", out="MIC", before=rng.choice(OLDER))
    ran = room.silc("run", "SRC", "DP", "SAMPLES", "OUT", out="OUT", before=rng.choice(OLDER))
    room.expect(made.said() == planned.said(), "compile and schedule end in two ways")
    room.expect((solved.code == 4) == (made.code == 4), "eval and compile do not take the same sources")
    room.expect(made.code != 4 or solved.said() == made.said(), "eval and compile refuse the source in two ways")
    if made.code != DONE:
        room.expect(ran.said() == made.said(), "run and compile end in two ways")
    else:
        room.expect(ran == solved, "run and eval differ")
        simulated = room.silc("sim", "MIC", "SAMPLES", "SIMULATED", out="SIMULATED", before=rng.choice(OLDER))
        room.expect(simulated == solved, "sim of the compiled microcode and eval differ")
        check_plan(room, planned.printed.decode(), path)
    check_text(room, made)
    return solved


def check_rows(room: Room, rng: Random, name: str, rows: bytes, command: str, *inputs: str) -> Ended:
    """How a command on samples ends. What it leaves after a bad row or a conflict are the rows before."""
    room.put(name, rows)
    ended = room.silc(command, *inputs, name, "ROWS", out="ROWS", before=rng.choice(OLDER))
    if ended.code not in (SAMPLES, CONFLICT):
        return ended
    count = rows_before(room, ended, inputs)
    lines = rows.split(b"\n")
    room.put("FIRST", b"".join(line + b"\n" for line in lines[:count]))
    first = room.silc(command, *inputs, "FIRST", "ROWS", out="ROWS")
    if not room.programs.keeps_rows:
        # All rows are read before the first is run, so an earlier conflict may show where the bad row is away.
        room.expect(first.code == DONE or ended.code == SAMPLES and first.code == CONFLICT,
                    f"the {count} rows before the fault end with {first.line!r}")
        return ended
    room.expect(first.code == DONE, f"the {count} rows before the fault end with {first.line!r}")
    room.expect(first.out == ended.out, f"OUT does not have the {count} rows before the fault")
    if count + 1 < len(lines):
        room.put("FIRST", b"".join(line + b"\n" for line in lines[:count + 1]))
        room.expect(room.silc(command, *inputs, "FIRST", "ROWS", out="ROWS") == ended,
                    f"the first {count + 1} rows end in another way than all of them")
    return ended


def rows_before(room: Room, ended: Ended, inputs: tuple[str, ...]) -> int:
    """How many rows come before the one of the fault."""
    if ended.code == SAMPLES:
        return int(sure(BAD_ROW.fullmatch(ended.line))[1]) - 1
    period = int(sure(HEAD.match(room.silc("list", *inputs).printed))[1])
    return int(sure(AT_CYCLE.match(ended.line))[1]) // period


def check_plan(room: Room, plan: str, path: bytes) -> None:
    """The listing of the microcode is that of the plan."""
    listed = room.silc("list", "MIC")
    inputs, outputs = sure(HEAD.match(listed.printed)).groups()[1:]
    try:
        expected = plans.image_of_plan(plan, path.decode(), int(inputs), int(outputs)).listing()
    except (tomllib.TOMLDecodeError, UnicodeDecodeError):
        return
    room.expect(listed.printed.decode() == expected, "list and schedule do not say the same plan")
    data = sure(room.bytes_of("MIC"))
    room.expect(bytes_of(image_of(data), NEWEST) == data, f"compile does not write version {NEWEST}")


def check_text(room: Room, made: Ended) -> None:
    """The canonical text of a source is its own, and means the same."""
    text = sure(room.show("text", "SRC"))
    if text.startswith(b"fault "):
        room.expect(made.code == 4, f"the program takes a source without a text: {text[:100]!r}")
        return
    room.put("TEXT", text)
    room.expect(room.show("text", "TEXT") == text, "the canonical text is not its own")
    again = room.silc("compile", "TEXT", "DP", "AGAIN", out="AGAIN")
    room.expect(again.code == made.code and again.out == made.out, "a source and its text compile to other bytes")
    room.expect(PLACE.sub(b"", again.line) == PLACE.sub(b"", made.line),
                "a source and its text are refused in two ways")
