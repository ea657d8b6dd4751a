"""The structural hazards that an image has whatever its samples are: all but an address outside of its memory."""
from collections import Counter
from collections.abc import Iterable, Iterator
from typing import TypeVar

from silc.micro_file.image import MOST_LATENCY, Image, Issue

Thing = TypeVar("Thing")

FILES_OF_A_UNIT = 4


def most_often(things: Iterable[Thing]) -> list[Thing]:
    """Those that stand there more than once."""
    return [thing for thing, count in Counter(things).items() if count > 1]


def issue_at(image: Image, cycle: int, unit: int) -> Issue | None:
    """What the unit is issued in a cycle since the start of the run, if anything."""
    return image.words[cycle % image.circle()].issues.get(unit) if cycle >= 0 else None


def has_result(image: Image, cycle: int, unit: int) -> bool:
    issue = issue_at(image, cycle - image.units[unit].latency + 1, unit)
    return issue is not None and issue.gives()


def hazards_at(image: Image, cycle: int) -> Iterator[tuple[str, list[int]]]:
    """Each kind of hazard with its places in this cycle, in the order of docs/MACHINE.md."""
    word = image.words[cycle % image.circle()]
    driven = {bus for _, bus in word.enables}
    yield "busy", [unit for unit in word.issues
                   if any(issue_at(image, cycle - back, unit) for back in range(1, image.units[unit].gap))]
    yield "two drivers", most_often(bus for _, bus in word.enables)
    yield "file twice", most_often(FILES_OF_A_UNIT * take.unit + take.port for take in word.takes)
    yield "no driver", [take.bus for take in word.takes if take.bus not in driven]
    yield "no result", [unit for unit, _ in word.enables if not has_result(image, cycle, unit)]


def lasting_hazard(image: Image) -> tuple[int, str, int] | None:
    """The first hazard of a run that has gone on for as long as anything is under way, or nothing: that of a guarded
    image, in which what is under way in the first cycles is left out."""
    begin = image.circle() * MOST_LATENCY
    return hazard_in(image, range(begin, begin + image.circle()))


def first_hazard(image: Image) -> tuple[int, str, int] | None:
    """The first hazard of a run without end, as (cycle, kind, place), or nothing. A cycle depends on the latest
    MOST_LATENCY cycles before it, so that all hazards come in the first circle or in as many cycles behind it."""
    return hazard_in(image, range(image.circle() + MOST_LATENCY))


def hazard_in(image: Image, cycles: range) -> tuple[int, str, int] | None:
    for cycle in cycles:
        for kind, places in hazards_at(image, cycle):
            if places:
                return cycle, kind, min(places)
    return None
