"""Chains of sections whose coefficients a host changes while they run, by two control words: an index and a value."""
from __future__ import annotations

from collections.abc import Sequence
from dataclasses import dataclass

from silc.designing import writing
from silc.designing.filters import Section, moved, response, shares_for
from silc.designing.finished import Wanted, order_of, said_of_move
from silc.designing.scaling import Form, Norm, Rounding, Unscaled, check_poles, no_place
from silc.designing.shapes import Shape

# The names of the coefficients in the order of their indices, and the type of the index.
COEFFICIENTS = ("b0", "b1", "b2", "a1", "a2")
ZEROS, POLES = 3, 2
INDEX = Shape(8, 0)
MOST_SECTIONS = INDEX.greatest + 1 - len(COEFFICIENTS)


@dataclass(frozen=True)
class Live:
    """Sections with the words that their coefficients have at the start, and the shapes of all words."""
    coefficient: Shape
    input: Shape
    signal: Shape
    sections: tuple[tuple[int, ...], ...]

    def names(self) -> list[str]:
        """The arrays of coefficients, in the order in which they are handed on."""
        return [f"{letter}{number}" for number in range(1, len(self.sections) + 1) for letter in "ba"]


def live_words(section: Section, shape: Shape, named: str) -> tuple[int, ...]:
    """The words of a section's five coefficients."""
    numbers = dict(zip(COEFFICIENTS, (*section.b, *section.a)))
    for name, number in numbers.items():
        if not shape.has(shape.nearest(number)):
            raise Unscaled(f"{named}: {no_place(name, number, shape)}")
    return tuple(shape.nearest(number) for number in numbers.values())


def section_of(words: Sequence[int], shape: Shape) -> Section:
    """A section in real numbers, by the words of its coefficients."""
    numbers = [shape.value(word) for word in words]
    return Section(tuple(numbers[:ZEROS]), tuple(numbers[ZEROS:]))


def check_wanted(wanted: Wanted, sections: Sequence[Section]) -> None:
    """Raises what a live chain does not have."""
    if not sections:
        raise Unscaled("--live changes the coefficients of bands, and there is no --band")
    if len(sections) > MOST_SECTIONS:
        raise Unscaled(f"--live has up to {MOST_SECTIONS} sections, and these bands have {len(sections)}")
    if wanted.signal is None or not wanted.has_places:
        raise Unscaled("--live takes --signal W,F with the places too: what a host writes is not known, so that "
                       "nothing can be scaled by it")
    if (wanted.form, wanted.rounding) != (Form.DIRECT, Rounding.NEAREST):
        raise Unscaled("--live is in direct form I and rounds to the nearest word")
    if wanted.norm not in (Norm.SUM, Norm.NONE):
        raise Unscaled("--live scales nothing, by no norm")
    if wanted.signal.whole_bits < wanted.input.whole_bits:
        raise Unscaled(f"the input has a greater range than {wanted.signal}")


def made_live(wanted: Wanted, sections: list[Section]) -> tuple[Live, list[str]]:
    """The sections with their words, and what the comment of the source says."""
    check_wanted(wanted, sections)
    gain, ordered = order_of(sections, wanted)
    first, *rest = ordered
    ordered = [Section(tuple(gain * b for b in first.b), first.a, first.place), *rest]
    words = [live_words(section, wanted.shape, section.place or f"section {number}")
             for number, section in enumerate(ordered, 1)]
    made = [section_of(one, wanted.shape) for one in words]
    for number, (section, before) in enumerate(zip(made, ordered), 1):
        check_poles(section, before.place or f"section {number}")
    shares = shares_for([*sections, *made])
    move = moved([abs(response(sections, share)) for share in shares], [abs(response(made, share)) for share in shares])
    assert wanted.signal
    live = Live(wanted.shape, wanted.input, wanted.signal, tuple(words))
    return live, [
        f"{wanted.title}, as {writing.counted(len(made), 'section')} in direct form I, whose coefficients a host "
        "changes while the filter runs.",
        f"Asked: {wanted.asked}",
        f"Made: coefficients in {live.coefficient}, signals in {live.signal}, which saturate. Nothing is certified of "
        "them: a host may write any coefficients.",
        said_of_move(move).replace("Response: it moved", "Response: at the start it moved")]


# How a host turns a band


def turns_of(sections: Sequence[Section], first: int, shape: Shape) -> list[tuple[int, int]]:
    """The control words, an index and a value in one sample, by which sections from a number on, from 1, become these:
    for each its five words and then the index at which it takes them."""
    last = first + len(sections) - 1
    if not sections or last > MOST_SECTIONS:
        raise Unscaled(f"--turn {first}: there is no --band" if not sections else
                       f"--turn {first}: a live chain has up to {MOST_SECTIONS} sections")
    made: list[tuple[int, int]] = []
    for number, section in enumerate(sections, first):
        words = live_words(section, shape, section.place or f"section {number}")
        check_poles(section_of(words, shape), section.place)
        made += [*enumerate(words), (len(COEFFICIENTS) + number - 1, 0)]
    return made


# Its parts


def tables_of(live: Live) -> str:
    """The tables of indices."""
    said = (f"What index says: from 0 to {len(COEFFICIENTS) - 1} that value is the next {', '.join(COEFFICIENTS)} of a "
            f"section, which nothing uses yet; and from {len(COEFFICIENTS)} on that a section takes all five. At any "
            "other index nothing changes.")
    takes = range(len(COEFFICIENTS), len(COEFFICIENTS) + len(live.sections))
    return (writing.comment([said]) + index_table("next_at", range(len(COEFFICIENTS)))
            + index_table("takes_at", takes))


def index_table(name: str, indices: Sequence[int]) -> str:
    return f"const {name}[{len(indices)}] : {INDEX} = ({', '.join(map(str, indices))});\n"


def section_function(live: Live) -> str:
    """The function of a section, whose words saturate."""
    c, s = live.coefficient, live.signal
    return writing.function(
        "One section, in direct form I. Products are rounded, and no word passes the range",
        f"func biquad(x : {s}, b[{ZEROS}] : {c}, a[{POLES}] : {c}) y : fix<{s.width},{s.places},round,sat>", [],
        ["y = b[0] * x + b[1] * x@1 + b[2] * x@2 - a[0] * y@1 - a[1] * y@2;"])


def bands_function(live: Live, of: str) -> str:
    """The function of all sections in a row, whose result has some type."""
    count, s = len(live.sections), live.signal
    parameters = [f"x : {live.input}", *(f"{name}[{ZEROS if name[0] == 'b' else POLES}] : {live.coefficient}"
                                         for name in live.names())]
    head = writing.wrapped([f"{one}," for one in parameters[:-1]] + [f"{parameters[-1]})"], "func bands(")
    first = "x" if live.input == s else f"{s}(x)"
    lines = [f"s[0] = {first};",
             *(f"s[{n}] = biquad(s[{n - 1}], b{n}, a{n});" for n in range(1, count + 1)),
             f"y = {f's[{count}]' if of == str(s) else f'{of}(s[{count}])'};"]
    body = "".join(f"  {line}\n" for line in lines)
    return f"{head} y : {of} =\nbegin\n  var s[{count + 1}] : fix<{s.width},{s.places},round,sat>;\n{body}end;\n"


def parameters_of(live: Live) -> list[str]:
    """The control words of main."""
    return [f"index : {INDEX}", f"value : {live.coefficient}"]


def variables_of(live: Live) -> list[str]:
    """The declarations of what keeps the coefficients."""
    count = len(live.sections)
    arrays = [", ".join(f"{letter}{number}[{size}]" for number in range(1, count + 1))
              for letter, size in (("b", ZEROS), ("a", POLES))]
    return [f"next[{len(COEFFICIENTS)}] : {live.coefficient}", f"takes[{count}] : bool",
            *(f"{names} : {live.coefficient}" for names in arrays)]


def lines_of(live: Live) -> list[str]:
    """The equations that keep the coefficients, and their first words."""
    numbers = range(1, len(live.sections) + 1)
    made = [*loop(len(COEFFICIENTS), ["next[k] = if index == next_at[k] -> value || next[k]@1 fi;"]),
            *loop(len(live.sections), ["takes[k] = index == takes_at[k];"])]
    for letter, size, shift in (("b", ZEROS, ""), ("a", POLES, f"+{ZEROS}")):
        made += loop(size, [f"{letter}{n}[k] = if takes[{n - 1}] -> next[k{shift}] || {letter}{n}[k]@1 fi;"
                            for n in numbers])
    for number, words in zip(numbers, live.sections):
        names = [f"b{number}[{k}]" for k in range(ZEROS)] + [f"a{number}[{k}]" for k in range(POLES)]
        made += [f"{name}@@1 = {live.coefficient.text(word)};" for name, word in zip(names, words) if word]
    return made


def loop(count: int, lines: Sequence[str]) -> list[str]:
    return [f"(k : 0 .. {count - 1}) :: begin", *(f"  {line}" for line in lines), "end;"]


def saturated(shape: Shape) -> str:
    """The type of a result that a chain without a limiter has: words of the input's shape, which saturate."""
    return f"fix<{shape.width},{shape.places},round,sat>"
