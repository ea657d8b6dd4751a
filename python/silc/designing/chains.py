"""Chains of bands with what stands behind them: a soft limiter, dither, and a second channel through the same
function. A host may change the coefficients of a live one while it runs."""
from __future__ import annotations

from dataclasses import dataclass
from fractions import Fraction

from silc.designing import live, writing
from silc.designing.filters import Section
from silc.designing.finished import Wanted, made_cascade
from silc.designing.shapes import WIDEST, Shape

# The limiter: what goes in is cut at 3/2, and 4/27 of its cube is taken off, so that it comes out as 1 and level.
CUT, SHARE, SHARE_SHAPE = "1.5", Fraction(4, 27), Shape(20, 20)
# The bits of the noise: b[n] = b[n-31] xor b[n-28], from a 1 behind thirty 0s.
LENGTH, TAP = 31, 28
LEAST_DITHER = 2


class Unchained(ValueError):
    """Why a chain can't be made."""


@dataclass(frozen=True)
class Tail:
    """What stands behind the bands of a chain."""
    is_limited: bool = False
    dither: Shape | None = None
    is_stereo: bool = False
    is_live: bool = False


@dataclass(frozen=True)
class Stage:
    """A function of a chain: its name and text, the shape of its result, and what it is given beside a word."""
    name: str
    text: str
    of: Shape
    given: tuple[str, ...] = ()


@dataclass(frozen=True)
class Knobs:
    """What main has for coefficients that a host changes: its control words, variables and equations."""
    parameters: tuple[str, ...] = ()
    variables: tuple[str, ...] = ()
    lines: tuple[str, ...] = ()


def mode(shape: Shape, modes: str) -> str:
    return f"fix<{shape.width},{shape.places},{modes}>"


# The limiter


def limiter(before: Shape) -> Stage:
    """A soft limiter of words of a shape."""
    places = before.places
    if places + 3 > WIDEST:
        raise Unchained(
            f"--limit: the square of a word of {before} needs {places + 3} bits, and a word has {WIDEST} at most")
    made, cut, square = Shape(places + 1, places), Shape(places + 2, places), Shape(places + 3, places)
    within = f"if x > {CUT} -> {CUT} || x < -{CUT} -> -{CUT} || {cut}(x) fi" if before.whole_bits > 1 else f"{cut}(x)"
    share = SHARE_SHAPE.text(SHARE_SHAPE.nearest(SHARE))
    said = ["A soft limiter: v - 4/27 v^3 of the input v, which is cut at 1.5 and -1.5. Small words stay as they are, "
            "and the "
            "curve is level where it ends, at 1 and -1."]
    return Stage("soft_limit", f"""\
{writing.comment(said)}const cubic : {SHARE_SHAPE} = {share};
func soft_limit(x : {before}) y : {mode(made, 'round,sat')} =
begin
  var v : {cut};
  var square : {mode(square, 'round')};
  var gain : {mode(cut, 'round')};
  v = {within};
  square = v * v;
  gain = 1.0 - cubic * square;
  y = v * gain;
end;
""", made)


# Dither


def dropped(before: Shape, after: Shape) -> int:
    """How many bits dither brings a word down by."""
    bits = before.places - after.places
    if bits < LEAST_DITHER or before.width == WIDEST:
        raise Unchained(f"--dither: words of {before} have to lose {LEAST_DITHER} bits or more behind the point, and "
                        f"to have "
                        f"less than {WIDEST}; {after} takes {bits}")
    return bits


def dither(before: Shape, after: Shape) -> Stage:
    """Brings words from one shape to another, with noise that comes in beside them."""
    sum_shape = Shape(before.width + 1, before.places)
    said = ["Adds the difference of two words of noise in a row, up to one last bit of the output each way, before the "
            "word is "
            "rounded: the error is noise then, whose mean and power do not go with what comes in."]
    return Stage("dither", f"""\
{writing.comment(said)}func dither(x : {before}, noise : {before}) y : {mode(after, 'round,sat')} =
begin
  var sum : {sum_shape};
  sum = {sum_shape}(x) + {sum_shape}(noise) - {sum_shape}(noise@1);
  y = {mode(after, 'round,sat')}(sum);
end;
""", after)


def bit_before(bit: int, back: int, count: int) -> str:
    """The bit of noise so many bits before one of this sample's."""
    turns, place = divmod(bit - back, count)
    return f"bit[{place}]" + (f"@{-turns}" if turns else "")


def noise_lines(of: Shape, bits: int, channels: int) -> list[str]:
    """The equations of a word of noise for each channel, of bits of its own."""
    count = bits * channels
    lines = []
    for bit in range(count):
        first, second = (bit_before(bit, back, count) for back in (LENGTH, TAP))
        lines.append(f"bit[{bit}] = ({first} | {second}) & !({first} & {second});")
    back = -(-LENGTH // count)
    lines.append(f"bit[{back * count - LENGTH}]@@{back} = true;")
    for channel in range(channels):
        words = [f"(if bit[{channel * bits + place}] -> {of.text(1 << place)} || 0.0 fi)" for place in range(bits)]
        lines.append(f"noise[{channel}] = {' + '.join(words)};")
    return lines


# The whole


def channel_lines(stages: list[Stage], channel: int, own: str, out: str) -> list[str]:
    """The calls of all stages on a channel's word."""
    lines, word = [], own
    for number, stage in enumerate(stages):
        target = out if number == len(stages) - 1 else f"{own}{number + 1}"
        noise = [f"noise[{channel}]"] if stage.name == "dither" else []
        lines.append(f"{target} = {stage.name}({', '.join([word, *stage.given, *noise])});")
        word = target
    return lines


def main_function(stages: list[Stage], of: Shape, tail: Tail, knobs: Knobs = Knobs()) -> str:
    """The function that calls all stages, for each channel."""
    names = [("left", "left_out"), ("right", "right_out")] if tail.is_stereo else [("x", "y")]
    taken, given = ([f"{name} : {shape}" for name in column]
                    for column, shape in zip(zip(*names), (of, stages[-1].of)))
    variables = [f"{', '.join(f'{own}{number}' for own, _ in names)} : {stage.of}"
                 for number, stage in enumerate(stages[:-1], 1)]
    variables += knobs.variables
    lines = [*knobs.lines]
    if tail.dither:
        before = stages[-2].of if len(stages) > 1 else of
        bits = dropped(before, tail.dither)
        variables += [f"bit[{bits * len(names)}] : bool", f"noise[{len(names)}] : {before}"]
        lines += noise_lines(before, bits, len(names))
    for channel, (own, out) in enumerate(names):
        lines += channel_lines(stages, channel, own, out)
    body = "".join(f"  var {variable};\n" for variable in variables)
    return f"{head_of([*taken, *knobs.parameters], given)} =\nbegin\n{body}" + "".join(
        f"{writing.wrapped(line.split(), indent(line))}\n" for line in lines) + "end;\n"


def head_of(parameters: list[str], results: list[str]) -> str:
    """The head of main, in two lines where one is too long."""
    head, made = f"func main({', '.join(parameters)})", ", ".join(results)
    made = f"({made})" if len(results) > 1 else made
    return f"{head}{' ' if len(head) + len(made) + 3 <= writing.COLUMNS else chr(10) + '  '}{made}"


def indent(line: str) -> str:
    """The blanks before a line of a function."""
    return " " * (2 + len(line) - len(line.lstrip()))


def tail_stages(before: Shape, tail: Tail) -> list[Stage]:
    """The stages behind the bands."""
    made = [limiter(before)] if tail.is_limited else []
    if tail.dither:
        from_shape = made[-1].of if made else before
        dropped(from_shape, tail.dither)
        made.append(dither(from_shape, tail.dither))
    return made


def chain_source(wanted: Wanted, sections: list[Section], tail: Tail) -> tuple[str, bool]:
    """The source of bands and of what stands behind them, and whether all that its comment says is certified."""
    if not sections and not tail.is_live:
        stages = tail_stages(wanted.input, tail)
        if not stages:
            raise Unchained("nothing is asked for: no --band, no --limit and no --dither")
        said = [f"{wanted.title}.", f"Asked: {wanted.asked}"]
        texts = [*(stage.text for stage in stages), main_function(stages, wanted.input, tail)]
        return writing.comment(said) + "\n" + "\n".join(texts), True
    if tail.is_live:
        return live_source(wanted, sections, tail), True
    cascade, said = made_cascade(wanted, sections)
    is_bound = cascade.certificate.is_bound
    behind = tail_stages(cascade.shapes.signal, tail)
    if not behind and not tail.is_stereo:
        return writing.cascade_source(said, cascade, wanted.form), is_bound
    tables, functions, bands = writing.cascade_parts(cascade, wanted.form, "bands")
    stages = [Stage("bands", bands, cascade.shapes.signal), *behind]
    texts = [functions, *(stage.text for stage in stages), main_function(stages, wanted.input, tail)]
    return f"{writing.comment(said)}{tables}\n" + "\n".join(texts), is_bound


def live_source(wanted: Wanted, sections: list[Section], tail: Tail) -> str:
    """The source of bands whose coefficients a host changes while they run, and of what stands behind them."""
    made, said = live.made_live(wanted, sections)
    behind = tail_stages(made.signal, tail)
    of = made.signal if behind else made.input
    bands = live.bands_function(made, str(of) if behind or of == made.signal else live.saturated(of))
    stages = [Stage("bands", bands, of, tuple(made.names())), *behind]
    knobs = Knobs(tuple(live.parameters_of(made)), tuple(live.variables_of(made)), tuple(live.lines_of(made)))
    texts = [live.section_function(made), *(stage.text for stage in stages),
             main_function(stages, wanted.input, tail, knobs)]
    return f"{writing.comment(said)}{live.tables_of(made)}\n" + "\n".join(texts)
