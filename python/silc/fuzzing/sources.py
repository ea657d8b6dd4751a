"""Random sources: programs of the language with functions, loops, arrays, tables, delays and initial values."""
from collections.abc import Callable
from dataclasses import dataclass, field
from random import Random

from silc.fuzzing.expressions import BOOL, MODES, Expressions, Signal, Type, number

MOST_WORDS = 16


@dataclass
class Source:
    text: str
    inputs: list[Type]
    outputs: list[Type]


@dataclass
class Function:
    name: str
    params: list[Signal]
    results: list[Signal]
    lines: list[str] = field(default_factory=list)
    locals: list[Signal] = field(default_factory=list)

    def text(self, rng: Random) -> str:
        results = " , ".join(signal.declared(rng) for signal in self.results)
        if len(self.results) > 1 or rng.random() < 0.2:
            results = f"( {results} )"
        params = " , ".join(signal.declared(rng) for signal in self.params)
        kinds: dict[Type, list[Signal]] = {}
        for signal in self.locals:
            kinds.setdefault(signal.type, []).append(signal)
        vars_ = [f"var {' , '.join(signal.declared_name() for signal in some)} : {type_.text(rng)} ;"
                 for type_, some in kinds.items()]
        return "\n".join([f"func {self.name} ( {params} ) {results} =", "begin", *vars_, *self.lines, "end ;"])


class Names:
    """Names that no other has."""

    def __init__(self, rng: Random) -> None:
        self.rng, self.count = rng, 0

    def new(self, start: str) -> str:
        self.count += 1
        return self.rng.choice([f"{start}{self.count}", f"{start}_{self.count}", f"_{start}{self.count}"])


class Program:
    """A program that is made part by part. Functions call only those made before."""

    def __init__(self, rng: Random, widest: int = 16) -> None:
        self.rng, self.names = rng, Names(rng)
        places = rng.randint(0, min(12, widest))
        common = rng.randint(max(4, places), widest)
        self.shapes = [Type(common, places, rng.choice(MODES))] * 3
        for _ in range(rng.randint(0, 2)):
            width = rng.randint(1, widest)
            self.shapes.append(Type(width, rng.randint(0, width), rng.choice(MODES)))
        self.longest_delay = rng.choice([1, 1, 2, 3, 5, 12, 40])
        self.tables = [self.table() for _ in range(rng.choice([0, 0, 1, 2]))]
        self.functions: list[Function] = []

    def type_(self) -> Type:
        return BOOL if self.rng.random() < 0.12 else self.rng.choice(self.shapes)

    def dims(self, most: int = 6) -> tuple[int, ...]:
        roll = self.rng.random()
        if roll < 0.6:
            return ()
        return (self.rng.randint(1, most),) if roll < 0.9 else (self.rng.randint(1, 3), self.rng.randint(1, 3))

    def signal(self, start: str, dims: tuple[int, ...] | None = None) -> Signal:
        return Signal(self.names.new(start), self.dims() if dims is None else dims, self.type_())

    def table(self) -> tuple[Signal, str]:
        signal = Signal(self.names.new("h"), self.dims(), self.rng.choice(self.shapes))
        words = " , ".join(number(self.rng, signal.type) for _ in range(signal.elements()))
        words = f"( {words} )" if signal.dims or self.rng.random() < 0.3 else words
        return signal, f"const {signal.declared(self.rng)} = {words} ;"

    def signals(self, start: str, count: int) -> list[Signal]:
        """So many signals, with at most 16 words."""
        some: list[Signal] = []
        for _ in range(count):
            signal = self.signal(start)
            if sum(one.elements() for one in some) + signal.elements() <= MOST_WORDS:
                some.append(signal)
        return some or [self.signal(start, ())]

    def add_function(self, name: str) -> Function:
        rng = self.rng
        function = Function(name, self.signals("x", rng.randint(1, 3)), self.signals("y", rng.choice([1, 1, 2, 3])))
        Body(self, function).fill(rng.randint(0, 4 if name == "main" else 2))
        self.functions.append(function)
        return function

    def source(self) -> Source:
        rng = self.rng
        for _ in range(rng.choice([0, 0, 1, 1, 2, 3])):
            self.add_function(self.names.new("f"))
        main = self.add_function("main")
        parts = [text for _, text in self.tables] + [function.text(rng) for function in self.functions]
        rng.shuffle(parts)
        return Source(laid_out(rng, "\n".join(parts) + "\n"), channels(main.params), channels(main.results))


def channels(signals: list[Signal]) -> list[Type]:
    return [signal.type for signal in signals for _ in range(signal.elements())]


class Body:
    """The lines of a function. Each element is defined once, by signals that are defined before or read with a
    delay."""

    def __init__(self, program: Program, function: Function) -> None:
        self.program, self.function, self.rng = program, function, program.rng
        self.maker = Expressions(self.rng, program.shapes, program.longest_delay)
        self.maker.ready = list(function.params)
        self.maker.tables = [signal for signal, _ in program.tables]
        self.depth = self.rng.choice([1, 2, 2, 3])

    def fill(self, locals_count: int) -> None:
        rng, function, maker = self.rng, self.function, self.maker
        function.locals = [self.program.signal("v") for _ in range(locals_count)]
        maker.signals = function.params + function.results + function.locals
        waiting = function.results + function.locals
        rng.shuffle(waiting)
        blocks = []
        while waiting:
            call = self.by_call(waiting) if rng.random() < 0.3 else None
            done, lines = call or ([waiting[0]], self.definition(waiting[0]))
            waiting = [signal for signal in waiting if signal not in done]
            maker.ready = maker.ready + done
            blocks.append(lines)
        blocks += [self.initial(signal) for signal in maker.signals if rng.random() < 0.25]
        rng.shuffle(blocks)
        function.lines = [line for lines in blocks for line in lines]

    # Calls

    def by_call(self, waiting: list[Signal]) -> tuple[list[Signal], list[str]] | None:
        """The signals that a call defines, and the call, where a function has results of these types."""
        rng = self.rng
        callable_ = [function for function in self.program.functions if function is not self.function]
        for function in rng.sample(callable_, len(callable_)):
            places = self.places(function, waiting)
            arguments = places and self.arguments(function)
            if places and arguments:
                names = " , ".join(signal.name for signal in places)
                names = f"( {names} )" if len(places) > 1 else names
                return places, [f"{names} = {function.name} ( {' , '.join(arguments)} ) ;"]
        return None

    def places(self, function: Function, waiting: list[Signal]) -> list[Signal] | None:
        places = []
        for result in function.results:
            fits = [signal for signal in waiting if signal not in places
                    and signal.dims == result.dims and signal.type.shape == result.type.shape]
            if not fits:
                return None
            places.append(fits[0])
        return places

    def arguments(self, function: Function) -> list[str] | None:
        arguments = []
        for param in function.params:
            if param.dims:
                fits = [signal for signal in self.maker.ready + self.maker.tables
                        if signal.dims == param.dims and signal.type.shape == param.type.shape]
                if not fits:
                    return None
                arguments.append(self.rng.choice(fits).name)
            else:
                arguments.append(self.maker.of(param.type, self.depth - 1).text)
        return arguments

    # Definitions

    def equation(self, place: str, type_: Type) -> str:
        return f"{place} = {self.maker.of(type_, self.depth).text} ;"

    def definition(self, signal: Signal) -> list[str]:
        if not signal.dims:
            return [self.scalar_by_call(signal.name, signal) or self.equation(signal.name, signal.type)]
        ways = [self.one_by_one, self.by_loops]
        if len(signal.dims) == 1:
            ways += [self.by_recurrence, self.by_recurrence, self.by_two_loops]
        return self.rng.choice(ways)(signal)

    def scalar_by_call(self, place: str, signal: Signal) -> str | None:
        """A call of a function with one scalar result, where there is one of this type."""
        fits = [function for function in self.program.functions if len(function.results) == 1
                and not function.results[0].dims and function.results[0].type.shape == signal.type.shape
                and function is not self.function]
        if not fits or self.rng.random() < 0.5:
            return None
        function = self.rng.choice(fits)
        arguments = self.arguments(function)
        return f"{place} = {function.name} ( {' , '.join(arguments)} ) ;" if arguments else None

    def one_by_one(self, signal: Signal) -> list[str]:
        places = [signal.name]
        for dim in signal.dims:
            places = [f"{place} [ {k} ]" for place in places for k in range(dim)]
        return [self.equation(place, signal.type) for place in places]

    def loop(self, first: int, last: int, lines_of: Callable[[str], list[str]]) -> list[str]:
        """A loop with the lines for its index."""
        index = self.program.names.new("i")
        self.maker.manifests.indices[index] = (first, last)
        lines = lines_of(index)
        del self.maker.manifests.indices[index]
        return [f"( {index} : {first} .. {last} ) :: begin", *lines, "end ;"]

    def line_of(self, place: str, signal: Signal) -> str:
        return self.scalar_by_call(place, signal) or self.equation(place, signal.type)

    def by_loops(self, signal: Signal) -> list[str]:
        def inner(place: str, dims: tuple[int, ...]) -> list[str]:
            if not dims:
                return [self.line_of(place, signal)]
            return self.loop(0, dims[0] - 1, lambda index: inner(f"{place} [ {index} ]", dims[1:]))
        lines = inner(signal.name, signal.dims)
        return lines + self.loop(1, 0, lambda index: [self.line_of(signal.name + f" [ {index} ]" * len(signal.dims),
                                                                   signal)]) \
            if self.rng.random() < 0.1 else lines

    def by_two_loops(self, signal: Signal) -> list[str]:
        middle = self.rng.randint(0, signal.dims[0])
        parts = [(0, middle - 1), (middle, signal.dims[0] - 1)]
        return [line for first, last in parts if first <= last
                for line in self.loop(first, last, lambda index: [self.line_of(f"{signal.name} [ {index} ]", signal)])]

    def by_recurrence(self, signal: Signal) -> list[str]:
        """Each element but one reads its neighbour."""
        count, name = signal.dims[0], signal.name
        if count == 1:
            return self.one_by_one(signal)
        is_rising = self.rng.random() < 0.7
        start = f"{name} [ {0 if is_rising else count - 1} ]"
        lines = [self.equation(start, signal.type)]

        def step(index: str) -> list[str]:
            neighbour = f"{name} [ {index} {'-' if is_rising else '+'} 1 ]"
            self.maker.fixed = [(neighbour, signal.type)] * 2
            line = self.line_of(f"{name} [ {index} ]", signal)
            self.maker.fixed = []
            return [line]

        return lines + self.loop(1 if is_rising else 0, count - 1 if is_rising else count - 2, step)

    # The past

    def initial(self, signal: Signal) -> list[str]:
        """Initial values of a signal at a few delays: of one element or, by a loop, of all."""
        rng, type_ = self.rng, signal.type
        lines = []
        for delay in rng.sample(range(1, 6), rng.randint(1, 2)):
            def value() -> str:
                return rng.choice(["true", "false"]) if type_ == BOOL else number(rng, type_)
            if len(signal.dims) == 1 and rng.random() < 0.5:
                lines += self.loop(0, signal.dims[0] - 1,
                                   lambda index: [f"{signal.name} [ {index} ] @@ {delay} = {value()} ;"])
            else:
                place = signal.name + "".join(f" [ {rng.randrange(dim)} ]" for dim in signal.dims)
                lines.append(f"{place} @@ {delay} = {value()} ;")
        return lines


def laid_out(rng: Random, text: str) -> str:
    """The same tokens with other blanks and with comments."""
    if rng.random() < 0.4:
        return text
    others = [" "] * 12 + ["\n", "  ", "\t", " /* a comment */ ", "\r\n", "/**/"]
    return "".join(rng.choice(others) if sign == " " else sign for sign in text)
