"""Sources that several scripts measure."""


def chain(load: int, delay: int = 1) -> str:
    # A turn counts itself and 6 operators, and an element of the array.
    count = load // 8
    z = f"z@{delay}" if delay else "z"
    return (
        f"const h[2] : fix<16,15> = (0.25, -0.5);\n"
        f"func main(x : fix<16,8>, z : fix<16,8>) y : fix<16,8> =\nbegin\nvar s[{count}] : fix<16,8>;\n"
        f"s[0] = x;\n(i : 1 .. {count - 1}) ::\nbegin\n"
        f"s[i] = s[i - 1] + (h[0] * x - h[1] * {z}) - (s[i - 1] >> 3);\nend;\n"
        f"y = s[{count - 1}];\nend;\n"
    )


def held(load: int) -> str:
    """A chain, and at its end sums of its words of up to three samples ago. A turn counts 9."""
    count = load // 9
    return (
        f"func main(x : fix<16,8>, z : fix<16,8>) y : fix<16,8> =\nbegin\nvar s[{count + 1}] : fix<16,8>;\n"
        f"s[0] = x;\n(i : 1 .. {count}) ::\nbegin\n"
        f"s[i] = s[i - 1] + 0.5 * z - (s[i - 1] >> 3) + (-(s[i - 1] << 1));\nend;\n"
        f"y = s[{count}] + s[{count // 2}]@3 + s[{count // 3}]@2 + s[{count // 4}]@1;\nend;\n"
    )


def taps(count: int) -> str:
    return (
        f"func main(x : fix<16,14>) y : fix<16,15> = begin\nvar s[{count + 1}] : fix<16,15>;\ns[0] = 0.0;\n"
        f"(i : 0 .. {count - 1}) :: begin s[i + 1] = s[i] + x * x@i; end;\ny = s[{count}];\nend;\n"
    )


def filter16() -> str:
    half = (0.00390625, -0.0078125, 0.015625, -0.03125, 0.0625, -0.125, 0.25, 0.5)
    coefficients = ", ".join(map(str, half + half[::-1]))
    return (
        f"const h[16] : fix<16,15> = ({coefficients});\n"
        "func main(x : fix<16,14>) y : fix<16,15> = begin\nvar s[17] : fix<16,15>;\ns[0] = 0.0;\n"
        "(i : 0 .. 15) :: begin s[i + 1] = s[i] + h[i] * x@i; end;\ny = s[16];\nend;\n"
    )


def cascade(equation: str, count: int) -> str:
    return (
        f"func section(x : fix<16,8>) y : fix<16,8> = begin\n{equation}\nend;\n"
        f"func main(x : fix<16,8>) y : fix<16,8> = begin\nvar s[{count + 1}] : fix<16,8>;\ns[0] = x;\n"
        f"(i : 0 .. {count - 1}) :: begin s[i + 1] = section(s[i]); end;\ny = s[{count}];\nend;\n"
    )


def biquads(count: int) -> str:
    return cascade("y = 0.5 * x + 0.25 * x@1 + 0.125 * x@2 - 0.25 * y@1 - 0.125 * y@2;", count)
