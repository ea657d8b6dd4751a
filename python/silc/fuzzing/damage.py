"""Damage of files: of bytes, of bits, of tokens, of numbers."""
import re
from random import Random

# The magic and the version of microcode.
HEAD = 5
TOKENS = re.compile(rb"\s+|\w+(?:\.\d+)?|[^\w\s]")
NUMBERS = re.compile(rb"\d+")
# Numbers that stand at the ends of ranges, or past them.
ENDS = [b"0", b"1", b"2", b"3", b"7", b"8", b"15", b"16", b"17", b"31", b"32", b"33", b"40", b"41", b"64", b"65",
        b"80", b"81", b"127", b"128", b"255", b"256", b"257", b"1023", b"1024", b"4096", b"4097", b"8191", b"8192",
        b"8193", b"65535", b"65536", b"65537", b"2147483647", b"2147483648", b"4294967296", b"549755813887",
        b"549755813888", b"9223372036854775807", b"9223372036854775808", b"999999999999999999",
        b"1000000000000000000", b"00", b"0.5", b"1.5"]
WORDS = [b"func", b"const", b"var", b"begin", b"end", b"fix", b"bool", b"trunc", b"round", b"if", b"fi", b"true",
         b"false",
         b"sat", b"main", b"x", b"y", b"::", b"..", b"==", b"!=", b"<=", b">=", b"<<", b">>", b"->", b"||", b"@@", b"(",
         b")",
         b"[", b"]", b",", b";", b":", b"=", b"<", b">", b"+", b"-", b"*", b"&", b"|", b"!", b"@", b"1.5", b"/*", b"*/",
         b"name", b"kind", b"period", b"word", b"hold", b"unit", b"bus", b"from", b"to", b"cells", b"ram", b"files",
         b"latency", b"gap", b'"', b"'", b"#", b"[[", b"]]", b"{", b"}", b".", b"\n", b"\\"]


def of_bytes(rng: Random, data: bytes) -> bytes:
    data = bytearray(data)
    for _ in range(rng.choice([1, 1, 1, 2, 5])):
        at = rng.randrange(len(data) + 1)
        way = rng.randrange(6)
        if way == 0:
            data[at:at] = bytes([rng.randrange(256)])
        elif way == 1:
            del data[at:at + rng.choice([1, 1, 2, 8, 100])]
        elif way == 2:
            data[at:at + 1] = bytes([rng.choice([0, 1, 2, 4, 32, 127, 128, 255, rng.randrange(256)])])
        elif way == 3 and at < len(data):
            data[at] ^= 1 << rng.randrange(8)
        elif way == 4:
            data[at:at] = data[at:at + rng.choice([1, 4, 30])]
        elif rng.random() < 0.3:
            del data[at:]
    return bytes(data)


def of_bits(rng: Random, data: bytes) -> bytes:
    """Bits that are changed, left out, or put in behind the first five bytes, with what follows pushed to and fro."""
    head, size = data[:HEAD], 8 * max(0, len(data) - HEAD)
    bits = list(format(int.from_bytes(data[HEAD:], "big"), f"0{size}b")) if size else []
    for _ in range(rng.choice([1, 1, 1, 2, 5])):
        at, count = rng.randrange(len(bits) + 1), rng.choice([1, 1, 2, 6, 40])
        way = rng.randrange(4)
        if way == 0:
            bits[at:at + 1] = rng.choice("01")
        elif way == 1:
            del bits[at:at + count]
        elif way == 2:
            bits[at:at] = [rng.choice("01") for _ in range(count)]
        else:
            bits[at:at + count] = rng.choice("01") * count
    text = "".join(bits)
    text += "0" * (-len(text) % 8)
    return head + int(text or "0", 2).to_bytes(len(text) // 8, "big")


def of_microcode(rng: Random, data: bytes) -> bytes:
    return rng.choice([of_bytes, of_bits])(rng, data)


def of_tokens(rng: Random, data: bytes) -> bytes:
    tokens = TOKENS.findall(data) or [b""]
    for _ in range(rng.choice([1, 1, 2, 3])):
        at, other = rng.randrange(len(tokens)), rng.randrange(len(tokens))
        way = rng.randrange(5)
        if way == 0:
            tokens[at] = b""
        elif way == 1:
            tokens[at] += b" " + tokens[at]
        elif way == 2:
            tokens[at], tokens[other] = tokens[other], tokens[at]
        elif way == 3:
            tokens[at] = rng.choice(WORDS)
        else:
            tokens[at] = tokens[other]
    return b"".join(tokens)


def of_numbers(rng: Random, data: bytes) -> bytes:
    places = list(NUMBERS.finditer(data))
    for found in sorted(rng.sample(places, min(len(places), rng.choice([1, 1, 2]))), key=lambda found: -found.start()):
        near = str(max(0, int(found[0]) + rng.choice([-1, 1]))).encode()
        data = data[:found.start()] + rng.choice([rng.choice(ENDS), near]) + data[found.end():]
    return data


def of_lines(rng: Random, data: bytes) -> bytes:
    lines = data.splitlines(keepends=True) or [b""]
    at, other = rng.randrange(len(lines)), rng.randrange(len(lines))
    way = rng.randrange(3)
    if way == 0:
        del lines[at]
    elif way == 1:
        lines.insert(other, lines[at])
    else:
        lines[at], lines[other] = lines[other], lines[at]
    return b"".join(lines)


def of_text(rng: Random, data: bytes) -> bytes:
    return rng.choice([of_bytes, of_tokens, of_tokens, of_numbers, of_numbers, of_lines])(rng, data)
