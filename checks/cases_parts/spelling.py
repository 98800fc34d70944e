"""How bytes are written in a line of a text or report, and read from it."""
import re

ESCAPES = {"\\": b"\\", "r": b"\r", "t": b"\t", "0": b"\0"}
# A backslash with what makes an escape of it, or a backslash with whatever stands behind it.
ESCAPE = re.compile(r"\\(x[0-9A-Fa-f]{2}|.|$)", re.DOTALL)
# A number of a line that stands several times: {n}, {n+1}, {2n+1}, or with zeros before it {nnnn}.
NUMBER = re.compile(r"\{(?P<factor>[0-9]{0,4})(?P<digits>n+)(?:\+(?P<first>[0-9]{1,7}))?\}")
# How many characters of a long line are shown.
MOST_SHOWN = 120


class SpellingFault(Exception):
    """A line that is no line of a text or report."""


def bytes_of(spelled):
    """The bytes of a line, its line feed among them."""
    text, ending = without_ending(spelled)
    return unescaped(text) + ending


def numbered_bytes(spelled, count):
    """The bytes of a line that stands so many times, with what its numbers are for n = 0, 1, .."""
    text, ending = without_ending(spelled)
    numbers, parts, place = list(NUMBER.finditer(text)), [], 0
    for number in numbers:
        parts.append(unescaped(text[place : number.start()]))
        place = number.end()
    ending = unescaped(text[place:]) + ending
    lines = []
    for n in range(count):
        lines += (part + number_for(number, n) for part, number in zip(parts, numbers))
        lines.append(ending)
    return b"".join(lines)


def without_ending(spelled):
    """A line without the backslash that says that no line feed follows, and its line feed, or nothing."""
    backslashes = len(spelled) - len(spelled.rstrip("\\"))
    return (spelled[:-1], b"") if backslashes % 2 else (spelled, b"\n")


def unescaped(text):
    """The bytes of a piece of a line."""
    found, place = [], 0
    for escape in ESCAPE.finditer(text):
        found += [text[place : escape.start()].encode(), byte_of(escape[1])]
        place = escape.end()
    return b"".join([*found, text[place:].encode()])


def byte_of(sign):
    """What stands behind a backslash, as the byte that it is for."""
    if len(sign) == 3:
        return bytes.fromhex(sign[1:])
    if sign not in ESCAPES:
        raise SpellingFault(f"\\{sign} is no escape")
    return ESCAPES[sign]


def number_for(number, n):
    """What a number of a line is for n."""
    value = int(number["factor"] or 1) * n + int(number["first"] or 0)
    return str(value).zfill(len(number["digits"])).encode()


def spelled(line):
    """How a line, with its line feed where it has one, is written; a long one is cut."""
    ending = "" if line.endswith(b"\n") else "\\"
    text = line.rstrip(b"\n").decode(errors="surrogateescape")
    text = "".join(map(sign_of, text)) + ending
    return text if len(text) <= MOST_SHOWN else f"{text[:MOST_SHOWN]} .. ({len(line)} bytes)"


def sign_of(sign):
    """How a sign of a line is written."""
    if sign == "\\":
        return "\\\\"
    if sign.isprintable():
        return sign
    return "".join(f"\\x{byte:02x}" for byte in sign.encode(errors="surrogateescape"))
