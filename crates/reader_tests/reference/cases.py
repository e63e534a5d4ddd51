"""The cases on which the sheet reader is run, and what it must print for each.

    python3 crates/reader_tests/reference/cases.py

writes crates/reader_tests/stdin and crates/reader_tests/stdout anew. It needs no package, and what it
writes depends on nothing but this folder.

A line of stdin is a case: the kind of time, a space and the sheet's text, in which \\n is a newline,
\\\\ a backslash and \\xNN a byte outside 32 to 126. A line of stdout is its report.

An expectation that is written here by hand is a text of three numbers, a fault's layer, cause and line, or
of four, the pins and the counts of P, R and C lines. The answer of sheets.py must agree with each. Where
none is written, as for damaged texts, the answer of sheets.py is what must be printed.
"""

import itertools
import pathlib
import sys

sys.dont_write_bytecode = True

from sheets import COUNTS, LIMIT, report, survey

CRATE = pathlib.Path(__file__).resolve().parent.parent

CASES = {}


def case(kind, text, expected=None):
    """Adds a case, and compares the second reader's answer with the one by hand."""
    answer = survey(kind, text)
    if expected is not None and answer != [int(number) for number in expected.split()]:
        sys.exit(f"{kind} {text!r}: {answer}, and {expected} by hand")
    CASES.setdefault((kind, text), answer)


def column(width, value):
    """A number right-justified, or a text that fills the columns as it stands."""
    text = (b"%d" % value).rjust(width) if isinstance(value, int) else value
    assert len(text) == width, text
    return text


def n_line(pins, count):
    return b"N" + column(4, pins) + column(4, count) + b"\n"


def p_line(pin, name):
    return b"P" + column(4, pin) + b" " + name + b"\n"


def record(letter, i, j, low, high):
    """An R or C line. An end is a list of its numbers."""
    ends = b"".join(column(12, number) for number in low + high)
    return letter + column(4, i) + column(4, j) + ends + b"\n"


def absent(kind):
    return [b" " * 12] * COUNTS[kind]


def end(kind, *numbers):
    """The first numbers of a value, as many as the kind has."""
    return list(numbers[: COUNTS[kind]])


def small_sheet(kind):
    """A line of each letter: 3 pins, and one P, R and C line."""
    return (
        n_line(3, COUNTS[kind]),
        p_line(2, b"ADC"),
        record(b"R", 1, 2, end(kind, -3, 1), end(kind, 5, -1)),
        record(b"C", 1, 3, end(kind, 4, 0), end(kind, 4, 0)),
    )


# Whole sheets, as they stand in a file.

SHEET = b"""\
N   3   1
P   2 ADC
R   1   2          -3           5
R   2   3          -2           1
R   3   1          -9           1
C   1   3           4           4
C   1   2           6           6
C   1   2           5           9
"""

GUARDED_SHEET = b"""\
N   3   2
P   1 A
P   3 B
R   1   2                                   5          -1
R   2   3          -2           1         999           0
C   3   1          -9           0           1           0
"""


def whole_sheets():
    case("plain", SHEET, "3 1 3 3")
    case("offset", SHEET, "3 1 3 3")
    case("guarded", SHEET, "3 34 1")
    case("guarded", GUARDED_SHEET, "3 2 2 1")
    case("plain", GUARDED_SHEET, "3 34 1")
    for kind in COUNTS:
        n, p, r, c = small_sheet(kind)
        case(kind, n + p + r + c, "3 1 1 1")
        case(kind, n, "3 0 0 0")
        case(kind, n + p * 5 + r * 7 + c * 9, "3 5 7 9")
        case(kind, n + c, "3 0 0 1")


# What the numbers mean is no matter of reading.


def meanings():
    for kind in COUNTS:
        n, p, r, c = small_sheet(kind)
        count = COUNTS[kind]
        none = absent(kind)
        zero = end(kind, 0, 0)
        for pins in (-999, -5, -1, 0, 1, 64, 65, 9999):
            case(kind, n_line(pins, count) + p + r + c, f"{pins} 1 1 1")
        for pin in (-999, -1, 0, 4, 65, 9999):
            case(kind, n + p_line(pin, b"X"), "3 1 0 0")
            case(kind, n + record(b"R", pin, pin, zero, zero), "3 0 1 0")
        for letter, counts in ((b"R", "1 0"), (b"C", "0 1")):
            case(kind, n + record(letter, 1, 2, none, none), "3 0 " + counts)
            case(kind, n + record(letter, 1, 2, zero, none), "3 0 " + counts)
            case(kind, n + record(letter, 1, 2, none, zero), "3 0 " + counts)
            case(kind, n + record(letter, 1, 2, end(kind, 9, 9), end(kind, -9, -9)), "3 0 " + counts)


# A number in its columns. Each field of each letter has each of these.

GOOD_4 = [b"   0", b"   7", b"  -1", b"  10", b" 907", b"-100", b"-999", b"9999"]

BAD_4 = [
    b"    ", b"   -", b"-   ", b"  --", b"  -0", b"  00", b"0000", b"  01", b"0001", b"-001", b" -01",
    b"  +1", b"  1-", b" - 1", b"-  1", b" --1", b"-1-2", b"  1 ", b"1   ", b" 1 2", b"1 23", b"-1  ",
    b"  1a", b"  A1", b" 0x1", b" 1.5", b" 1e1", b"1_00", b"  :1", b"  /1", b"\t  1", b"  1\t", b"  1\r",
    b"\0\0\0001", b"   \xb2", b"\xef\xbc\x911", b"  \xa01",
]

GOOD_12 = [
    b"           0", b"          -1", b"  1000000000", b" -1000000001", b" 99999999999", b"-99999999999",
    b"100000000000", b"999999999999",
]

BAD_12 = [
    b"           -", b"-           ", b"          -0", b"-          0", b"          00", b"000000000000",
    b"000000000001", b"-00000000001", b"          +1", b"          1-", b"         - 1", b"           \xb9",
    b"          1 ", b"1           ", b"     1     2", b"1 2345678901", b"99999999999 ", b"--9999999999",
    b"99999999999a", b"a99999999999", b"99999999999-", b"         1.0", b"\t          1", b"          1\r",
    b"\0\0\0\0\0\0\0\0\0\0\x001", b"          \xa01", b"           \t", b"\r           ", b"\0" * 12,
]


def short_fields(kind, value, is_number):
    """The value in each field of four columns."""
    n, p, r, c = small_sheet(kind)
    low, high = end(kind, 1, 1), absent(kind)
    pins = int(value) if is_number else None
    case(kind, n_line(value, COUNTS[kind]) + p, f"{pins} 1 0 0" if is_number else "1 35 1")
    case(kind, n_line(3, value) + p, "3 34 1" if is_number else "1 35 1")
    case(kind, n + p_line(value, b"X") + p, "3 2 0 0" if is_number else "1 35 2")
    for i, j in ((value, 2), (1, value)):
        case(kind, n + record(b"R", i, j, low, high) + c, "3 0 1 1" if is_number else "1 35 2")
        case(kind, n + r + record(b"C", i, j, low, high), "3 0 1 1" if is_number else "1 35 3")


def long_fields(kind, value, is_number):
    """The value in each number of each end."""
    n, p, r, c = small_sheet(kind)
    for place in range(2 * COUNTS[kind]):
        numbers = [1] * (2 * COUNTS[kind])
        numbers[place] = value
        case(kind, n + record(b"R", 1, 2, [], numbers), "3 0 1 0" if is_number else "1 35 2")
        case(kind, n + record(b"C", 1, 2, [], numbers), "3 0 0 1" if is_number else "1 35 2")


def numbers_in_columns():
    # The kind matters for the ends only, so the kinds take turns at the other fields.
    kinds = itertools.cycle(COUNTS)
    for good in GOOD_4:
        short_fields(next(kinds), good, True)
    for bad in BAD_4:
        short_fields(next(kinds), bad, False)
    for kind in COUNTS:
        for good in GOOD_12:
            long_fields(kind, good, True)
        for bad in BAD_12:
            long_fields(kind, bad, False)


def half_filled_ends():
    n, p, r, c = small_sheet("guarded")
    blank = b" " * 12
    for half in ([blank, 1], [1, blank], [blank, b"-           "], [b"          -0", blank], [blank, b"           \t"]):
        for low, high in ((half, [1, 1]), ([1, 1], half), (half, absent("guarded")), (absent("guarded"), half)):
            case("guarded", n + record(b"R", 1, 2, low, high), "1 35 2")
            case("guarded", n + r + record(b"C", 1, 2, low, high), "1 35 3")
    # A number that runs over the middle of an end is cut there, and one that ends before it has spaces after it.
    case("guarded", n + record(b"R", 1, 2, [b"       12345", b"678         "], [1, 1]), "1 35 2")
    case("guarded", n + record(b"R", 1, 2, [b"       12345", b"678901234567"], [1, 1]), "3 0 1 0")
    # All but one column blank.
    for kind in ("plain", "guarded"):
        n, p, r, c = small_sheet(kind)
        width = 24 * COUNTS[kind]
        for place in range(width):
            ends = b" " * place + b"5" + b" " * (width - place - 1)
            last = place % 12 == 11 and COUNTS[kind] == 1
            case(kind, n + b"R   1   2" + ends + b"\n", "3 0 1 0" if last else "1 35 2")


# Letters and columns.


def with_line(kind, bad, cause):
    """A line that is faulty anywhere, as the first, a middle and the last line."""
    n, p, r, c = small_sheet(kind)
    case(kind, bad + n, cause + " 1")
    case(kind, n + bad + c, cause + " 2")
    case(kind, n + p + bad, cause + " 3")


def layouts():
    for kind in ("plain", "guarded"):
        n, p, r, c = small_sheet(kind)
        # No letter, or one that is none of the four.
        for line in (b"\n", b" \n", b"\r\n", b"\0\n", b" " + n, b"\xef\xbb\xbf" + n):
            with_line(kind, line, "2 32")
        for letter in (b"n", b"p", b"r", b"c", b"T", b"E", b"O", b"\xce", b"\0", b" "):
            with_line(kind, letter + r[1:], "2 32")
        # The letter alone, a column too few or too many, two lines in one.
        for line in (n, r, c):
            without_end = line[:-1]
            with_line(kind, line[:1] + b"\n", "2 32")
            with_line(kind, without_end[:-1] + b"\n", "2 32")
            with_line(kind, without_end + b" \n", "2 32")
            with_line(kind, without_end + b"\r\n", "2 32")
            with_line(kind, without_end + line, "2 32")
        # A record of another count of numbers.
        for count in (0, 1, 2, 3, 4):
            if count != COUNTS[kind]:
                with_line(kind, record(b"R", 1, 2, [1] * count, [1] * count), "2 32")
        # No space after the pin.
        for line in (b"P", b"P   ", b"P   1", b"P   1ADC", b"P   1\tA", b"P   1\0A", b"P   1\r", b"P  12-A"):
            with_line(kind, line + b"\n", "2 32")
        # One letter on the columns of another.
        with_line(kind, b"N" + r[1:], "2 32")
        with_line(kind, b"R" + n[1:], "2 32")
        with_line(kind, b"C" + p[1:], "2 32")


def names():
    n, p, r, c = small_sheet("plain")
    odd = [
        b"", b" ", b"A", b"  A  ", b"A B", b"lower", b"\r", b"A\r", b"\t", b"\0", b"\\", b"\\n", b"\x7f",
        b"\x80", b"\xff\xfe", "µ".encode(), b"ABCDEFGHI", b"N   3   1", b"-0", bytes(range(10)), bytes(range(11, 256)),
    ]
    for name in odd:
        case("plain", n + p_line(1, name), "3 1 0 0")
        case("plain", n + p_line(1, name) + r, "3 1 1 0")
    # A newline in a name ends the line.
    case("plain", n + p_line(1, b"A\nB"), "2 32 3")
    case("plain", n + p_line(1, b"A\n"), "2 32 3")


# The order of the lines.


def turns():
    for kind in COUNTS:
        n, p, r, c = small_sheet(kind)
        for line in (p, r, c):
            case(kind, line, "3 33 1")
            case(kind, line + n, "3 33 1")
        for text, line in (
            (n + n, 2), (n + p + n, 3), (n + r + n, 3), (n + c + n, 3), (n + p + r + c + n, 5),
            (n + r + p, 3), (n + p + r + p + c, 4), (n + c + p, 3), (n + p + r + c + p, 5),
            (n + c + r, 3), (n + p + r + c + r, 5), (n + p + c + r + n, 4),
        ):
            case(kind, text, f"3 33 {line}")
    # Every order of three lines.
    for lines in itertools.product(small_sheet("plain"), repeat=3):
        case("plain", b"".join(lines))


# The count on the N line.


def counts():
    for kind in COUNTS:
        n, p, r, c = small_sheet(kind)
        for count in (-999, -1, 0, 1, 2, 3, 4, 5, 10, 11, 12, 21, 100, 9999):
            if count != COUNTS[kind]:
                case(kind, n_line(3, count), "3 34 1")
                case(kind, n_line(3, count) + p + r + c, "3 34 1")
        case(kind, n_line(3, -COUNTS[kind]) + p + r + c, "3 34 1")


# Several causes at once: the first in the order 30, 31, 32, 33, 35, 34 is told, and of two lines the first.


def causes_together():
    for kind in COUNTS:
        n, p, r, c = small_sheet(kind)
        count = COUNTS[kind]
        zero = end(kind, 0, 0)
        other = n_line(3, count + 1)
        not_a_number = record(b"R", 1, b"  -0", zero, zero)
        # 31 before 32, 33, 34 and 35, on its own line and on one before.
        case(kind, b"X", "3 31 1")
        case(kind, n[:-1], "3 31 1")
        case(kind, r[:-1], "3 31 1")
        case(kind, other[:-1], "3 31 1")
        case(kind, n_line(b"  -0", count)[:-1], "3 31 1")
        case(kind, b"X\n" + n[:-1], "3 31 2")
        case(kind, b"\n\n\n ", "3 31 4")
        case(kind, r + n + p[:-1], "3 31 3")
        case(kind, other + p + r[:-1], "3 31 3")
        case(kind, n + not_a_number + c[:-1], "3 31 3")
        case(kind, n + p + r + c + b"\r", "3 31 5")
        # 32 before 33: columns that are wrong, on a line that is out of turn.
        case(kind, r[:-2] + b"\n", "2 32 1")
        case(kind, p[:5] + b"\n" + n, "2 32 1")
        case(kind, n + n[:-2] + b"\n", "2 32 2")
        case(kind, n + r + b"P   1X\n", "2 32 3")
        case(kind, n + c + r[:-1] + b" \n", "2 32 3")
        # 32 before 35 and 34.
        case(kind, b"N  -0   1 \n", "2 32 1")
        case(kind, b"N   3   9 \n", "2 32 1")
        case(kind, n + b"P  -0X\n", "2 32 2")
        case(kind, n + not_a_number[:-1] + b" \n", "2 32 2")
        # 33 before 35.
        case(kind, p_line(b"  -0", b"A"), "3 33 1")
        case(kind, not_a_number + n, "3 33 1")
        case(kind, n + n_line(b"  -0", count), "3 33 2")
        case(kind, n + n_line(3, b"  -0"), "3 33 2")
        case(kind, n + r + p_line(b"  -0", b"A"), "3 33 3")
        case(kind, n + c + not_a_number, "3 33 3")
        # 33 before 34.
        case(kind, n + other, "3 33 2")
        case(kind, n + p + r + c + other, "3 33 5")
        # 35 before 34.
        case(kind, n_line(b"  -0", count + 1), "1 35 1")
        case(kind, n_line(b"    ", 9), "1 35 1")
        case(kind, n_line(3, b"   -"), "1 35 1")
        # The first of two faulty lines.
        case(kind, other + b"X\n", "3 34 1")
        case(kind, other + n, "3 34 1")
        case(kind, other + not_a_number, "3 34 1")
        case(kind, n + not_a_number + b"X\n", "1 35 2")
        case(kind, n + not_a_number + n, "1 35 2")
        case(kind, n + b"X\n" + not_a_number, "2 32 2")
        case(kind, n + n + b"X\n", "3 33 2")
        case(kind, n + c + r + not_a_number, "3 33 3")
        case(kind, n + p + n + not_a_number, "3 33 3")
        case(kind, n + not_a_number * 3, "1 35 2")


# The length of the text.


def filled(kind, length):
    """A sheet of so many bytes: R lines, and one P line whose name takes what is left."""
    n, p, r, c = small_sheet(kind)
    room = length - len(n) - len(p_line(1, b""))
    return n + p_line(1, b"x" * (room % len(r))) + r * (room // len(r))


def one_name(length):
    n = n_line(3, 1)
    return n + p_line(1, b"x" * (length - len(n) - len(p_line(1, b""))))


def lengths():
    for kind in COUNTS:
        case(kind, b"", "3 33 1")
    # 32,768 less the 10 and 7 bytes of the first two lines is 963 × 34 + 9, and 564 × 58 + 39.
    full = filled("plain", LIMIT)
    case("plain", full, "3 1 963 0")
    case("plain", full[:-1] + b"x", "3 31 965")
    case("plain", filled("plain", LIMIT + 1), "3 30 0")
    case("plain", full + b"x", "3 30 0")
    case("plain", full[:-2] + b"-\n", "1 35 965")
    case("guarded", filled("guarded", LIMIT), "3 1 564 0")
    case("plain", one_name(LIMIT), "3 1 0 0")
    case("plain", one_name(LIMIT + 1)[:-1], "3 31 2")
    case("plain", one_name(LIMIT + 1), "3 30 0")
    case("offset", b"x" * (LIMIT + 1), "3 30 0")
    # As many lines as a text can have.
    case("plain", b"\n" * (LIMIT - 1) + b"x", "3 31 32768")


# Damaged texts.


def cuts():
    for kind in COUNTS:
        text = b"".join(small_sheet(kind))
        for length in range(len(text)):
            case(kind, text[:length])
            if kind == "plain":
                case(kind, text[:length] + b"\n")


class Draws:
    """Numbers that look random and are the same on every machine."""

    def __init__(self, seed):
        self.state = seed

    def below(self, bound):
        self.state = (self.state * 6364136223846793005 + 1442695040888963407) % 2**64
        return (self.state >> 33) % bound

    def of(self, choices):
        return choices[self.below(len(choices))]


# Bytes that a sheet's text is made of, beside a few that it is not.
LIKELY = b"0123456789- NPRC\n"
UNLIKELY = b"\r\t\0\x7f\x80\xb2\xff+.nT\\"


def odd_byte(draws):
    return bytes([draws.of(draws.of((LIKELY, LIKELY, UNLIKELY)))])


def damaged(draws, text):
    at = draws.below(len(text))
    way = draws.below(7)
    if way == 0:
        return text[:at] + odd_byte(draws) + text[at + 1 :]
    if way == 1:
        return text[:at] + bytes([text[at] ^ 1 << draws.below(8)]) + text[at + 1 :]
    if way == 2:
        return text[:at] + odd_byte(draws) + text[at:]
    if way == 3:
        return text[:at] + text[at + 1 :]
    if way == 4:
        return text[:at] + text[at + 1 + draws.below(40) :]
    # Two bytes, or two lines, change places.
    parts = [bytes([byte]) for byte in text] if way == 5 else text.splitlines(keepends=True)
    one, other = draws.below(len(parts)), draws.below(len(parts))
    parts[one], parts[other] = parts[other], parts[one]
    return b"".join(parts)


def damages():
    draws = Draws(20)
    for kind in COUNTS:
        n, p, r, c = small_sheet(kind)
        for _ in range(100):
            text = n + p + r + c + c
            for _ in range(1 + draws.below(3)):
                text = damaged(draws, text)
            case(kind, text)


def escaped(text):
    shown = {10: "\\n", 92: "\\\\"}
    plain = {byte: chr(byte) for byte in range(32, 127)}
    return "".join(shown.get(byte) or plain.get(byte) or "\\x%02x" % byte for byte in text)


# Before the cases, the program writes faults that have no room: line numbers of seven digits and more, and
# lines of fourteen and sixteen bytes. The bytes stay as they were.
REFUSALS = "".join("x" * width + " refused true\n" for width in (15, 15, 14, 16))


def main():
    whole_sheets()
    meanings()
    numbers_in_columns()
    half_filled_ends()
    layouts()
    names()
    turns()
    counts()
    causes_together()
    lengths()
    cuts()
    damages()
    texts = [f"{kind} {escaped(text)}\n" for kind, text in CASES]
    reports = [report(answer) + "\n" for answer in CASES.values()]
    (CRATE / "stdin").write_text("".join(texts), encoding="ascii")
    (CRATE / "stdout").write_text(REFUSALS + "".join(reports), encoding="ascii")
    print(f"{len(CASES)} cases")


main()
