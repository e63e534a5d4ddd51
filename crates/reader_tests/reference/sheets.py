"""What a sheet's text says, by regular expressions: a second reader, written apart from the one that it tests.

A text has lines, each ended by byte 10. A line's letter and columns are matched by one expression for each
letter, the order of the lines by one expression over their letters, and a number by one over its columns.
"""

import re

LIMIT = 32_768

# How many numbers make up a value of each kind of time.
COUNTS = {"plain": 1, "guarded": 2, "offset": 1}

# The layer of each cause: 1 a field, 2 a line, 3 the sheet.
LAYERS = {30: 3, 31: 3, 32: 2, 33: 3, 34: 3, 35: 1}

NUMBER = re.compile(rb" *(0|-?[1-9][0-9]*)")

ORDER = re.compile(rb"NP*R*C*")


def layouts(count):
    """The expression of a line for each letter. Its groups are fields; the name of a P line is none."""
    end = rb"(.{%d})" % (12 * count)
    record = rb"(.{4})(.{4})" + end + end
    texts = {
        b"N": rb"N(.{4})(.{4})",
        b"P": rb"P(.{4}) .*",
        b"R": rb"R" + record,
        b"C": rb"C" + record,
    }
    return {letter: re.compile(text, re.DOTALL) for letter, text in texts.items()}


def is_number(columns):
    return NUMBER.fullmatch(columns) is not None


def is_end(columns):
    """All spaces, or a number in every twelve columns."""
    fields = [columns[at : at + 12] for at in range(0, len(columns), 12)]
    return not columns.strip(b" ") or all(is_number(field) for field in fields)


def fields_are_numbers(fields):
    return all(is_number(field) for field in fields[:2]) and all(is_end(end) for end in fields[2:])


def cause_of(line, letters_before, count):
    """The first cause by which a line is faulty, or None."""
    layout = layouts(count).get(line[:1])
    match = layout and layout.fullmatch(line)
    if not match:
        return 32
    if not ORDER.fullmatch(letters_before + line[:1]):
        return 33
    if not fields_are_numbers(match.groups()):
        return 35
    if line[:1] == b"N" and int(match.group(2)) != count:
        return 34
    return None


def fault_of(kind, text):
    """The first fault as (cause, line), or None."""
    if len(text) > LIMIT:
        return 30, 0
    if text == b"":
        return 33, 1
    if not text.endswith(b"\n"):
        return 31, text.count(b"\n") + 1
    letters = b""
    for number, line in enumerate(text[:-1].split(b"\n"), start=1):
        cause = cause_of(line, letters, COUNTS[kind])
        if cause:
            return cause, number
        letters += line[:1]
    return None


def survey(kind, text):
    """A fault as [layer, cause, line], or [pins, names, constraints, commits]."""
    fault = fault_of(kind, text)
    if fault:
        cause, line = fault
        return [LAYERS[cause], cause, line]
    lines = text[:-1].split(b"\n")
    letters = b"".join(line[:1] for line in lines)
    return [int(lines[0][1:5])] + [letters.count(letter) for letter in (b"P", b"R", b"C")]


def report(answer):
    """The line that is printed for an answer of `survey`."""
    if len(answer) == 3:
        return "E%4d%4d%6d" % tuple(answer)
    return "pins %d names %d constraints %d commits %d" % tuple(answer)
