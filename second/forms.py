"""The field forms. A form reads its fields to whole numbers, in the order of docs/LAYOUT.md, and writes them back.

Each form says how many fields and how many numbers it takes, and has two functions. `read` takes that many
texts and gives that many numbers; `write` takes the numbers and gives the texts. Both refuse with Wrong, which
carries the first wrong one of the form's own fields, counted from 0.
"""

import re


class Wrong(Exception):
    """A value or text outside its form; `at` is the place among the form's own fields, counted from 0."""

    def __init__(self, at=0):
        super().__init__(at)
        self.at = at


def need(holds, at=0):
    """Refuses the field at this place unless the condition holds."""
    if not holds:
        raise Wrong(at)


def is_there(mark):
    """Says whether a value is there: its mark is 1, or 0 where it is missing; refuses any other number."""
    need(mark in (0, 1))
    return mark == 1


def decimal(text, width):
    """Gives the number said by exactly `width` digits 0-9; refuses anything else."""
    need(len(text) == width and re.fullmatch(rb"[0-9]+", text))
    return int(text)


def hexadecimal(text, fewest, most):
    """Gives the number said by `fewest` to `most` digits 0-9 or A-F, capitals only; refuses anything else."""
    need(fewest <= len(text) <= most and re.fullmatch(rb"[0-9A-F]+", text))
    return int(text, 16)


class Digits:
    """A whole number in exactly `width` decimal digits, from low to high."""
    fields = 1
    values = 1

    def __init__(self, width, low, high):
        self.width, self.low, self.high = width, low, high

    def read(self, texts):
        value = decimal(texts[0], self.width)
        need(self.low <= value <= self.high)
        return [value]

    def write(self, values):
        need(self.low <= values[0] <= self.high)
        return [b"%0*d" % (self.width, values[0])]


class Letter:
    """One letter out of those listed, held as its byte."""
    fields = 1
    values = 1

    def __init__(self, allowed):
        self.allowed = allowed

    def read(self, texts):
        need(len(texts[0]) == 1 and texts[0] in self.allowed)
        return [texts[0][0]]

    def write(self, values):
        need(values[0] in list(self.allowed))
        return [bytes(values)]


class Time:
    """hhmmss.ss, held in hundredths of a second."""
    fields = 1
    values = 1

    def read(self, texts):
        match = re.fullmatch(rb"([0-9]{2})([0-9]{2})([0-9]{2})\.([0-9]{2})", texts[0])
        need(match)
        hours, minutes, seconds, hundredths = map(int, match.groups())
        need(hours <= 23 and minutes <= 59 and seconds <= 59)
        return [((hours * 60 + minutes) * 60 + seconds) * 100 + hundredths]

    def write(self, values):
        need(0 <= values[0] <= 8639999)
        seconds, hundredths = divmod(values[0], 100)
        minutes, second = divmod(seconds, 60)
        hour, minute = divmod(minutes, 60)
        return [b"%02d%02d%02d.%02d" % (hour, minute, second, hundredths)]


class Number:
    """1 to 6 digits, optionally a point and 1 to 3 digits, held in thousandths; `below` is the first value too large."""
    fields = 1
    values = 1

    def __init__(self, below=1000000000, minus=False):
        self.below, self.minus = below, minus

    def in_range(self, value):
        lowest = -self.below + 1 if self.minus else 0
        return lowest <= value < self.below

    def read(self, texts):
        match = re.fullmatch(rb"(-?)([0-9]{1,6})(?:\.([0-9]{1,3}))?", texts[0])
        need(match and (self.minus or not match[1]))
        value = int(match[2]) * 1000 + int((match[3] or b"").ljust(3, b"0"))
        if match[1]:
            value = -value
        need(self.in_range(value))
        return [value]

    def write(self, values):
        need(self.in_range(values[0]))
        whole, thousandths = divmod(abs(values[0]), 1000)
        text = b"%d" % whole
        if thousandths:
            text += (b".%03d" % thousandths).rstrip(b"0")
        return [b"-" + text if values[0] < 0 else text]


class Optional:
    """A form of one field that may be empty: a mark comes before its numbers, and missing ones are held as zero."""
    fields = 1

    def __init__(self, form):
        self.form = form
        self.values = 1 + form.values

    def read(self, texts):
        if texts[0] == b"":
            return [0] * self.values
        return [1] + self.form.read(texts)

    def write(self, values):
        if is_there(values[0]):
            return self.form.write(values[1:])
        need(not any(values[1:]))
        return [b""]


class WithUnit:
    """An optional number and its unit letter; the letter may be empty only where the number is, and then is left empty."""
    fields = 2
    values = 2

    def __init__(self, number, unit):
        self.number, self.unit = Optional(number), unit

    def read(self, texts):
        values = self.number.read(texts[:1])
        need(texts[1] == self.unit or texts == [b"", b""], 1)
        return values

    def write(self, values):
        text = self.number.write(values)
        return text + [self.unit if values[0] else b""]


class Variation:
    """An optional number below 180 and its letter E or W, by the unit-letter rule; east is positive, zero is written E."""
    fields = 2
    values = 2
    number = Optional(Number(180000))

    def read(self, texts):
        mark, value = self.number.read(texts[:1])
        need(texts[1] in (b"E", b"W") or texts == [b"", b""], 1)
        return [mark, -value if texts[1] == b"W" else value]

    def write(self, values):
        mark, value = values
        text = self.number.write([mark, abs(value)])
        letter = b"W" if value < 0 else b"E"
        return text + [letter if mark else b""]


class Empty:
    """A field that has to be empty and holds nothing."""
    fields = 1
    values = 0

    def read(self, texts):
        need(texts[0] == b"")
        return []

    def write(self, values):
        return [b""]


class Fixed:
    """A field that has to be one fixed text and holds nothing."""
    fields = 1
    values = 0

    def __init__(self, text):
        self.text = text

    def read(self, texts):
        need(texts[0] == self.text)
        return []

    def write(self, values):
        return [self.text]
