"""The forms that join several fields or parts into one value: positions, dates and zones."""

import re

from forms import Wrong, decimal, is_there, need

# Ten-thousandths of a minute of arc in a degree.
DEGREE = 60 * 10000
MOST_LATITUDE = 90 * DEGREE
MOST_LONGITUDE = 180 * DEGREE
# Signed minutes of the widest zone, 13 hours and 59 minutes.
MOST_ZONE = 13 * 60 + 59


def read_arc(text, degree_digits, most):
    """Gives the ten-thousandths of a minute said by degrees and minutes; refuses another form, 60 minutes or too much."""
    match = re.fullmatch(rb"([0-9]{%d})([0-9]{2})\.([0-9]{4})" % degree_digits, text)
    need(match)
    degrees, minutes, fraction = map(int, match.groups())
    need(minutes < 60)
    value = degrees * DEGREE + minutes * 10000 + fraction
    need(value <= most)
    return value


def write_arc(value, degree_digits, positive, negative):
    """Gives the two texts of a signed arc in range, its size and its letter; zero takes the positive letter."""
    degrees, rest = divmod(abs(value), DEGREE)
    minutes, fraction = divmod(rest, 10000)
    size = b"%0*d%02d.%04d" % (degree_digits, degrees, minutes, fraction)
    return [size, negative if value < 0 else positive]


class Position:
    """Latitude, N or S, longitude, E or W: all four empty or none. Numbers: mark, latitude, longitude."""
    fields = 4
    values = 3

    def read(self, texts):
        if texts[0] == b"":
            for at in (1, 2, 3):
                need(texts[at] == b"", at)
            return [0, 0, 0]
        latitude = read_arc(texts[0], 2, MOST_LATITUDE)
        need(texts[1] in (b"N", b"S"), 1)
        try:
            longitude = read_arc(texts[2], 3, MOST_LONGITUDE)
        except Wrong:
            raise Wrong(2) from None
        need(texts[3] in (b"E", b"W"), 3)
        return [1,
                -latitude if texts[1] == b"S" else latitude,
                -longitude if texts[3] == b"W" else longitude]

    def write(self, values):
        mark, latitude, longitude = values
        there = is_there(mark)
        need(abs(latitude) <= (MOST_LATITUDE if there else 0), 0)
        need(abs(longitude) <= (MOST_LONGITUDE if there else 0), 2)
        if not there:
            return [b""] * 4
        return write_arc(latitude, 2, b"N", b"S") + write_arc(longitude, 3, b"E", b"W")


def is_leap(year):
    """Says whether a Gregorian year has a 29 February."""
    return year % 4 == 0 and (year % 100 != 0 or year % 400 == 0)


def days_in(month, year):
    """Gives the number of days of a month 1 to 12."""
    if month == 2:
        return 29 if is_leap(year) else 28
    return 30 if month in (4, 6, 9, 11) else 31


def is_date(day, month, year):
    """Says whether this is a real date of the years 1980 to 2079."""
    return 1980 <= year <= 2079 and 1 <= month <= 12 and 1 <= day <= days_in(month, year)


class ShortDate:
    """ddmmyy in one field, yy 80 to 99 meaning 19yy and 00 to 79 meaning 20yy. Numbers: day, month, year."""
    fields = 1
    values = 3

    def read(self, texts):
        decimal(texts[0], 6)
        day, month, year = int(texts[0][:2]), int(texts[0][2:4]), int(texts[0][4:])
        year += 1900 if year >= 80 else 2000
        need(is_date(day, month, year))
        return [day, month, year]

    def write(self, values):
        day, month, year = values
        need(is_date(day, month, year))
        return [b"%02d%02d%02d" % (day, month, year % 100)]


class LongDate:
    """Day, month and four-digit year in three fields, all or none. Numbers: mark, day, month, year."""
    fields = 3
    values = 4

    def read(self, texts):
        if texts[0] == b"":
            need(texts[1] == b"", 1)
            need(texts[2] == b"", 2)
            return [0, 0, 0, 0]
        parts = []
        for at, width in enumerate((2, 2, 4)):
            need(re.fullmatch(rb"[0-9]{%d}" % width, texts[at]), at)
            parts.append(int(texts[at]))
            self.check_part(parts, at)
        return [1] + parts

    def write(self, values):
        mark, parts = values[0], list(values[1:])
        if not is_there(mark):
            for at in (0, 1, 2):
                need(parts[at] == 0, at)
            return [b""] * 3
        for at in (0, 1, 2):
            self.check_part(parts, at)
        return [b"%02d" % parts[0], b"%02d" % parts[1], b"%04d" % parts[2]]

    def check_part(self, parts, at):
        """Refuses a day or month out of range at its own field, and a date that does not exist at the year."""
        day_ok, month_ok = 1 <= parts[0] <= 31, at < 1 or 1 <= parts[1] <= 12
        need(day_ok, 0)
        need(month_ok, 1)
        need(at < 2 or is_date(*parts), 2)


def zone_parts(value):
    """Gives sign, hours and minutes of a zone in range, the sign as a text that is empty or a minus."""
    need(-MOST_ZONE <= value <= MOST_ZONE)
    hours, minutes = divmod(abs(value), 60)
    return b"-" if value < 0 else b"", hours, minutes


class LongZone:
    """Zone hours with optional minus and zone minutes in two fields, both or none. Numbers: mark, signed minutes."""
    fields = 2
    values = 2

    def read(self, texts):
        if texts[0] == b"":
            need(texts[1] == b"", 1)
            return [0, 0]
        match = re.fullmatch(rb"(-?)([0-9]{2})", texts[0])
        need(match and int(match[2]) <= 13, 0)
        need(re.fullmatch(rb"[0-5][0-9]", texts[1]), 1)
        size = int(match[2]) * 60 + int(texts[1])
        need(size > 0 or not match[1], 1)
        return [1, -size if match[1] else size]

    def write(self, values):
        mark, value = values
        if not is_there(mark):
            need(value == 0, 0)
            return [b"", b""]
        sign, hours, minutes = zone_parts(value)
        return [b"%s%02d" % (sign, hours), b"%02d" % minutes]


class ShortZone:
    """hhmm in one field, with a minus before it if negative. Number: signed minutes."""
    fields = 1
    values = 1

    def read(self, texts):
        match = re.fullmatch(rb"(-?)([0-9]{2})([0-5][0-9])", texts[0])
        need(match and int(match[2]) <= 13)
        size = int(match[2]) * 60 + int(match[3])
        need(size > 0 or not match[1])
        return [-size if match[1] else size]

    def write(self, values):
        return [b"%s%02d%02d" % zone_parts(values[0])]


