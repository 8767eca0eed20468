"""The fifteen kinds of sentence: a line to the numbers of its record, and the numbers back to a line."""

import lines
from forms import (Digits, Empty, Fixed, Letter, Number, Optional, Time, Variation, WithUnit, Wrong)
from port_forms import DATUM_CHANGE, PORT_CHANGE, PortMask, Rate, SelfTestCode, SkyMask
from refusal import Refusal
from wide import LongDate, LongZone, Position, ShortDate, ShortZone

TIME = Optional(Time())
NUMBER = Optional(Number())
SIGNED = Number(minus=True)
COURSE = Number(below=360000)
STATUS = Letter(b"AV")
MODE = Letter(b"ADEMSN")


def read_forms(forms, texts, first=1):
    """Gives the numbers read from the texts, form after form; refuses with 5 at the first wrong field."""
    values = []
    at = 0
    for form in forms:
        try:
            values += form.read(texts[at:at + form.fields])
        except Wrong as wrong:
            raise Refusal(5, 1, first + at + wrong.at) from None
        at += form.fields
    return values


def write_forms(forms, values, first=1):
    """Gives the texts of the numbers, form after form; refuses with 5 at the first field whose value is outside."""
    texts = []
    at = 0
    for form in forms:
        try:
            written = form.write(values[at:at + form.values])
        except Wrong as wrong:
            raise Refusal(5, 1, first + len(texts) + wrong.at) from None
        texts += written
        at += form.values
    return texts


class Kind:
    """A kind of sentence whose fields are always the same."""

    def __init__(self, *forms):
        self.forms = forms
        self.fields = sum(form.fields for form in forms)
        self.values = sum(form.values for form in forms)

    def read(self, texts):
        """Gives the record's numbers; refuses with 4 another count of fields, then with 5."""
        if len(texts) != self.fields:
            raise Refusal(4)
        return read_forms(self.forms, texts)

    def write(self, values):
        """Gives the fields of a record; refuses with 5."""
        return write_forms(self.forms, values)


class SkyKind:
    """GSV: three fields and then up to four entries. The record has four places, the unused ones blank."""
    head = (Digits(1, 1, 9), Digits(1, 1, 9), Digits(2, 0, 99))
    entry = (Digits(2, 1, 99), Optional(Digits(2, 0, 90)), Optional(Digits(3, 0, 359)), Optional(Digits(2, 0, 99)))
    entry_fields = 4
    entry_values = 7
    places = 4
    values = 4 + places * entry_values

    def read(self, texts):
        """Gives the record's numbers; refuses with 4 a count that is not 3, 7, 11, 15 or 19, then with 5."""
        count, rest = divmod(len(texts) - 3, self.entry_fields)
        if rest or not 0 <= count <= self.places:
            raise Refusal(4)
        values = read_forms(self.head + self.entry * count, texts)
        values[3:3] = [count]
        return values + [0] * (self.values - len(values))

    def write(self, values):
        """Gives the fields of a record; refuses with 5, at line 0 for over four entries or a used unused place."""
        count = values[3]
        if not 0 <= count <= self.places:
            raise Refusal(5, 0, 0)
        used_end = 4 + count * self.entry_values
        texts = write_forms(self.head + self.entry * count, values[:3] + values[4:used_end])
        if any(values[used_end:]):
            raise Refusal(5, 0, 0)
        return texts


KINDS = {
    b"GGA": Kind(TIME, Position(), Digits(1, 0, 8), Optional(Digits(2, 0, 99)), NUMBER,
                 WithUnit(SIGNED, b"M"), WithUnit(SIGNED, b"M"), NUMBER, Optional(Digits(4, 0, 1023))),
    b"GLL": Kind(Position(), TIME, STATUS, MODE),
    b"GSA": Kind(Letter(b"MA"), Digits(1, 1, 3), *[Optional(Digits(2, 1, 99))] * 12, NUMBER, NUMBER, NUMBER),
    b"GSV": SkyKind(),
    b"RMC": Kind(TIME, STATUS, Position(), NUMBER, Optional(COURSE), Optional(ShortDate()), Variation(), MODE),
    b"VTG": Kind(WithUnit(COURSE, b"T"), WithUnit(COURSE, b"M"), WithUnit(Number(), b"N"), WithUnit(Number(), b"K"),
                 MODE),
    b"ZDA": Kind(TIME, LongDate(), LongZone()),
    b"PIRPR": Kind(Optional(Digits(1, 0, 1)), PORT_CHANGE),
    b"PIRTR": Kind(DATUM_CHANGE),
    b"PIRSR": Kind(Optional(SkyMask(8, True)), Optional(SkyMask(6, True)), Empty()),
    b"PIRER": Kind(Fixed(b"0")),
    b"PIRPA": Kind(Digits(1, 0, 1), Rate(), Digits(1, 0, 4), PortMask()),
    b"PIRTA": Kind(Digits(1, 0, 4), ShortZone()),
    b"PIRSA": Kind(SkyMask(8, False), SkyMask(6, False), Empty()),
    b"PIREA": Kind(SelfTestCode()),
}


def read_sentence(line):
    """Gives address and record of a line of any kind; refuses with 1 to 5, at line 1."""
    body = lines.body_of(line)
    address = lines.address_of(body)
    return address, KINDS[lines.kind_of(address)].read(lines.fields_of(body))


def write_sentence(address, values, room):
    """Gives the line of a record; refuses with 5, then with 1 over 82 bytes, then with 8 over the room."""
    texts = KINDS[lines.kind_of(address)].write(values)
    line = lines.make(b",".join([address] + texts))
    if len(line) > lines.LONGEST:
        raise Refusal(1)
    if len(line) > room:
        raise Refusal(8)
    return line
