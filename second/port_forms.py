"""The forms of the PIR sentences: rates, masks, and the fields of a question that hang together."""

import re

from forms import Digits, Optional, Wrong, hexadecimal, need
from wide import ShortZone

LOWEST_RATE = 1200
HIGHEST_RATE = 115200
# Bits 7 and 12 to 15 of a port mask are zero.
PORT_MASK_BITS = 0x0F7F
ALL_GPS = 0xFFFFFFFF
ALL_GLONASS = 0xFFFFFF


def is_rate(value):
    """Says whether this is a rate that a port can have."""
    return LOWEST_RATE <= value <= HIGHEST_RATE


def is_port_mask(value):
    """Says whether this is a port mask, all its reserved bits zero."""
    return 0 <= value <= PORT_MASK_BITS and value & ~PORT_MASK_BITS == 0


class Rate:
    """A rate from 1200 to 115200 without leading zeros."""
    fields = 1
    values = 1

    def read(self, texts):
        need(re.fullmatch(rb"[1-9][0-9]{3,5}", texts[0]))
        need(is_rate(int(texts[0])))
        return [int(texts[0])]

    def write(self, values):
        need(is_rate(values[0]))
        return [b"%d" % values[0]]


class PortMask:
    """Four capital hex digits whose reserved bits are zero."""
    fields = 1
    values = 1

    def read(self, texts):
        value = hexadecimal(texts[0], 4, 4)
        need(is_port_mask(value))
        return [value]

    def write(self, values):
        need(is_port_mask(values[0]))
        return [b"%04X" % values[0]]


class SkyMask:
    """A satellite mask: exactly `width` digits in a reply; 1 to `width` digits, or -1 for all ones, in a command."""
    fields = 1
    values = 1

    def __init__(self, width, in_command):
        self.width, self.in_command = width, in_command
        self.all_ones = 16 ** width - 1

    def read(self, texts):
        if self.in_command and texts[0] == b"-1":
            return [self.all_ones]
        fewest = 1 if self.in_command else self.width
        return [hexadecimal(texts[0], fewest, self.width)]

    def write(self, values):
        need(0 <= values[0] <= self.all_ones)
        return [b"%0*X" % (self.width, values[0])]


class SelfTestCode:
    """0 to 255 in one to three digits without needless zeros."""
    fields = 1
    values = 1

    def read(self, texts):
        need(re.fullmatch(rb"0|[1-9][0-9]{0,2}", texts[0]))
        need(int(texts[0]) <= 255)
        return [int(texts[0])]

    def write(self, values):
        need(0 <= values[0] <= 255)
        return [b"%d" % values[0]]


class Question:
    """A row of fields of one number each, the first of which decides. Where it is there, all have to be there.

    Where it is empty, the row is a question: the others are valid or empty in a line and read as missing, and
    in a record they have to be missing. Each field is a mark and a number.
    """

    def __init__(self, *forms):
        self.forms = [Optional(form) for form in forms]
        self.fields = len(forms)
        self.values = 2 * len(forms)

    def read(self, texts):
        result = []
        for at, form in enumerate(self.forms):
            need(texts[at] != b"" or texts[0] == b"", at)
            result += self.said_of(at, form.read, texts[at:at + 1])
        return result if result[0] else [0] * self.values

    def write(self, values):
        result = []
        for at, form in enumerate(self.forms):
            need(bool(values[2 * at]) == bool(values[0]), at)
            result += self.said_of(at, form.write, values[2 * at:2 * at + 2])
        return result

    def said_of(self, at, act, given):
        """Gives what the single form gives, its refusal turned into one at this place of the row."""
        try:
            return act(given)
        except Wrong:
            raise Wrong(at) from None


PORT_CHANGE = Question(Rate(), Digits(1, 0, 4), PortMask())
DATUM_CHANGE = Question(Digits(1, 0, 4), ShortZone())
