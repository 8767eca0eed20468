"""The line: its rule, its digits, its address, its fields; cutting bytes into lines and finding lines in a stream."""

from refusal import Refusal

SHORTEST = 7
LONGEST = 82
DOLLAR = 0x24
COMMA = 0x2C
LF = 0x0A
FORBIDDEN = b"$*!\\^~"
HEX = b"0123456789ABCDEF"

TALKERS = (b"GP", b"GL", b"GA", b"GQ", b"GN")
TYPES = (b"GGA", b"GLL", b"GSA", b"GSV", b"RMC", b"VTG", b"ZDA")
COMMANDS = (b"PIRPR", b"PIRTR", b"PIRSR", b"PIRER")
REPLIES = (b"PIRPA", b"PIRTA", b"PIRSA", b"PIREA")


def xor(body):
    """Gives the XOR of all bytes, 0 for none."""
    result = 0
    for byte in body:
        result ^= byte
    return result


def is_body_byte(byte):
    """Says whether a byte may stand between the dollar and the star."""
    return 0x20 <= byte <= 0x7E and byte not in FORBIDDEN


def obeys_rule(line):
    """Says whether the bytes have the shape of a line; whether the digits are the right ones is not asked."""
    if not SHORTEST <= len(line) <= LONGEST:
        return False
    body, end = line[1:-5], line[-5:]
    return (line[0] == DOLLAR
            and all(is_body_byte(byte) for byte in body)
            and end[0:1] == b"*"
            and end[1] in HEX and end[2] in HEX
            and end[3:] == b"\r\n")


def body_of(line):
    """Gives the body of a line; refuses with 1 what is no line and with 2 digits that differ from the XOR."""
    if not obeys_rule(line):
        raise Refusal(1)
    body = line[1:-5]
    if line[-4:-2] != b"%02X" % xor(body):
        raise Refusal(2)
    return body


def kind_of(address):
    """Gives the kind that five address bytes name: a type, or a PIR address in full; None where they name none."""
    if address in COMMANDS or address in REPLIES:
        return address
    if address[:2] in TALKERS and address[2:] in TYPES:
        return address[2:]
    return None


def address_of(body):
    """Gives the address of a body; refuses with 3 where the sixth byte is not the first comma or it is unknown."""
    if body.find(b",") != 5 or kind_of(body[:5]) is None:
        raise Refusal(3)
    return body[:5]


def fields_of(body):
    """Gives the fields after the address, of a body that has one; a trailing comma makes one more, empty field."""
    return body[6:].split(b",")


def field(line, n):
    """Gives start and end, in the line, of field n counted from 1; refuses with 1 to 3, or 4 where there is no field n."""
    body = body_of(line)
    address_of(body)
    fields = fields_of(body)
    if not 1 <= n <= len(fields):
        raise Refusal(4)
    start = 7 + sum(len(text) + 1 for text in fields[:n - 1])
    return start, start + len(fields[n - 1])


def make(body):
    """Gives the line with this body: dollar, body, star, the XOR in two digits, CR, LF. Its length is not looked at."""
    return b"$" + body + b"*%02X\r\n" % xor(body)


def cut(data):
    """Gives the bytes cut after each LF; a rest without LF is a line too, and no bytes are one empty line."""
    parts = data.split(b"\n")
    result = [part + b"\n" for part in parts[:-1]]
    if parts[-1] or not result:
        result.append(parts[-1])
    return result


class Finder:
    """Finds lines in a stream of bytes, from a dollar through the next LF, at most 82 bytes long."""

    def __init__(self):
        self.held = None

    def feed(self, byte):
        """Takes one byte; gives the line that ends with it, or None."""
        if byte == DOLLAR:
            self.held = bytearray()
        if self.held is not None:
            self.held.append(byte)
        if byte != LF:
            return None
        found, self.held = self.held, None
        if found is None or len(found) > LONGEST:
            return None
        return bytes(found)


def find_all(data):
    """Gives all lines that the finder gives out for these bytes, in order."""
    finder = Finder()
    found = (finder.feed(byte) for byte in data)
    return [line for line in found if line is not None]
