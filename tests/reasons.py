"""Why a line was refused, worked out apart from the repository's code: the words of a row of `listing words` and of the stand-in."""
from functools import reduce

FORMS = {
    "t": "hhmmss.ss or empty",
    "a": "ddmm.mmmm up to 9000.0000, or empty",
    "b": "N or S, empty exactly where the latitude is",
    "c": "dddmm.mmmm up to 18000.0000, empty exactly where the latitude is",
    "d": "E or W, empty exactly where the longitude is",
    "k": "1 to 6 digits, then perhaps a point and 1 to 3 digits, or empty",
    "h": "1 to 6 digits, then perhaps a point and 1 to 3 digits, a minus before them or none, or empty",
    "o": "1 to 6 digits, then perhaps a point and 1 to 3 digits, below 360, or empty",
    "u": "or empty where the value before it is",
    "s": "A or V",
    "m": "A, D, E, M, S or N",
    "n": "01 to 99 or empty",
    "e": "00 to 90 or empty",
    "i": "000 to 359 or empty",
    "g": "00 to 99 or empty",
    "x": "four digits 0-9 or A-F, bits 7 and 12 to 15 zero",
    "z": "hhmm from 0000 to 1359, a minus before it or none but not -0000",
    "r": "1200 to 115200 without leading zeros",
}
POSITION = "latitude%a|north or south%b|longitude%c|east or west%d"
TIME = "time of day UTC%t"
ENTRY = "|satellite number, 01 to 99|elevation in degrees%e|azimuth in degrees%i|signal in dB%g"
# The fields of each kind: the name with its unit, and the form, or the letter of a form that several fields have.
FIELDS = {
    "GGA": TIME + "|" + POSITION + "|fix quality, one digit 0 to 8|satellites used, two digits or empty|horizontal dilution%k"
    "|altitude above sea level in metres%h|unit M%u|geoid height in metres%h|unit M%u|age of corrections in seconds%k"
    "|reference station, 0000 to 1023 or empty",
    "GLL": POSITION + "|" + TIME + "|status%s|mode%m",
    "GSA": "selection, M or A|fix, one digit 1 to 3" + 12 * "|satellite used%n"
    + "|position dilution%k|horizontal dilution%k|vertical dilution%k",
    "GSV": "lines, one digit 1 to 9|this line, one digit 1 to 9|satellites in view, 00 to 99" + 4 * ENTRY,
    "RMC": TIME + "|status%s|" + POSITION + "|speed in knots%k|true course in degrees%o|date, ddmmyy of a day that exists, or empty"
    "|magnetic variation in degrees, 1 to 6 digits, then perhaps a point and 1 to 3 digits, below 180, or empty"
    "|east or west, E or W%u|mode%m",
    "VTG": "true course in degrees%o|unit T%u|magnetic course in degrees%o|unit M%u|speed in knots%k|unit N%u"
    "|speed in kilometres per hour%k|unit K%u|mode%m",
    "ZDA": TIME + "|day, 01 to 31, or empty|month, 01 to 12, empty exactly where the day is"
    "|year, 1980 to 2079 with a day that exists, empty exactly where the day is"
    "|hours of the zone, 00 to 13, a minus before them or none, or empty"
    "|minutes of the zone, 00 to 59, not 00 behind -00, empty exactly where the hours are",
    "PIRPR": "port, 0, 1 or empty|rate in bits per second, empty to ask, else%r|protocol, 0 to 4, empty only where the rate is"
    "|mask, empty only where the rate is, else%x",
    "PIRTR": "datum, 0 to 4, or empty to ask|zone, empty only where the datum is, else%z",
    "PIRSR": "GPS mask, 1 to 8 digits 0-9 or A-F, -1 for all, or empty|GLONASS mask, 1 to 6 digits 0-9 or A-F, -1 for all, or empty"
    "|nothing, always empty",
    "PIRER": "self-test, 0",
    "PIRPA": "port, 0 or 1|rate in bits per second%r|protocol, 0 to 4|mask%x",
    "PIRTA": "datum, 0 to 4|zone%z",
    "PIRSA": "GPS mask, eight digits 0-9 or A-F|GLONASS mask, six digits 0-9 or A-F|nothing, always empty",
    "PIREA": "self-test code, 0 to 255 without leading zeros",
}
SENTENCES = {
    2: "the two digits differ from the XOR of the body",
    3: "the address is unknown",
    4: "the kind does not have so many fields",
    6: "a line does not go with its group",
    7: "a satellite is repeated in its group",
    8: "the output is shorter than what would be written",
    9: "the sentence is not a command",
    10: "the protocol of the port is not 4",
}
NO_BODY = b"$*!\\^~"
DIGITS = b"0123456789ABCDEF"


def words_of(field):
    """A field in words, from its entry in a row of FIELDS."""
    name, _, letter = field.partition("%")
    return name + (", " + FORMS[letter] if letter else "")


def kind_of(address):
    return address if address.startswith("PIR") else address[2:]


def flaw(sent):
    """The first part of the line rule that fails, in words."""
    size = len(sent)
    if size < 7:
        return f"{size} bytes: too short, a line has at least 7 bytes"
    if size > 82:
        return f"{size} bytes: too long, a line has at most 82 bytes"
    parts = [(1, sent[:1] == b"$", "a line begins with $"), (size, sent[-1:] == b"\n", "a line ends with CR LF"),
             (size, sent[-2:-1] == b"\r", "ends with LF alone, CR LF is required"),
             (size - 4, sent[-5:-4] == b"*", "* is required here, before two digits and CR LF")]
    parts += [(size - k, sent[-k - 1] in DIGITS, "a digit 0-9 or A-F is required here, and small letters are none") for k in (3, 2)]
    parts += [(i, 0x20 <= sent[i - 1] <= 0x7E and sent[i - 1] not in NO_BODY, "it may not stand in a body") for i in range(2, size - 4)]
    for at, holds, words in parts:
        if not holds:
            byte = sent[at - 1]
            shown = f"'{chr(byte)}'" if 0x20 <= byte <= 0x7E else f"hex {byte:02X}"
            return f"byte {at} is {shown}: {words}"
    raise AssertionError(sent)


def reason(sent, number, field):
    """Why a line is refused with a number at a field."""
    if number == 1:
        return flaw(sent).encode()
    body = sent[1:-5]
    address, *fields = body.decode("latin-1").split(",")
    if number == 2:
        more = ": %02X would be right" % reduce(lambda x, y: x ^ y, body)
    elif number == 3:
        more = f": '{address}'"
    elif number == 4:
        count = "3, 7, 11, 15 or 19" if kind_of(address) == "GSV" else len(FIELDS[kind_of(address)].split("|"))
        more = f": {len(fields)} here, {count} required"
    elif number == 5:
        required = words_of(FIELDS[kind_of(address)].split("|")[field - 1])
        return f"'{fields[field - 1]}' in field {field}; required: {required}".encode()
    else:
        more = ""
    return (SENTENCES[number] + more).encode()
