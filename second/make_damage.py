"""Damage for tests: single bytes, single fields with the digits mended, noise, and logs made of all that."""

import lines
from make_text import EDGES, SENTENCES, line_of, sentence

BODY_BYTES = [chr(byte) for byte in range(0x20, 0x7F) if lines.is_body_byte(byte)]
STRANGE = ["GPGNS", "GPSGG", "PIRFV", "PIRRA", "GBGGA", "gpgga", "GPggA", "PIRPX", "GPGG", "GPGGAA", "XXGGA", "GNGSW", "PIRSr",
           "", "GPPIR", "GPRPR", "G,GGA", ",GPGG", "GP,GA"]


def one_byte(rng, line):
    """Gives the line with one byte changed, dropped or added."""
    at = rng.randrange(len(line))
    byte = bytes([rng.choice([rng.randrange(256), rng.randrange(0x20, 0x7F), rng.choice(b"$*!\\^~,\r\n0aAfF")])])
    way = rng.randrange(3)
    if way == 0 and byte != line[at:at + 1]:
        return line[:at] + byte + line[at + 1:]
    if way == 1:
        return line[:at] + line[at + 1:]
    at = rng.randint(0, len(line))
    return line[:at] + byte + line[at:]


def bent(rng, text):
    """Gives a field's text bent a little: emptied, lengthened, shortened, a byte changed, a sign before it."""
    at = rng.randint(0, len(text))
    return rng.choice([
        "",
        text[:at] + rng.choice("0123456789") + text[at:],
        text[:at] + text[at + 1:],
        text[:at] + rng.choice(BODY_BYTES) + text[at + 1:],
        text[:at] + rng.choice(BODY_BYTES) + text[at:],
        "0" + text, "-" + text, "+" + text, text + " ", " " + text, text.lower(), text + "." + text, text + ".0",
        "0" * len(text), "9" * len(text)])


def mutate_field(rng, texts, names):
    """Changes one field in place: an edge of its form most of the time, else its own text bent."""
    at = rng.randrange(len(texts))
    if rng.random() < 0.6:
        texts[at] = rng.choice(EDGES[names[at]])
    elif rng.random() < 0.5:
        texts[at] = ""
    else:
        texts[at] = bent(rng, texts[at])


def mended(rng, kind=None):
    """Gives a line with right digits in which one or two fields, the commas or the address are not as they were."""
    address, texts, names = sentence(rng, kind)
    way = rng.random()
    if way < 0.75:
        for _ in range(rng.choice([1, 1, 1, 2, 3])):
            mutate_field(rng, texts, names)
    elif way < 0.83:
        texts.insert(rng.randint(0, len(texts)), "")
    elif way < 0.91:
        del texts[rng.randrange(len(texts))]
    elif way < 0.94:
        texts = texts + rng.choice([["", ""], [""] * 4, ["1"], texts[:1], texts])
    else:
        address = rng.choice(STRANGE + [other for other in SENTENCES if len(other) == 5])
    return line_of(address, texts)


def of_length(rng, length):
    """Gives a line of this length, 78 or more, with right digits: a GSA with long numbers or one of unknown address."""
    spare = length - 78
    if spare > 6 or rng.random() < 0.3:
        return lines.make(b"GPTXT," + b"x" * (length - 12))
    numbers = ["%06d.%d" % (rng.randrange(10 ** 6), rng.randint(1, 9)) for _ in range(3)]
    for at in range(spare):
        numbers[at % 3] += str(rng.randint(1, 9))
    satellites = ["%02d" % rng.randint(1, 99) for _ in range(12)]
    return line_of("GPGSA", ["A", "3"] + satellites + numbers)


def bare(rng):
    """Gives a line that is odd as a whole: short ends, no commas, wrong case of the digits, wrong ends."""
    line = line_of(*sentence(rng)[:2])
    body = line[1:-5]
    return rng.choice([
        lines.make(b""), lines.make(b","), lines.make(b"A"), lines.make(body[:5]), lines.make(body[:6]), lines.make(body + b","),
        line[:-4] + line[-4:-2].lower() + b"\r\n", line[:-2] + b"\n", line[:-2] + b"\n\r", line[:-2], line[:-1],
        line[:-5] + b"\r\n",
        b"!" + line[1:], line[1:], line + b"\n", b"$" + line, b"$\n", b"$\r\n", b"\n", b"$*00\r\n",
        lines.make(body[:5] + body[6:]), line[:-4] + line[-3:-2] + line[-4:-3] + b"\r\n"])


def some_line(rng):
    """Gives a line: sound, hurt by one byte, hurt and mended, odd as a whole, or of a length about the longest."""
    way = rng.random()
    if way < 0.35:
        return line_of(*sentence(rng)[:2])
    if way < 0.5:
        return one_byte(rng, line_of(*sentence(rng)[:2]))
    if way < 0.9:
        return mended(rng)
    if way < 0.95:
        return bare(rng)
    return of_length(rng, rng.randint(78, 90))


def noise(rng):
    """Gives bytes between lines: random ones, pieces of lines, ends alone, a line too long for the finder."""
    line = line_of(*sentence(rng)[:2])
    return rng.choice([
        bytes(rng.randrange(256) for _ in range(rng.randint(1, 40))),
        line[:rng.randint(1, len(line))],
        line[:rng.randint(1, len(line) - 1)] + line,
        line[rng.randrange(len(line)):],
        b"\n", b"\r\n", b"$", b"$$", b"$\n", b"noise\n", b"noise" + line, b"\n\n$",
        b"$" + b"A" * (rng.randint(75, 90)) + b"\r\n",
        b"$" + b"B" * 200 + line,
        b"$" + b"C" * 100 + b"\n",
    ])


def log(rng, count):
    """Gives the bytes of a log of so many pieces, lines and noise."""
    pieces = []
    for _ in range(count):
        pieces.append(noise(rng) if rng.random() < 0.1 else some_line(rng))
    return b"".join(pieces)
