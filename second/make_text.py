"""Texts for tests: sound fields of every kind, the edges of each field, and sentences made of them.

This file knows the forms by itself; it uses nothing of the reader and the writer but the making of a line.
"""

import lines

HEX = "0123456789ABCDEF"

# For each field, texts at, just inside and just outside its form.
EDGES = {
    "time": "000000.00 235959.99 240000.00 236000.00 235960.00 225960.00 23595.99 235959.9 235959.999 235959 "
            "005959.99 2359:9.99 -10000.00 235959,99 235959.9A 225959.99 235961.00 995959.99".split(),
    "lat": "9000.0000 9000.0001 0000.0000 8959.9999 8960.0000 9001.0000 9100.0000 5550.611 5550.61111 5550 05550.6111 "
           "-550.6111 555O.6111 5550,6111 0060.0000 0059.9999 8999.9999 9959.9999".split(),
    "ns": "N S E W n NN 0 NS".split(),
    "lon": "18000.0000 18000.0001 00000.0000 17959.9999 17960.0000 18100.0000 3732.2534 003732.2534 03732.253 "
           "03732.25341 -3732.2534 0373B.2534 19000.0000 09000.0000 17999.9999 99959.9999".split(),
    "ew": "E W N S e EE 0 EW".split(),
    "quality": "0 8 9 00 A - 1".split(),
    "count": "00 99 0 100 1A -1 07".split(),
    "number": "0 000000 999999 999999.999 1000000 0999999 0.001 1. .5 . 1.2345 -1 -0 +5 1.0 1.50 0.000 1e3 1..2 1.2.3 "
              "007.700 1,5 0000000 - 100000.1".split(),
    "signed": "0 -0 -0.000 -0.001 -999999.999 999999.999 -1000000 -- - -.5 -5. --5 +5 -00.5 - -1.2345 -0000000 -1".split(),
    "course": "0 359.999 360 360.0 359.9999 000.0 -1 359 361 0359.9 00000.1 000360 999999.999".split(),
    "variation": "0 179.999 180 180.000 0.000 -1 179.9 181 -0 000179 999999.999".split(),
    "M": "M m N MM".split(),
    "T": "T t M TT".split(),
    "N": "N n K NN".split(),
    "K": "K k N KK".split(),
    "station": "0000 1023 1024 0 999 00000 10230 9999 1A23 -001".split(),
    "status": "A V D a N AA 1".split(),
    "mode": "A D E M S N F P R V a AA 1".split(),
    "selection": "M A a m 1 MA".split(),
    "fix": "1 2 3 0 4 03 A".split(),
    "satellite": "01 99 00 1 100 1A 32 -1".split(),
    "date": "290200 290223 290224 311279 010180 311299 010100 010180 310400 310600 310900 311100 300200 000100 320100 010000 "
            "011300 0101800 10180 010179 280223 290280 290279 ABCDEF 290279 290276 2902-4".split(),
    "day": "00 01 28 29 30 31 32 1 001 1A".split(),
    "month": "00 01 02 04 06 09 11 12 13 2 002".split(),
    "year": "1979 1980 2079 2080 2000 2023 2024 1900 2100 80 02000 19A0 0000 9999".split(),
    "hours": "00 -00 13 -13 14 -14 +00 +05 0 000 -0 --0 1- -".split(),
    "minutes": "00 01 30 59 60 0 000 -00 -1 5A".split(),
    "lines": "0 1 2 3 4 5 6 7 8 9 10 A 01".split(),
    "elevation": "00 90 91 0 000 -2 5A 89 99".split(),
    "azimuth": "000 359 360 0 00 0000 35A 358 999".split(),
    "signal": "00 99 0 100 -1 5A 01".split(),
    "port": "0 1 2 00 A -1".split(),
    "rate": "1200 1199 115200 115201 4800 04800 4801 9600 1000000 0 -4800 48OO 115199 12E3 999999 01200".split(),
    "protocol": "0 1 2 3 4 5 00 04 A".split(),
    "mask": "0F79 0080 007F 0FFF 0F7F 1000 8000 0f79 F79 00F79 0000 007f 4000 2000 0F80 FFFF G000 -001".split(),
    "datum": "0 1 2 3 4 5 00 A -1".split(),
    "zone": "0000 -0000 -0030 -1359 1359 1360 1400 -1400 +0100 000 00000 -001 05:0 -00000 0059 -0001 -0060 0A00".split(),
    "gps": "7FFEFFFF FFFFFFFF 0 00000000 -1 -2 000000000 1FFFFFFFF 7ffeffff F -0 --1 G 80000000 -01 1 0FFFFFFFF -FFFFFFF".split(),
    "glonass": "FFFFFE FFFFFF 0 000000 -1 -2 0000000 1FFFFFF fffffe F -0 G 800000 -01 1 -FFFFF".split(),
    "none": "0 1 FFFFFFFF -1".split(),
    "zero": "0 1 00 -0 A 0.0".split(),
    "code": "0 255 256 00 9 10 99 100 -1 007 1A 0255 1000 299 999".split(),
}


def pick(rng, chance, good):
    """Gives a sound text, or an empty one as often as the chance says."""
    return "" if rng.random() < chance else good


def any_number(rng, whole=6):
    """Gives a number text that is short most of the time, with up to three fraction digits."""
    text = str(rng.randrange(10 ** rng.randint(1, whole)))
    text = text.rjust(rng.randint(1, whole), "0") if rng.random() < 0.2 else text
    if rng.random() < 0.6:
        text += "." + "".join(rng.choice("00123456789") for _ in range(rng.randint(1, 3)))
    return text


def valued(rng, text, letters):
    """Gives a value and its unit letter; the letter is sometimes there without the value."""
    if text:
        return [text, rng.choice(letters)]
    return ["", rng.choice(["", "", rng.choice(letters)])]


# The functions below that are named after a block of fields give the sound texts of that block.

def time(rng):
    text = "%02d%02d%02d.%02d" % (rng.randrange(24), rng.randrange(60), rng.randrange(60), rng.randrange(100))
    return [pick(rng, 0.1, text)]


def position(rng):
    if rng.random() < 0.15:
        return ["", "", "", ""]
    lat = rng.choice([0, 54000000, rng.randrange(54000001), rng.randrange(54000001), rng.randrange(54000001)])
    lon = rng.choice([0, 108000000, rng.randrange(108000001), rng.randrange(108000001), rng.randrange(108000001)])
    return ["%02d%02d.%04d" % (lat // 600000, lat // 10000 % 60, lat % 10000), rng.choice("NS"),
            "%03d%02d.%04d" % (lon // 600000, lon // 10000 % 60, lon % 10000), rng.choice("EW")]


def height(rng):
    sign = rng.choice(["", "", "-"])
    return valued(rng, pick(rng, 0.2, sign + any_number(rng, 4)), "M")


def below(rng, limit):
    """Gives a number text below a limit, or none."""
    text = str(rng.randrange(limit)) + rng.choice(["", ".0", ".5", ".999", ".%d" % rng.randrange(1000)])
    return pick(rng, 0.15, text)


def real_date(rng):
    """Gives day, month and year of a date that exists."""
    month = rng.randint(1, 12)
    year = rng.choice([1980, 2079, 2000, rng.randint(1980, 2079), rng.randint(1980, 2079)])
    last = 29 if month == 2 and year % 4 == 0 else 28 if month == 2 else 30 if month in (4, 6, 9, 11) else 31
    return rng.choice([1, last, rng.randint(1, last)]), month, year


def short_date(rng):
    day, month, year = real_date(rng)
    return [pick(rng, 0.15, "%02d%02d%02d" % (day, month, year % 100))]


def long_date(rng):
    day, month, year = real_date(rng)
    return rng.choice([["", "", ""]] + [["%02d" % day, "%02d" % month, "%04d" % year]] * 6)


def zone_size(rng):
    """Gives sign, hours and minutes of a zone."""
    hours, minutes = rng.randrange(14), rng.choice([0, 30, rng.randrange(60)])
    return rng.choice(["", "-"]) if hours or minutes else "", hours, minutes


def long_zone(rng):
    sign, hours, minutes = zone_size(rng)
    return rng.choice([["", ""]] + [["%s%02d" % (sign, hours), "%02d" % minutes]] * 5)


def entry(rng, number=None):
    """Gives the four texts of one satellite."""
    number = rng.randint(1, 99) if number is None else number
    return ["%02d" % number, pick(rng, 0.15, "%02d" % rng.randrange(91)),
            pick(rng, 0.15, "%03d" % rng.randrange(360)), pick(rng, 0.3, "%02d" % rng.randrange(100))]


def port_change(rng):
    rest = [str(rng.randrange(5)), "%04X" % (rng.randrange(0x1000) & 0x0F7F)]
    if rng.random() < 0.3:
        return [""] + [pick(rng, 0.6, text) for text in rest]
    return [str(rng.choice([1200, 4800, 9600, 115200, rng.randint(1200, 115200)]))] + rest


def datum_change(rng):
    zone = "%s%02d%02d" % zone_size(rng)
    return ["", pick(rng, 0.6, zone)] if rng.random() < 0.3 else [str(rng.randrange(5)), zone]


def sky_mask(rng, width, in_command):
    """Gives a satellite mask, in a command also short, as -1 or empty."""
    text = "".join(rng.choice(HEX) for _ in range(width))
    if not in_command:
        return [text]
    return [rng.choice([text, text, text[:rng.randint(1, width)], "-1", ""])]


# What the fields of each block are called in EDGES, and how a sound block is made.
BLOCKS = {
    "time": (["time"], time),
    "position": (["lat", "ns", "lon", "ew"], position),
    "quality": (["quality"], lambda rng: [str(rng.randrange(9))]),
    "count": (["count"], lambda rng: [pick(rng, 0.2, "%02d" % rng.randrange(100))]),
    "number": (["number"], lambda rng: [pick(rng, 0.15, any_number(rng, rng.choice([1, 2, 6])))]),
    "height": (["signed", "M"], height),
    "station": (["station"], lambda rng: [pick(rng, 0.4, "%04d" % rng.randrange(1024))]),
    "status": (["status"], lambda rng: [rng.choice("AV")]),
    "mode": (["mode"], lambda rng: [rng.choice("ADEMSN")]),
    "selection": (["selection"], lambda rng: [rng.choice("MA")]),
    "fix": (["fix"], lambda rng: [rng.choice("123")]),
    "satellite": (["satellite"], lambda rng: [pick(rng, 0.4, "%02d" % rng.randint(1, 99))]),
    "course": (["course"], lambda rng: [below(rng, 360)]),
    "date": (["date"], short_date),
    "variation": (["variation", "ew"], lambda rng: valued(rng, below(rng, 180), "EW")),
    "true": (["course", "T"], lambda rng: valued(rng, below(rng, 360), "T")),
    "magnetic": (["course", "M"], lambda rng: valued(rng, below(rng, 360), "M")),
    "knots": (["number", "N"], lambda rng: valued(rng, pick(rng, 0.2, any_number(rng)), "N")),
    "kmh": (["number", "K"], lambda rng: valued(rng, pick(rng, 0.2, any_number(rng)), "K")),
    "longdate": (["day", "month", "year"], long_date),
    "longzone": (["hours", "minutes"], long_zone),
    "lines": (["lines"], lambda rng: [str(rng.randint(1, 9))]),
    "sky": (["count"], lambda rng: ["%02d" % rng.randrange(100)]),
    "entry": (["satellite", "elevation", "azimuth", "signal"], entry),
    "askport": (["port"], lambda rng: [rng.choice(["0", "1", ""])]),
    "portchange": (["rate", "protocol", "mask"], port_change),
    "datumchange": (["datum", "zone"], datum_change),
    "askgps": (["gps"], lambda rng: sky_mask(rng, 8, True)),
    "askglonass": (["glonass"], lambda rng: sky_mask(rng, 6, True)),
    "gps": (["gps"], lambda rng: sky_mask(rng, 8, False)),
    "glonass": (["glonass"], lambda rng: sky_mask(rng, 6, False)),
    "none": (["none"], lambda rng: [""]),
    "zero": (["zero"], lambda rng: ["0"]),
    "port": (["port"], lambda rng: [rng.choice("01")]),
    "rate": (["rate"], lambda rng: [str(rng.choice([1200, 4800, 115200, rng.randint(1200, 115200)]))]),
    "protocol": (["protocol"], lambda rng: [rng.choice("01234")]),
    "mask": (["mask"], lambda rng: ["%04X" % (rng.randrange(0x1000) & 0x0F7F)]),
    "datum": (["datum"], lambda rng: [rng.choice("01234")]),
    "zone": (["zone"], lambda rng: ["%s%02d%02d" % zone_size(rng)]),
    "code": (["code"], lambda rng: [str(rng.choice([0, 255, rng.randrange(256)]))]),
}

SENTENCES = {
    "GGA": "time position quality count number height height number station",
    "GLL": "position time status mode",
    "GSA": "selection fix " + "satellite " * 12 + "number number number",
    "GSV": "lines lines sky",
    "RMC": "time status position number course date variation mode",
    "VTG": "true magnetic knots kmh mode",
    "ZDA": "time longdate longzone",
    "PIRPR": "askport portchange",
    "PIRTR": "datumchange",
    "PIRSR": "askgps askglonass none",
    "PIRER": "zero",
    "PIRPA": "port rate protocol mask",
    "PIRTA": "datum zone",
    "PIRSA": "gps glonass none",
    "PIREA": "code",
}


def sentence(rng, kind=None):
    """Gives a sound sentence: its address, its fields as texts and the names of their edges."""
    kind = kind or rng.choice(list(SENTENCES))
    blocks = SENTENCES[kind].split()
    if kind == "GSV":
        blocks += ["entry"] * rng.randrange(5)
    address = kind if len(kind) == 5 else rng.choice(lines.TALKERS).decode("ascii") + kind
    names, texts = [], []
    for block in blocks:
        names += BLOCKS[block][0]
        texts += BLOCKS[block][1](rng)
    return address, texts, names


def line_of(address, texts):
    """Gives the line of an address and its fields, digits right, its length and its bytes not looked at."""
    return lines.make(",".join([address] + texts).encode("latin-1"))
