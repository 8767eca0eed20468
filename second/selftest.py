"""Checks the second program against the worked rows, the decisions and itself: `python3 second/selftest.py`."""

import datetime
import itertools
import random
import sys

import index
import lines
import make_index
import make_rows
import make_text
from generate import ROWS, generate
from make_damage import mended
from modes import answer, answers
from receiver import Settings, mask_counts, step
from refusal import Refusal
from selftest_cases import BODIES, COMMANDS, FIELDS, INDEXES, LINES, RAW_GROUPS, RECORDS
from sentences import KINDS, read_sentence, write_sentence
from sky import read_group, write_group
from wide import is_date

# Kinds whose generated records can be too long, or be questions that hold too much.
MAY_REFUSE = {"GGA": 1, "RMC": 1, "GSA": 1, "PIRPR": 5, "PIRTR": 5}

# For each kind, fields that are all filled and fields that are empty where they may be.
EXAMPLES = {
    "GGA": ["000000.00,0000.0000,N,00000.0000,E,0,00,0,0,M,0,M,0,0000", ",,,,,0,,,,,,,,"],
    "GLL": ["0000.0000,N,00000.0000,E,000000.00,A,A", ",,,,,A,A"],
    "GSA": ["A,1,01,01,01,01,01,01,01,01,01,01,01,01,0,0,0", "A,1,,,,,,,,,,,,,,,"],
    "GSV": ["1,1,00,01,00,000,00", "1,1,00,01,,,"],
    "RMC": ["000000.00,A,0000.0000,N,00000.0000,E,0,0,010100,0,E,A", ",A,,,,,,,,,,A"],
    "VTG": ["0,T,0,M,0,N,0,K,A", ",,,,,,,,A"],
    "ZDA": ["000000.00,01,12,2000,00,30", ",,,,,"],
    "PIRPR": ["0,4800,4,007F", ",,,"],
    "PIRTR": ["0,0000", ","],
    "PIRSR": ["0,0,", ",,"],
    "PIRPA": ["0,4800,4,007F"],
    "PIRTA": ["0,0000"],
    "PIRSA": ["00000000,000000,"],
}
# Days with months that never have them, told apart only at the year.
NO_DATES = [[str(day), "%02d" % month] for month in (2, 4, 6, 9, 11) for day in (30, 31) if month == 2 or day == 31]

counts = {True: 0, False: 0}


def check(name, got, wanted):
    """Counts one check, and prints it where it failed."""
    counts[got == wanted] += 1
    if got != wanted:
        print("FAILED %s: got %r, wanted %r" % (name, got, wanted))


def said(act, *given):
    """Gives what a function gives, or its refusal as number, line and field."""
    try:
        return act(*given)
    except Refusal as refusal:
        return refusal.number, refusal.line, refusal.field


def ended(text):
    """Gives the text as bytes with CR LF."""
    return text.encode("ascii") + b"\r\n"


def check_listing():
    """The sample of document 01, the empty input, and what the finder does with noise and lengths."""
    data = ended("$GPGSV,5,5,17,77,71,048,53*43") + ended("$GPSGG,CSTART*6B") + ended("$GPGGA,000008.00,,,,,0,,,,,,*40")
    head = "no address answer"
    check("listing", answers("listing", data), [head, "1 GPGSV ok", "2 - refused 3 0", "3 GPGGA refused 4 0"])
    check("listing of nothing", answers("listing", b""), [head])
    check("rest without LF", answers("listing", data[:-1]), [head, "1 GPGSV ok", "2 - refused 3 0"])
    for length, found in ((82, 1), (83, 0), (2, 1), (81, 1), (200, 0)):
        check("finder at %d" % length, len(lines.find_all(b"$" + b"x" * (length - 2) + b"\n")), found)
    check("each dollar starts anew", lines.find_all(b"x$ab$cd\n\ne\n$f\r\n$"), [b"$cd\n", b"$f\r\n"])
    check("long before a dollar", lines.find_all(b"$" + b"x" * 100 + b"$y\n"), [b"$y\n"])
    check("cut of nothing", lines.cut(b""), [b""])
    check("cut", lines.cut(b"a\n\nb"), [b"a\n", b"\n", b"b"])
    check("cut without rest", lines.cut(b"a\n"), [b"a\n"])


def check_tables():
    """The worked rows and the examples of the decisions, one by one."""
    check("P11", answer("lines", ""), "refused 1 1 0")
    for text, wanted in LINES:
        check(text, answer("lines", ended(text).hex()), wanted)
    for body, wanted in BODIES:
        got = answer("lines", lines.make(body.encode("ascii")).hex())
        check(body, got.split()[0] if wanted == "ok" else got, wanted)
    for text, n, wanted in FIELDS:
        line = ended(text)
        got = said(lambda: line[slice(*lines.field(line, n))].decode("ascii"))
        check("field %d of %s" % (n, text), got if isinstance(got, str) else got[0], wanted)
    for texts, wanted in RAW_GROUPS:
        check("group %r" % texts, answer("groups", b"".join(map(ended, texts)).hex()), wanted)
    for row, wanted in RECORDS:
        got = answer("write", row)
        check(row, bytes.fromhex(got[3:]).decode("ascii").rstrip() if got.startswith("ok") else got, wanted)
    for mode, row, wanted in INDEXES:
        check("%s %s" % (mode, row), answer(mode, row), wanted)


def check_commands():
    """The commands of the table, one after another from the settings at the start of each row."""
    start = " ".join(str(number) for number in Settings().numbers())
    for port, room, numbers, body, wanted in COMMANDS:
        line = lines.make(body.encode("ascii")).hex() if body else "-"
        got = answer("commands", "%d %d %s %s" % (port, room, numbers or start, line))
        if got.startswith("ok"):
            _, reply, *after = got.split()
            got = bytes.fromhex(reply)[1:-5].decode("ascii") + " " + " ".join(after)
        check("command %s" % body, got, wanted)
    reply, after = step(Settings(), 0, ended("$PIRSR,7FFEFFFF,FFFFFE,*17"), 28)
    check("P10", reply, ended("$PIRSA,7FFEFFFF,FFFFFE,*04"))
    check("P10 counts", mask_counts(after), (30, 23))
    check("room 27", said(step, Settings(), 0, ended("$PIRSR,7FFEFFFF,FFFFFE,*17"), 27), (8, 1, 0))
    check("counts at start", mask_counts(Settings()), (32, 24))
    check("counts refused", said(mask_counts, Settings(zone=840)), (5, 0, 0))


def check_dates():
    """Every day of 1980 to 2079 against the calendar of the standard library, and what does not exist."""
    def real(day, month, year):
        try:
            return bool(datetime.date(year, month, day))
        except ValueError:
            return False
    wrong = [(day, month, year) for year in range(1980, 2080) for month in range(14) for day in range(33)
             if is_date(day, month, year) != real(day, month, year)]
    check("dates", wrong, [])
    check("year before", is_date(31, 12, 1979), False)
    check("year after", is_date(1, 1, 2080), False)


def check_record_round_trips(rng):
    """Records in range: written, read back and found the same; lines too long are refused with 1."""
    for kind in make_rows.COLUMNS:
        lost = 0
        for _ in range(1500):
            address = make_text.sentence(rng, kind)[0].encode("ascii")
            record = make_rows.record(rng, kind, 0)
            line = said(write_sentence, address, record, 82)
            if isinstance(line, tuple) and line[0] == MAY_REFUSE.get(kind):
                continue
            lost += read_sentence(line) != (address, record)
            lost += said(write_sentence, address, record, len(line) - 1) != (8, 1, 0)
        check("%s records come back" % kind, lost, 0)
        check("%s record length" % kind, len(make_rows.record(rng, kind, 0)), KINDS[kind.encode("ascii")].values)


def check_line_round_trips(rng):
    """Sound lines are read; written again they are no longer (but PIRSR) and read to the same record."""
    for kind in make_text.SENTENCES:
        refused = lost = 0
        for _ in range(1500):
            line = make_text.line_of(*make_text.sentence(rng, kind)[:2])
            if len(line) > 82:
                check("too long", said(read_sentence, line), (1, 1, 0))
                continue
            sentence = said(read_sentence, line)
            if len(sentence) != 2:
                refused += 1
                continue
            again = write_sentence(*sentence, 82)
            lost += read_sentence(again) != sentence or (len(again) > len(line) and kind != "PIRSR")
        check("%s lines are read" % kind, refused, 0)
        check("%s lines come back" % kind, lost, 0)


def a_table(rng, count):
    """Gives 36 places, the first `count` of them used by different satellites."""
    numbers = rng.sample(range(1, 100), 36)
    return [[numbers[at]] + make_rows.one_entry(rng)[1:] if at < count else [0] * 7 for at in range(36)]


def check_groups(rng):
    """Groups of every size and talker come back; one byte of room less is refused with 8 at line 0."""
    for count in range(37):
        for talker in lines.TALKERS:
            places = a_table(rng, count)
            data = write_group(talker, count, places, 630)
            check("group of %d" % count, read_group(data), (talker, places[:count]))
            check("room of %d" % count, said(write_group, talker, count, places, len(data) - 1), (8, 0, 0))
    for count in (4, 8, 32, 36):
        total = count // 4
        data = write_group(b"GP", count, a_table(rng, count), 630)
        past = lines.make(b"GPGSV,%d,%d,%02d" % (total, total + 1, count))
        check("empty line past %d" % count, said(read_group, data + past), (6 if total < 9 else 5, total + 1, 2 * (total == 9)))
    places = a_table(rng, 36)
    check("table of 37", said(write_group, b"GP", 37, places, 630), (5, 0, 0))
    check("unused not blank", said(write_group, b"GP", 35, places, 630), (5, 0, 0))
    check("blank used", said(write_group, b"GP", 36, places[:35] + [[0] * 7], 630), (5, 9, 16))
    places[6] = [places[2][0], 0, 0, 0, 0, 1, 99]
    places[7][1:3] = [1, 91]
    check("repeat before the next entry's 5", said(write_group, b"GP", 36, places, 630), (7, 2, 0))
    places[6][1:3] = [0, 5]
    check("5 before 7 of one entry", said(write_group, b"GP", 36, places, 630), (5, 2, 13))


def first_changed(before, after):
    """Gives the number of the first line of `after` that is new or no longer as it was."""
    old, new = lines.cut(before), lines.cut(after)
    return next(k for k, line in enumerate(new, 1) if k > len(old) or line != old[k - 1])


def damaged(data):
    """Gives every byte string that differs from the data by one byte changed, dropped or added."""
    for at in range(len(data) + 1):
        for byte in range(256):
            yield data[:at] + bytes([byte]) + data[at:]
            if at < len(data) and byte != data[at]:
                yield data[:at] + bytes([byte]) + data[at + 1:]
        if at < len(data):
            yield data[:at] + data[at + 1:]


def check_damage(rng):
    """Every single-byte damage of a few groups is refused with 1 or 2 at the first changed line."""
    for count in (0, 1, 4, 5, 9):
        data = write_group(rng.choice(lines.TALKERS), count, a_table(rng, count), 630)
        slipped = 0
        tried = 0
        for hurt in damaged(data):
            answer_ = said(read_group, hurt)
            tried += 1
            slipped += answer_ not in [(1, first_changed(data, hurt), 0), (2, first_changed(data, hurt), 0)]
        check("damage of a group of %d (%d tried)" % (count, tried), slipped, 0)


def goes_on(kind, texts):
    """Says whether these first fields can be gone on with to fields that are read, by full or by empty ones."""
    for example in EXAMPLES[kind]:
        whole = texts + example.split(",")[len(texts):]
        if len(said(KINDS[kind.encode("ascii")].read, whole_bytes(whole))) != 3:
            return True
    return False


def whole_bytes(texts):
    """Gives the texts as bytes."""
    return [text.encode("ascii") for text in texts]


def check_first_wrong(rng):
    """A 5 stands at the first field after which nothing good can follow; a date that does not exist is the exception."""
    for kind in EXAMPLES:
        misplaced = tried = 0
        for _ in range(3000):
            line = mended(rng, kind)
            refusal = said(read_sentence, line)
            if len(refusal) != 3 or refusal[0] != 5 or lines.kind_of(line[1:6]) != kind.encode("ascii"):
                continue
            texts = line[7:-5].decode("ascii").split(",")
            at = refusal[2]
            if kind == "GSV" and len(texts) != 7 or kind == "ZDA" and at == 4 and texts[1:3] in NO_DATES:
                continue
            tried += 1
            misplaced += goes_on(kind, texts[:at]) or not goes_on(kind, texts[:at - 1])
        check("%s first wrong field" % kind, (misplaced, tried > 100), (0, True))


def check_generated():
    """Generated inputs are the same by seed; an accepted group is what the writer writes; rows are all answered."""
    for kind in ["log"] + list(ROWS):
        data = generate(kind, 300, 7)
        check("%s by seed" % kind, data == generate(kind, 300, 7) and data != generate(kind, 300, 8), True)
        if kind != "log":
            check("%s rows" % kind, len(answers(kind, data)), 300)
    listing, records = answers("listing", generate("log", 3000, 3)), answers("records", generate("log", 3000, 3))
    check("listing and records agree", [row.split()[:3] for row in listing[1:]], [row.split()[:3] for row in records])
    strange = 0
    for row in generate("groups", 3000, 5).decode("ascii").split("\n"):
        group = said(read_group, bytes.fromhex(row))
        if len(group) == 2:
            places = group[1] + [[0] * 7] * (36 - len(group[1]))
            strange += write_group(group[0], len(group[1]), places, 630).hex() != row
    check("accepted groups are written so", strange, 0)


def check_stored_numbers(rng):
    """Numbers come back from their groups, whatever follows; with a needless group, and past the most, they do not."""
    numbers = [2 ** bits + more for bits in range(32) for more in (-1, 0, 1)] + [index.MOST]
    numbers += [rng.randint(0, index.MOST) for _ in range(1000)]
    lost = 0
    for number in numbers:
        groups = index.number_bytes(number)
        needless = groups[:-1] + bytes([groups[-1] | 128, 0])
        lost += said(index.number_at, b"xy" + groups + b"\xff", 2) != (number, 2 + len(groups))
        lost += len(groups) != max(1, -(-number.bit_length() // 7))
        lost += said(index.number_at, needless, 0) != (11, 0, 0) or said(index.number_at, groups[:-1], 0) != (11, 0, 0)
    check("stored numbers", lost, 0)
    past = [index.MOST + 1, 2 ** 35 - 1, 2 ** 35, 2 ** 64 - 1]
    check("past the most", {said(index.number_at, index.number_bytes(number), 0) for number in past}, {(11, 0, 0)})


def check_indexes(rng):
    """Entries in order come back, whole and added one by one; each is found; one byte of room less is refused."""
    lost = 0
    for _ in range(1500):
        entries = make_index.sound(rng)
        numbers = [number for entry in entries for number in entry]
        data = index.write_index(numbers, 1000)
        grown = b""
        for entry in entries:
            grown = index.add_entry(grown, entry, 1000)
            lost += said(index.find_exhibit, data, entry.number) != entry[1:]
        lost += grown != data or said(index.read_index, data, len(numbers)) != numbers
        lost += bool(data) and said(index.write_index, numbers, len(data) - 1) != (8, 0, 0)
        lost += bool(data) and said(index.read_index, data, len(numbers) - 1) != (8, 0, 0)
    check("indexes come back", lost, 0)


def check_index_bytes():
    """Of all short byte strings over a few bytes, and of all damage to an index, those that read are what is written."""
    alphabet = bytes([0, 1, 6, 7, 0x52, 0x53, 0x80, 0x81])
    short = [bytes(one) for length in range(6) for one in itertools.product(alphabet, repeat=length)]
    longer = [hurt for row in ("020046080050", "ac02800152", "ffffffff0fadffffff0f52") for hurt in damaged(bytes.fromhex(row))]
    for name, strings in (("short", short), ("damaged", longer)):
        read = [(data, said(index.read_index, data, 99)) for data in set(strings)]
        sound = [(data, numbers) for data, numbers in read if numbers != (11, 0, 0)]
        check("%s bytes that read" % name, [data for data, numbers in sound if index.write_index(numbers, 99) != data], [])
        check("some %s bytes read, most do not" % name, 100 < len(sound) < len(read) / 2, True)


def main():
    """Runs all checks; the last line says how many passed and failed."""
    rng = random.Random(2024)
    check_listing()
    check_tables()
    check_commands()
    check_dates()
    check_record_round_trips(rng)
    check_line_round_trips(rng)
    check_groups(rng)
    check_damage(rng)
    check_first_wrong(rng)
    check_stored_numbers(rng)
    check_indexes(rng)
    check_index_bytes()
    check_generated()
    print("%d passed, %d failed" % (counts[True], counts[False]))
    return 1 if counts[False] else 0


if __name__ == "__main__":
    sys.exit(main())
