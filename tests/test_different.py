"""A line of each kind whose fields all differ: a field that is read or written in another's place shows. Reader and writer share one row of
fields, so neither shows it of the other. The numbers were worked out from document 01 by hand."""
from scribe import agreed, line_of

TIME, LATITUDE, LONGITUDE = "1 372304", 7545678, 74256789
TWELVE = " ".join("1 %d" % number for number in range(1, 13))
ENTRIES = " ".join("%d 1 %d 1 %d 1 %d" % (number, number + 1, number + 2, number + 3) for number in (1, 5, 9, 13))
# A body, and the numbers of its record in the order of docs/LAYOUT.md.
DIFFERENT = {
    "GPGGA,010203.04,1234.5678,N,12345.6789,W,3,07,1.5,22.25,M,-33.5,M,4.75,0123":
        "%s 1 %d -%d 3 1 7 1 1500 1 22250 1 -33500 1 4750 1 123" % (TIME, LATITUDE, LONGITUDE),
    "GLGLL,1234.5678,S,12345.6789,E,010203.04,V,D": "1 -%d %d %s 86 68" % (LATITUDE, LONGITUDE, TIME),
    "GAGSA,A,2,01,02,03,04,05,06,07,08,09,10,11,12,1.5,2.25,3.125": "65 2 %s 1 1500 1 2250 1 3125" % TWELVE,
    "GQGSV,2,1,08,01,02,003,04,05,06,007,08,09,10,011,12,13,14,015,16": "2 1 8 4 %s" % ENTRIES,
    "GNRMC,010203.04,A,1234.5678,N,12345.6789,E,1.5,22.25,050607,3.125,W,D":
        "%s 65 1 %d %d 1 1500 1 22250 1 5 6 2007 1 -3125 68" % (TIME, LATITUDE, LONGITUDE),
    "GPVTG,1.5,T,22.25,M,3.125,N,4.75,K,E": "1 1500 1 22250 1 3125 1 4750 69",
    "GPZDA,010203.04,05,06,2007,-08,09": "%s 1 5 6 2007 1 -489" % TIME,
    "PIRPR,1,4800,3,0246": "1 1 1 4800 1 3 1 582",
    "PIRTR,2,-0304": "1 2 1 -184",
    "PIRSR,12345678,9ABCDE,": "1 305419896 1 10140894",
    "PIRER,0": "",
    "PIRPA,1,4800,3,0246": "1 4800 3 582",
    "PIRTA,2,-0304": "2 -184",
    "PIRSA,12345678,9ABCDE,": "305419896 10140894",
    "PIREA,123": "123",
}


def words(body, numbers, *between):
    """The address of a body, what stands between, and the numbers of its record."""
    return " ".join([body.split(",")[0], *between, *numbers.split()]).encode()


def test_every_kind_is_there():
    assert len({body.split(",")[0][-3:] for body in DIFFERENT}) == len(DIFFERENT) == 15


def test_each_field_is_read_as_its_own_value():
    rows = [line_of(body.encode()).hex().encode() for body in DIFFERENT]
    assert agreed("lines", rows) == [b"ok " + words(body, numbers) for body, numbers in DIFFERENT.items()]


def test_each_value_is_written_as_its_own_field():
    rows = [words(body, numbers, "82") for body, numbers in DIFFERENT.items()]
    assert agreed("write", rows) == [b"ok " + line_of(body.encode()).hex().encode() for body in DIFFERENT]
