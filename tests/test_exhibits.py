"""The program exhibits, run as a person would, on real files in a folder of their own: an index made, added to, shown and checked; lists
and files that are wrong; and that a failure leaves every file as it was."""
import contextlib
import pathlib
import re
import resource
import subprocess
import tempfile

from programs import ROOT, command, run
from test_second import second

SAMPLE = (ROOT / "samples" / "day.log").read_bytes()
# A line of 5 bytes, which no index can store, stands between others.
LOG = b"noise\r\n" + SAMPLE + b"$GP\r\nmore\r\n" + SAMPLE
WORDS = {"list": b"3 4\n10 6\n11 20\n", "exhibits": ((3, 4), (10, 6), (11, 20))}


def found(log):
    """Offset and length of each line that the finder gives out."""
    return [(place.start(), len(place[0])) for place in re.finditer(rb"\$[^$\n]{0,80}\n", log)]


def index_of(log, pairs):
    """The bytes of the index of exhibits with their lines, as the second program writes them."""
    lines = found(log)
    numbers = [n for exhibit, line in pairs for n in (exhibit, *lines[line - 1])]
    answer = second("index-write", b"%d %s\n" % (11 * len(numbers), b" ".join(b"%d" % n for n in numbers))).split()
    assert answer[0] == b"ok", answer
    return bytes.fromhex(answer[1].decode()) if answer[1:] != [b"-"] else b""


@contextlib.contextmanager
def folder(**files):
    """A folder with the log, and the files named, that is removed afterwards."""
    with tempfile.TemporaryDirectory() as path:
        path = pathlib.Path(path)
        for name, data in {"log": LOG, **files}.items():
            (path / name).write_bytes(data)
        yield path


def exhibits(path, *words, data=b"", status=0):
    """What the program writes in a folder. It says nothing on standard error exactly where it could do its work."""
    out, said = run("exhibits", data, *words, status=status, cwd=path)
    assert all(row.startswith((b"exhibits: ", b"  exhibits ")) for row in said.splitlines()), said
    assert (said != b"") == (status == 1), said
    return out, said


def done(path, *words, data=b""):
    return exhibits(path, *words, data=data)[0]


def refused(path, *words, data=b""):
    """What the program says where it cannot do its work; it writes nothing, and every file stays as it was."""
    before = {file: file.read_bytes() for file in path.iterdir() if file.is_file()}
    out, said = exhibits(path, *words, data=data, status=1)
    assert out == b"", out
    assert {file: file.read_bytes() for file in path.iterdir() if file.is_file()} == before, words
    return said


def test_every_line_of_the_listing():
    log = LOG * 150
    lines = found(log)
    assert len(log) > 3 * 65536
    pairs = [(number, number) for number, (_, length) in enumerate(lines, 1) if length >= 7]
    assert len(pairs) == len(lines) - 150
    with folder(log=log) as path:
        assert done(path, "all", "log", "index") == b""
        assert (path / "index").read_bytes() == index_of(log, pairs)
        rows = done(path, "list", "index").splitlines()
        assert rows == [b"%d %d %d" % (number, *lines[number - 1]) for number, _ in pairs]
        assert done(path, "check", "log", "index") == b"%d exhibits, each is a line of this log\n" % len(pairs)
        assert sorted(file.name for file in path.iterdir()) == ["index", "log"]
        for number, _ in (pairs[0], pairs[1500], pairs[-1]):
            start, length = lines[number - 1]
            assert done(path, "show", "log", "index", str(number)) == log[start:start + length]
    listed = run("listing", log)[0].splitlines()[1:]
    assert len(listed) == len(lines) and listed[-1].startswith(b"%d " % len(lines))


def test_lists_as_editors_write_them():
    with folder() as path:
        made = index_of(LOG, WORDS["exhibits"])
        lists = (b"3 4\n10 6\n11 20\n", b"3 4\r\n10 6\r\n11 20\r\n", b"3 4\n10 6\n11 20", b"\n3 4\n\n \t\n10 6\n11 20\n\n",
                 b"\r\n3 4\r\n\r\n10 6\r\n11 20\r", b"  3\t4 \n10   6\n\t11 20\t\n")
        for at, data in enumerate(lists):
            assert done(path, "make", "log", f"index{at}", data=data) == b""
            assert (path / f"index{at}").read_bytes() == made, data


def test_a_long_list():
    log = SAMPLE * 1500
    pairs = [(2 * line, line) for line in range(1, len(found(log)) + 1)]
    rows = b"".join(b"%d %d\n" % pair for pair in pairs)
    assert len(rows) > 3 * 65536
    with folder(log=log) as path:
        done(path, "make", "log", "index", data=rows)
        assert (path / "index").read_bytes() == index_of(log, pairs)


def test_two_and_ten_in_both_orders():
    with folder() as path:
        assert done(path, "make", "log", "index", data=b"2 1\n10 3\n") == b""
        assert done(path, "list", "index").split()[::3] == [b"2", b"10"]
        said = refused(path, "make", "log", "other", data=b"10 1\n2 3\n")
        assert said == b"exhibits: row 2 of the list: exhibit 2 stands behind exhibit 10, and exhibits have to ascend (5)\n"


def test_lists_that_are_refused():
    last = len(found(LOG))
    rows = ((b"2 1\n2 3\n", b"row 2 of the list: exhibit 2 stands there twice, and exhibits have to ascend (5)"),
            (b"2 3\n\n4 3\n", b"row 3 of the list: line 3 stands there twice, and lines have to ascend (5)"),
            (b"2 3\n4 1\n", b"row 2 of the list: line 1 stands behind line 3, and lines have to ascend (5)"),
            (b"0 1\n", b"row 1 of the list: exhibit 0 cannot be stored, exhibits are counted from 1 (5)"),
            (b"1 0\n", b"row 1 of the list: no log has a line 0, lines are counted from 1"),
            (b"1 1\r\n2 99\r\n", b"row 2 of the list: the log has no line 99, its lines are %d\n" % last),
            (b"1 4294967295", b"row 1 of the list: the log has no line 4294967295, its lines are %d\n" % last),
            (b"1 15\n", b"row 1 of the list: exhibit 1 cannot be stored: its line has 5 bytes from byte "),
            (b"1 1\n" + b" " * 70000 + b"2 3\n", b"row 2 of the list: it is too long"))
    malformed = (b"1", b"1 2 3", b"x 1", b"01 1", b"1 01", b"+1 1", b"-1 1", b"1, 2", b"4294967296 1", b"1 4294967296", b"12345678901 1",
                 b"1\r1", b"1 1\r\r", b"\x001 1")
    with folder() as path:
        for data, said in rows:
            assert refused(path, "make", "log", "index", data=data).startswith(b"exhibits: " + said), data
        for row in malformed:
            said = refused(path, "make", "log", "index", data=b"\n" + row + b"\n")
            assert said == b"exhibits: row 2 of the list: it is not an exhibit and a line, two numbers up to 4294967295\n", row


def test_nothing_at_all():
    with folder(empty=b"") as path:
        for words, data in ((("make", "log", "a"), b""), (("make", "empty", "b"), b"\r\n\n"), (("all", "empty", "c"), b"")):
            assert done(path, *words, data=data) == b""
            assert (path / words[2]).read_bytes() == b""
            assert done(path, "list", words[2]) == b""
            assert done(path, "check", "empty", words[2]) == b"0 exhibits, each is a line of this log\n"
            assert refused(path, "show", "log", words[2], "1") == b"exhibits: %s has no exhibit 1 (12)\n" % words[2].encode()
        assert done(path, "add", "log", "a", "7", "2") == b""
        assert (path / "a").read_bytes() == index_of(LOG, [(7, 2)])
        assert b"row 1 of the list: the log has no line 1, its lines are 0" in refused(path, "make", "empty", "d", data=b"1 1\n")


def made(path):
    """Makes the index of the exhibits of WORDS."""
    done(path, "make", "log", "index", data=WORDS["list"])
    return (path / "index").read_bytes()


def test_show_and_read():
    lines = found(LOG)
    with folder() as path:
        made(path)
        for exhibit, line in WORDS["exhibits"]:
            start, length = lines[line - 1]
            text = LOG[start:start + length]
            assert done(path, "show", "log", "index", str(exhibit)) == text
            out = done(path, "read", "log", "index", str(exhibit))
            assert out.startswith(text + b"sentence: "), out
            assert all(b": " in row for row in out[len(text):].splitlines()) and len(out.splitlines()) > 4, out
        for command_word in ("show", "read"):
            assert refused(path, command_word, "log", "index", "12") == b"exhibits: index has no exhibit 12 (12)\n"
            assert refused(path, command_word, "log", "index", "0") == b"exhibits: index has no exhibit 0 (12)\n"


def test_a_line_that_the_reader_refuses():
    lines = found(LOG)
    number = next(i for i, (start, length) in enumerate(lines, 1) if b"*6b" in LOG[start:start + length])
    start, length = lines[number - 1]
    with folder() as path:
        done(path, "make", "log", "index", data=b"5 %d\n" % number)
        out, said = exhibits(path, "read", "log", "index", "5", status=1)
        assert out == done(path, "show", "log", "index", "5") == LOG[start:start + length]
        assert said.startswith(b"exhibits: exhibit 5 cannot be read: refused 1 at field 0: byte "), said


def test_add():
    with folder() as path:
        before = made(path)
        assert done(path, "add", "log", "index", "300", "22") == b""
        pairs = (*WORDS["exhibits"], (300, 22))
        assert (path / "index").read_bytes() == index_of(LOG, pairs) and index_of(LOG, pairs).startswith(before)
        rows = ((("2", "25"), b"index: exhibit 2 stands behind exhibit 300, and exhibits have to ascend (5)"),
                (("300", "25"), b"index: exhibit 300 stands there twice, and exhibits have to ascend (5)"),
                (("0", "25"), b"index: exhibit 0 stands behind exhibit 300, and exhibits have to ascend (5)"),
                (("301", "22"), b"index: line 22 cannot be stored: it has "), (("301", "3"), b"index: line 3 cannot be stored: it has "),
                (("301", "0"), b"log has no line 0, its lines are "), (("301", "99"), b"log has no line 99, its lines are "))
        for words, said in rows:
            assert refused(path, "add", "log", "index", *words).startswith(b"exhibits: " + said), words
    with folder() as path:
        done(path, "make", "log", "index", data=b"1 14\n")
        said = refused(path, "add", "log", "index", "2", "15")
        assert said.startswith(b"exhibits: index: line 15 cannot be stored: it has 5 bytes from byte ") and said.endswith(b"(5)\n"), said


def test_numbers_on_the_command_line():
    with folder() as path:
        made(path)
        tail = b" is no number from 0 to 4294967295 in decimal digits, without a sign and needless zeros\n"
        for word in ("", "1x", "-1", "+1", "01", "00", " 1", "4294967296", "99999999999", "1" * 300, "１"):
            assert refused(path, "show", "log", "index", word) == b"exhibits: " + word.encode() + tail, word
        assert refused(path, "read", "log", "index", "x") == b"exhibits: x" + tail
        assert refused(path, "add", "log", "index", "12", "022").startswith(b"exhibits: 022 is no number")
        assert refused(path, "add", "log", "index", "012", "22").startswith(b"exhibits: 012 is no number")


def test_usage():
    with folder() as path:
        wrong = ((), ("",), ("Make", "log", "index"), ("make", "log"), ("make", "log", "index", "1"), ("all", "log"),
                 ("list", "index", "1"),
                 ("show", "log", "index"), ("read", "log", "index", "1", "2"), ("add", "log", "index", "1"), ("check", "log"),
                 ("a" * 300,))
        for words in wrong:
            said = refused(path, *words)
            assert said.startswith(b"exhibits: it keeps an index beside a log") and len(said.splitlines()) == 8, words


def test_an_index_that_exists():
    with folder(index=b"", taken=b"\x03\x00\x08", **{"other.new": b"kept"}) as path:
        (path / "there").mkdir()
        for name in ("index", "taken", "log", "there"):
            for words, data in ((("make", "log", name), b"1 1\n"), (("all", "log", name), b"")):
                assert refused(path, *words, data=data) == b"exhibits: %s exists, and is not overwritten\n" % name.encode()
        said = refused(path, "all", "log", "other")
        assert said.startswith(b"exhibits: other.new is in the way: "), said


def test_files_that_are_not_there():
    none = b": No such file or directory\n"
    with folder() as path:
        made(path)
        (path / "there").mkdir()
        log, index = (b"the %s no cannot be opened" % what + none for what in (b"log", b"index"))
        rows = ((("make", "no", "new"), log), (("all", "no", "new"), log), (("add", "no", "index", "12", "22"), log),
                (("show", "no", "index", "3"), log), (("check", "no", "index"), log), (("list", "no"), index),
                (("show", "log", "no", "3"), index), (("add", "log", "no", "12", "22"), index), (("check", "log", "no"), index),
                (("all", "log", "no/new"), b"the new file no/new.new cannot be made" + none),
                (("all", "log", "log/new"), b"log/new cannot be made: Not a directory\n"),
                (("all", "log", "x" * 254), b"the new file " + b"x" * 254 + b".new cannot be made: File name too long\n"),
                (("all", "there", "new"), b"the log there cannot be read: Is a directory\n"),
                (("list", "there"), b"the index there cannot be read: Is a directory\n"),
                (("show", "there", "index", "3"), b"the log there cannot be read: Is a directory\n"))
        for words, said in rows:
            assert refused(path, *words) == b"exhibits: " + said, words
        for words in (("list", "x" * 5000), ("all", "log", "x" * 5000)):
            assert refused(path, *words) == b"exhibits: a file name cannot be taken: File name too long\n"


def test_cut_and_damaged_indexes():
    with folder() as path:
        whole = made(path)
        commands = (("list", "index"), ("show", "log", "index", "3"), ("read", "log", "index", "99"), ("check", "log", "index"),
                    ("add", "log", "index", "300", "22"))
        wrong = (whole[:-1], whole[:1], whole + b"\x80", b"\x80\x00" + whole[1:], b"\x00" + whole[1:], LOG, b"\xff" * 20,
                 whole[:-1] + b"\x53")
        for at, data in enumerate(wrong):
            (path / "index").write_bytes(data)
            for words in (commands[at % 5], commands[(at + 1) % 5]):
                assert refused(path, *words) == b"exhibits: index is no index (11)\n", (data, words)


def test_a_log_that_is_not_the_indexs():
    with folder(short=LOG[:200], moved=b"x" + LOG, shut=LOG.replace(b"\n", b" ")) as path:
        made(path)
        for log in ("short", "moved", "shut"):
            tail = b" of index is no line of %s: this is not the log of the index\n" % log.encode()
            for words in (("show", log, "index", "10"), ("read", log, "index", "10")):
                assert refused(path, *words) == b"exhibits: exhibit 10" + tail
            rows = refused(path, "check", log, "index").splitlines(True)
            named = [b"exhibits: exhibit %d" % exhibit + tail for exhibit, _ in WORDS["exhibits"]]
            assert rows == [*named, b"exhibits: 3 of the 3 exhibits of index are no line of %s\n" % log.encode()], rows
        (path / "half").write_bytes(LOG[:found(LOG)[5][0] + found(LOG)[5][1]])
        rows = refused(path, "check", "half", "index").splitlines()
        assert [row.split()[2] for row in rows] == [b"11", b"of"] and rows[1].startswith(b"exhibits: 1 of the 3 exhibits "), rows


def test_many_that_are_no_line():
    with folder(log=SAMPLE * 20, other=b"x" * len(SAMPLE) * 20) as path:
        done(path, "all", "log", "index")
        rows = refused(path, "check", "other", "index").splitlines()
        count = len(found(SAMPLE * 20))
        assert len(rows) == 11 and rows[-1] == b"exhibits: %d of the %d exhibits of index are no line of other" % (count, count)


def test_output_that_cannot_be_written():
    with folder() as path:
        made(path)
        for words in (("list", "index"), ("show", "log", "index", "3"), ("read", "log", "index", "3"), ("check", "log", "index")):
            with open("/dev/full", "wb") as full:
                ended = subprocess.run(command("exhibits", *words), stdout=full, stderr=subprocess.PIPE, cwd=path, timeout=300)
            assert ended.returncode == 1
            assert ended.stderr == b"exhibits: standard output cannot be written: No space left on device\n", (words, ended.stderr)


def limited(path, size, *words, data=b""):
    """What the built program says where no file may grow past a size, as on a full disk. tools/program would meet the limit itself."""
    start = [ROOT / "crates/exhibits/out/exhibits", *words]
    ended = subprocess.run(start, input=data, capture_output=True, cwd=path, timeout=300, restore_signals=False,
                           preexec_fn=lambda: resource.setrlimit(resource.RLIMIT_FSIZE, (size, size)))
    assert ended.returncode == 0 and ended.stdout == b"", ended
    return ended.stderr


def test_a_full_disk():
    with folder() as path:
        whole = made(path)
        for words, data in ((("all", "log", "new"), b""), (("make", "log", "new"), WORDS["list"])):
            for size in (0, 1, len(whole) - 1):
                said = limited(path, size, *words, data=data)
                assert said == b"exhibits: the new file new.new cannot be written: File too large\n", said
                assert sorted(file.name for file in path.iterdir()) == ["index", "log"]
        added = index_of(LOG, (*WORDS["exhibits"], (300, 22)))
        said = limited(path, len(whole), "add", "log", "index", "300", "22")
        assert said == b"exhibits: index cannot be written: File too large\n", said
        assert (path / "index").read_bytes() == whole
        for size in range(len(whole) + 1, len(added)):
            said = limited(path, size, "add", "log", "index", "300", "22")
            assert said == b"exhibits: index cannot be written: there is no room for the whole entry\n", said
            assert (path / "index").read_bytes() == whole, size
        assert limited(path, len(added), "add", "log", "index", "300", "22") == b""
        assert (path / "index").read_bytes() == added
