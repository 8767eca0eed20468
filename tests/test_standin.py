"""The stand-in receiver, run as in class: an answer before the next command is sent, by a pipe and by a terminal."""
import os
import selectors
import subprocess
import time
import tty

from programs import ROOT, command, run
from reasons import reason
from scribe import line_of as line
from test_second import second

DEADLINE = 60
START = "4800 4 127 4800 4 127 0 0 4294967295 16777215 0"
DAMAGED = b"$PIRTR,2,-0030*52\r\n"

EXCHANGE = [
    line(b"PIRPR,,,,"), line(b"PIRPR,0,9600,4,007F"), line(b"PIRPR,1,1200,4,0F7F"), line(b"PIRPR,1,,,"), line(b"PIRTR,1,-0030"),
    b"$PIRSR,7FFEFFFF,FFFFFE,*17\r\n", line(b"PIRER,0"), line(b"GPGSV,1,1,01,05,,,"), DAMAGED, b"$PIRTR,,*4D\n", line(b"PIRXX,0"),
    line(b"PIRTR,1"), line(b"PIRTR,5,-0030"), line(b"PIRTR,1,-0000"), line(b"PIRTR,,"), line(b"PIRPR,0,9600,3,007F"), line(b"PIRER,0"),
]


def expected(lines, port=0):
    """For each line what the second program answers, settings carried over: a reply, or the row of the refusal with its reason."""
    settings = START
    answers = []
    for number, sent in enumerate(lines, 1):
        words = second("commands", b"%d 82 %s %s\n" % (port, settings.encode(), sent.hex().encode())).split()
        if words[0] == b"ok":
            settings = b" ".join(words[2:]).decode()
            answers.append((bytes.fromhex(words[1].decode()), b""))
        else:
            no, _, field = (int(word) for word in words[1:])
            answers.append((b"", b"line %d: refused %d %d: %s\n" % (number, no, field, reason(sent, no, field))))
    return answers


def read_until_lf(fd, ends):
    """The bytes that come up to an LF; it fails where none has come before the deadline."""
    came = b""
    with selectors.DefaultSelector() as ready:
        ready.register(fd, selectors.EVENT_READ)
        while not came.endswith(b"\n"):
            assert ready.select(max(0, ends - time.monotonic())), came
            piece = os.read(fd, 1)
            assert piece, came
            came += piece
    return came


def started(stdin, stdout, *words):
    """Starts the program; it is proved and built before, so that no deadline waits for that."""
    assert run("standin", b"") == (b"", b"")
    return subprocess.Popen(command("standin", *words), stdin=stdin, stdout=stdout, stderr=subprocess.PIPE, cwd=ROOT, bufsize=0)


def ended(program, stdout):
    """Waits for the end of the program, which writes nothing more."""
    assert program.wait(timeout=DEADLINE) == 0
    assert program.stderr.read() == b""
    program.stderr.close()
    if stdout:
        assert stdout.read() == b""
        stdout.close()


def talk(program, send, reply_from, lines, port):
    """Sends each line once the one before it was answered."""
    for sent, (reply, row) in zip(lines, expected(lines, port), strict=True):
        send(sent)
        fd = reply_from if reply else program.stderr.fileno()
        came = read_until_lf(fd, time.monotonic() + DEADLINE)
        assert came == (reply or row), (sent, came)


def test_answers_before_the_next_line_by_a_pipe():
    run("standin", b"")
    for port in (0, 1):
        program = started(subprocess.PIPE, subprocess.PIPE, str(port))
        talk(program, program.stdin.write, program.stdout.fileno(), EXCHANGE, port)
        program.stdin.close()
        ended(program, program.stdout)


def test_answers_before_the_next_line_by_a_terminal():
    run("standin", b"")
    ours, theirs = os.openpty()
    tty.setraw(theirs)
    program = started(theirs, theirs)
    talk(program, lambda sent: os.write(ours, sent), ours, EXCHANGE, 0)
    os.close(theirs)
    os.close(ours)
    program.wait(timeout=DEADLINE)
    program.stderr.close()


def test_a_line_in_two_pieces():
    program = started(subprocess.PIPE, subprocess.PIPE)
    for cut in (1, 5, 12):
        program.stdin.write(b"\r\nno line $GP" + EXCHANGE[0][:cut])
        time.sleep(0.2)
        talk(program, lambda sent: program.stdin.write(sent[cut:]), program.stdout.fileno(), EXCHANGE[:1], 0)
    program.stdin.close()
    ended(program, program.stdout)


def test_all_at_once():
    both = expected(EXCHANGE)
    for words in ((), ("0",)):
        out, said = run("standin", b"some bytes" + b"noise\r\n".join(EXCHANGE) + b"$PIRER,0*4", *words)
        assert out == b"".join(reply for reply, _ in both)
        assert said == b"".join(row for _, row in both)
    numbers = {int(row.split()[3]) for _, row in both if row}
    assert numbers == {1, 2, 3, 4, 5, 9, 10}, numbers
    assert said.splitlines()[:4] == [
        b"line 8: refused 9 0: the sentence is not a command",
        b"line 9: refused 2 0: the two digits differ from the XOR of the body: 51 would be right",
        b"line 10: refused 1 0: byte 12 is hex 0A: ends with LF alone, CR LF is required",
        b"line 11: refused 3 0: the address is unknown: 'PIRXX'",
    ]


def test_more_input_than_its_buffer():
    count = 9000
    out, said = run("standin", (EXCHANGE[0] + b"noise") * count)
    assert (out, said) == (expected(EXCHANGE[:1])[0][0] * count, b"")


def test_wrong_arguments():
    for words in (("2",), ("",), ("01",), ("-1",), ("0 ",), ("port",), ("0", "1"), ("0", "0"), ("00000000",)):
        assert run("standin", EXCHANGE[0], *words, status=1) == (b"", b"standin: the port is 0 or 1\n"), words
