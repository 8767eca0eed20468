"""Times `exhibits` as a whole process: `python3 bench/exhibits.py LOG RATTLE.. -- RUST..`, each a command.

`all` of the proved one against the one in Rust: both index the log and must write the same bytes; medians of five runs in turns, after one of
each untimed, each to a name that is new. Then `show` of the last exhibit, over the log and over one of 2 GB with the log at its end.
Files are made in a folder beside the log, and removed.
"""

import pathlib
import statistics
import subprocess
import sys
import tempfile
import time

RUNS = 5
LARGE = 2_000_000_000


def run(command):
    """Gives the seconds that the command took, and what it wrote; what it said would be that it could not do its work."""
    began = time.perf_counter()
    done = subprocess.run(command, stdin=subprocess.DEVNULL, stdout=subprocess.PIPE, stderr=subprocess.PIPE, check=True)
    took = time.perf_counter() - began
    assert done.stderr == b"", (command, done.stderr)
    return took, done.stdout


def make(command, log, index):
    """Gives the seconds that the command took to index the log, and the index, whose file is removed."""
    took, out = run(command + [log, index])
    assert out == b"", (command, out)
    made = index.read_bytes()
    index.unlink()
    return took, made


def number_at(index, at):
    """Gives the number at a place of an index, and the next place."""
    value = shift = 0
    while True:
        value |= (index[at] & 127) << shift
        shift += 7
        at += 1
        if index[at - 1] < 128:
            return value, at


def groups(value):
    """Gives a number in groups of seven bits, low group first."""
    low, rest = value & 127, value >> 7
    return bytes([low | 128]) + groups(rest) if rest else bytes([low])


def last_of(index):
    """Gives how many entries an index has, and number, offset and length of the last."""
    at = count = number = end = length = 0
    while at < len(index):
        gap, at = number_at(index, at)
        skip, at = number_at(index, at)
        length, at = number_at(index, at)
        count, number, end = count + 1, number + gap, end + skip + length
    return count, number, end - length, length


def moved(index, distance):
    """Gives the index of the same lines, each further on in its log."""
    _, skip = number_at(index, 0)
    value, rest = number_at(index, skip)
    return index[:skip] + groups(value + distance) + index[rest:]


def race(sides, log, folder):
    """Prints the row of the table; gives the index of the log."""
    first = [make(side, log, folder / "first")[1] for side in sides]
    assert first[0] == first[1], "the two indexes differ"
    count, size = last_of(first[0])[0], log.stat().st_size
    print("same indexes: %d bytes of log, %d entries in %d bytes" % (size, count, len(first[0])))
    times = [[], []]
    for turn in range(RUNS):
        for side, took in zip(sides, times):
            took.append(make(side, log, folder / ("%d" % turn))[0])
    rattle, rust = map(statistics.median, times)
    print("| exhibits all, whole process | %.0f | %.0f | %.0f | %.0f | %.2f |" % (
        rattle * 1e9 / count, rust * 1e9 / count, size / rattle / 1e6, size / rust / 1e6, rust / rattle))
    return first[0]


def show(command, log, index, folder):
    """Prints how long the last exhibit takes to show, from the log and from a larger one, in turns."""
    _, number, offset, length = last_of(index)
    whole = log.read_bytes()
    distance = LARGE - len(whole)
    large = folder / "large.log"
    with large.open("wb") as file:
        file.seek(distance)
        file.write(whole)
    asked = []
    for name, of_log, of_bytes in (("index", log, index), ("large", large, moved(index, distance))):
        (folder / name).write_bytes(of_bytes)
        asked.append(command + ["show", of_log, folder / name, str(number)])
    times = [[], []]
    for _ in range(RUNS + 1):
        for each, took in zip(asked, times):
            seconds, out = run(each)
            assert out == whole[offset:offset + length], (each, out)
            took.append(seconds)
    small, big = (statistics.median(took[1:]) * 1e3 for took in times)
    print("exhibits show, the last exhibit: %.1f ms over %.0f MB, %.1f ms over %.0f MB" % (small, len(whole) / 1e6, big, LARGE / 1e6))


def main(arguments):
    """Races the two commands over the log, and times showing."""
    between = arguments.index("--")
    log = pathlib.Path(arguments[0])
    rattle, rust = arguments[1:between], arguments[between + 1:]
    with tempfile.TemporaryDirectory(dir=log.parent) as name:
        folder = pathlib.Path(name)
        index = race([rattle + ["all"], rust], log, folder)
        show(rattle, log, index, folder)
    return 0


if __name__ == "__main__":
    sys.exit(main(sys.argv[1:]))
