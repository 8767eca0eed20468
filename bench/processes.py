"""Times the two listings as whole processes: `python3 bench/processes.py LOG RATTLE.. -- RUST..`, each a command.

Both get the log as standard input and must write the same. Medians of five runs in turns, after one of each untimed. Then the
proved one alone over a quarter, a half and all of the log: its time a megabyte and the most memory that it had.
"""

import hashlib
import statistics
import subprocess
import sys
import tempfile
import time

RUNS = 5


def run(command, log):
    """Gives the seconds that the command took over the log, the rows that it wrote, and their sum."""
    log.seek(0)
    began = time.perf_counter()
    done = subprocess.run(command, stdin=log, stdout=subprocess.PIPE, check=True)
    took = time.perf_counter() - began
    return took, done.stdout.count(b"\n") - 1, hashlib.sha256(done.stdout).hexdigest()


def race(sides, log, size):
    """Prints the row of the table; gives 1 where the two listings differ."""
    first = [run(side, log) for side in sides]
    if first[0][1:] != first[1][1:]:
        print("the two listings differ")
        return 1
    rows = first[0][1]
    print("same listings: %d bytes, %d rows" % (size, rows))
    times = [[], []]
    for _ in range(RUNS):
        for side, took in zip(sides, times):
            took.append(run(side, log)[0])
    rattle, rust = map(statistics.median, times)
    print("| listing, whole process | %.0f | %.0f | %.0f | %.0f | %.2f |" % (
        rattle * 1e9 / rows, rust * 1e9 / rows, size / rattle / 1e6, size / rust / 1e6, rust / rattle))
    return 0


def memory(command, data):
    """Gives the most memory, in kilobytes, that the command had over the bytes, by what the system tells while it still waits for more."""
    with subprocess.Popen(command, stdin=subprocess.PIPE, stdout=subprocess.DEVNULL) as process:
        process.stdin.write(data)
        process.stdin.flush()
        with open("/proc/%d/status" % process.pid, encoding="ascii") as status:
            most = [line.split()[1] for line in status if line.startswith("VmHWM")]
    assert process.returncode == 0, (command, process.returncode)
    return int(most[0])


def growth(command, whole):
    """Prints what the command takes over a quarter, a half and all of the bytes."""
    for part in (4, 2, 1):
        size = len(whole) // part
        with tempfile.TemporaryFile() as log:
            log.write(whole[:size])
            log.flush()
            took = statistics.median(run(command, log)[0] for _ in range(RUNS))
            print("listing of %.1f MB: %.2f ms/MB, at most %d kB of memory" % (size / 1e6, took * 1e9 / size, memory(command, whole[:size])))


def main(arguments):
    """Races the two commands over the log, and shows how the first one grows."""
    between = arguments.index("--")
    sides = [arguments[1:between], arguments[between + 1:]]
    with open(arguments[0], "rb") as log:
        whole = log.read()
        failed = race(sides, log, len(whole))
    growth(sides[0], whole)
    return failed


if __name__ == "__main__":
    sys.exit(main(sys.argv[1:]))
