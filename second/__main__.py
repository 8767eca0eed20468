"""Runs the second program: `python3 second MODE`, from standard input to standard output."""

import sys

from modes import ROW_MODES, answers


def main(arguments):
    """Runs one mode; gives 2 and says how to call it where the mode is unknown."""
    modes = ["listing", "records"] + list(ROW_MODES)
    if len(arguments) != 1 or arguments[0] not in modes:
        print("call: python3 second " + "|".join(modes), file=sys.stderr)
        return 2
    rows = answers(arguments[0], sys.stdin.buffer.read())
    sys.stdout.write("".join(row + "\n" for row in rows))
    return 0


if __name__ == "__main__":
    sys.exit(main(sys.argv[1:]))
