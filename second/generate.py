"""Makes test inputs: `python3 second/generate.py KIND COUNT SEED`. The same three always make the same bytes."""

import random
import sys

import make_damage
import make_index
import make_rows

ROWS = {
    "lines": make_rows.line_row,
    "field": make_rows.field_row,
    "write": make_rows.write_row,
    "groups": make_rows.group_row,
    "write-groups": make_rows.write_group_row,
    "commands": make_rows.command_row,
    "counts": make_rows.counts_row,
    "index-write": make_index.write_row,
    "index-read": make_index.read_row,
    "index-add": make_index.add_row,
    "index-find": make_index.find_row,
}


def generate(kind, count, seed):
    """Gives the bytes of a log of `count` pieces, or of `count` rows for the mode of that name."""
    rng = random.Random("%s %d" % (kind, seed))
    if kind == "log":
        return make_damage.log(rng, count)
    return "".join(ROWS[kind](rng) + "\n" for _ in range(count)).encode("ascii")


def main(arguments):
    """Writes the input to standard output; gives 2 and says how to call it where the kind is unknown."""
    if len(arguments) != 3 or arguments[0] not in ["log"] + list(ROWS):
        print("call: python3 second/generate.py log|%s COUNT SEED" % "|".join(ROWS), file=sys.stderr)
        return 2
    sys.stdout.buffer.write(generate(arguments[0], int(arguments[1]), int(arguments[2])))
    return 0


if __name__ == "__main__":
    sys.exit(main(sys.argv[1:]))
