#!/usr/bin/env python3
"""export.py SHEET [SHOW]: the export's tool, over the shared library. Completes the sheet and prints the settled list of
each load of the show, or of the sheet's own loads where no show is given, in the lines of planner.c.

The library is target/lib/libkitsettle.so, or the file that KITSETTLE_LIBRARY names."""
import os
import sys
from pathlib import Path

TOP = Path(__file__).resolve().parent.parent
sys.path.insert(0, str(TOP / "tests"))
from door import Door, Lent  # noqa: E402

ROWS = 256
ROOMS = (12, 12, 64 * 24, 1024 * 12)  # of the reader's buffers


class Export:
    """A sheet and its finished table, ready to settle loads."""

    def __init__(self, door, path):
        buffers = [[0] * room for room in ROOMS]
        number, line, counts, (sizes, costs, swaps, loads) = door.read(Path(path).read_bytes(), *buffers)
        if number:
            sys.exit(f"export: the sheet {path}: refusal {number} at {line}")
        self.door = door
        self.kinds, self.bound, swap_count, load_count = counts
        n = self.kinds
        self.loads = [loads[at * n:at * n + n] for at in range(load_count)]
        self.sizes, self.costs = Lent("H", sizes[:n]), Lent("i", costs[:n])
        self.rules = Lent("H", [0] * (ROWS * 2 * n))
        number, self.rows, _ = door.complete(n, self.bound, self.sizes, self.costs, swaps[:swap_count * 2 * n], self.rules)
        if number:
            sys.exit(f"export: the swaps of {path}: refusal {number} at {self.rows}")

    def line(self, load_number, load):
        """The printed line of one load."""
        number, _, settled = self.door.settle(self.kinds, self.bound, self.sizes, self.costs, self.rules, self.rows, load)
        if number:
            return f"{load_number}\trefused\t{number}\n"
        return "\t".join(map(str, (load_number, "done", *settled))) + "\n"


def show_loads(path, kinds):
    """The loads of a show file, one after the other."""
    with open(path, encoding="ascii") as lines:
        for number, line in enumerate(lines, 1):
            load = [int(word) for word in line.rstrip("\n").split("\t")]
            if len(load) != kinds or not all(0 <= count <= 65535 for count in load):
                sys.exit(f"export: {path}: line {number} is no load")
            yield load


def main(sheet, *show):
    library = os.environ.get("KITSETTLE_LIBRARY", str(TOP / "target" / "lib" / "libkitsettle.so"))
    export = Export(Door(library), sheet)
    loads = show_loads(show[0], export.kinds) if show else export.loads
    for number, load in enumerate(loads, 1):
        sys.stdout.write(export.line(number, load))


if __name__ == "__main__":
    if not 2 <= len(sys.argv) <= 3:
        sys.exit(__doc__)
    main(*sys.argv[1:])
