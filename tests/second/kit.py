"""The house's words: kit, load, grade, cost, cost order, refusal, and the limits."""
from dataclasses import dataclass

KINDS, BOUND, SIZE, COST, COUNT = 12, 1000, 1000, 1_000_000, 65_535
SWAPS, ROWS, LOADS, TEXT = 64, 256, 1024, 65_536


class Refused(Exception):
    """A refusal: its number and its place (swap, row or line; 0 where it has none)."""

    def __init__(self, number, place=0):
        super().__init__(number, place)
        self.number, self.place = number, place


@dataclass
class Kit:
    """Sizes and costs of the kinds, and the bound."""
    sizes: list
    costs: list
    bound: int

    @property
    def kinds(self):
        return len(self.sizes)

    def grade(self, load):
        return sum(count * size for count, size in zip(load, self.sizes))

    def cost(self, load):
        return sum(count * cost for count, cost in zip(load, self.costs))

    def key(self, load):
        """Loads in the rising sequence of this key stand in the cost order."""
        return self.cost(load), tuple(load)


def fits(head, load):
    return all(h <= x for h, x in zip(head, load))


def pairs(kinds, numbers):
    """A flat list of 2n numbers a record, as pairs of loads."""
    width = 2 * kinds
    records = [tuple(numbers[at:at + width]) for at in range(0, len(numbers), width)]
    return [(record[:kinds], record[kinds:]) for record in records]
