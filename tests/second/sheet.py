"""A reader of sheets, written from the rules of a sheet's text."""
import re
from dataclasses import dataclass, field

from .kit import BOUND, COST, COUNT, KINDS, LOADS, SIZE, SWAPS, TEXT, Kit, Refused

PLAIN = re.compile(rb"0|[1-9][0-9]*")
SIGNED = re.compile(rb"0|-?[1-9][0-9]*")
LONG = 18  # more digits than this are above every limit


@dataclass
class Sheet:
    kinds: int = 0
    bound: int = 0
    sizes: list = field(default_factory=list)
    costs: list = field(default_factory=list)
    swaps: list = field(default_factory=list)
    loads: list = field(default_factory=list)
    lines: int = 0

    def kit(self):
        return Kit(self.sizes, self.costs, self.bound)


def read(text):
    """The sheet that the bytes say, or Refused with the number and the line."""
    if len(text) > TEXT:
        raise Refused(13, 0)
    sheet = Sheet()
    *lines, rest = text.split(b"\n")
    for number, line in enumerate(lines, 1):
        try:
            take(sheet, line.split(b"\t"))
        except Refused as refused:
            raise Refused(refused.number, number) from None
        sheet.lines = number
    if rest or sheet.lines < 3:  # a piece without its line feed, or a line that is missing
        raise Refused(11, sheet.lines + 1)
    return sheet


def take(sheet, fields):
    """One line: its shape and place first, then the tests of its record."""
    key, digits = fields[0], fields[1:]
    if key not in due(sheet):
        raise Refused(11)
    width, form, record = RECORDS[key]
    if len(digits) != width(sheet) or not all(form.fullmatch(word) for word in digits):
        raise Refused(11)
    record(sheet, [value(word) for word in digits])


def due(sheet):
    """The keys that the next line may have."""
    if sheet.lines < 3:
        return ((b"kit",), (b"size",), (b"cost",))[sheet.lines]
    return (b"load",) if sheet.loads else (b"swap", b"load")


def value(word):
    if len(word) > LONG:
        return -10**LONG if word.startswith(b"-") else 10**LONG
    return int(word)


def record_kit(sheet, numbers):
    kinds, bound = numbers
    if not 1 <= kinds <= KINDS:
        raise Refused(1)
    if not 1 <= bound <= BOUND:
        raise Refused(2)
    sheet.kinds, sheet.bound = kinds, bound


def record_sizes(sheet, numbers):
    if not all(1 <= size <= SIZE for size in numbers):
        raise Refused(4)
    sheet.sizes = numbers


def record_costs(sheet, numbers):
    if not all(-COST <= cost <= COST for cost in numbers):
        raise Refused(5)
    sheet.costs = numbers


def record_swap(sheet, numbers):
    check_counts(sheet.swaps, SWAPS, numbers)
    left, right = tuple(numbers[:sheet.kinds]), tuple(numbers[sheet.kinds:])
    if left == right:
        raise Refused(6)
    if sheet.kit().grade(left) != sheet.kit().grade(right):
        raise Refused(7)
    sheet.swaps.append((left, right))


def record_load(sheet, numbers):
    check_counts(sheet.loads, LOADS, numbers)
    sheet.loads.append(tuple(numbers))


def check_counts(records, most, numbers):
    if len(records) >= most:
        raise Refused(3)
    if any(count > COUNT for count in numbers):
        raise Refused(12)


RECORDS = {
    b"kit": (lambda sheet: 2, PLAIN, record_kit),
    b"size": (lambda sheet: sheet.kinds, PLAIN, record_sizes),
    b"cost": (lambda sheet: sheet.kinds, SIGNED, record_costs),
    b"swap": (lambda sheet: 2 * sheet.kinds, PLAIN, record_swap),
    b"load": (lambda sheet: sheet.kinds, PLAIN, record_load),
}
