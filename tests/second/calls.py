"""The four calls with their refusals, over plain lists: each gives the answer and what the buffers then hold.

The methods have the shape of door.Door, so that either can stand behind a comparison."""
from . import completion, sheet, table
from .kit import BOUND, COST, KINDS, LOADS, ROWS, SIZE, SWAPS, Kit, Refused, fits, pairs

LISTED = 40_000  # up to so many loads the table comes from listing them


def finished(kit, swaps, room):
    """The finished table, None where it has more rows than the room: by listing where that is possible, else by
    completion."""
    if table.how_many(kit.sizes, kit.bound) > LISTED:
        return completion.finished(kit, swaps, room)
    rows = table.finished(kit, swaps)
    return rows if len(rows) <= room else None


def need(holds, number, place=0):
    if not holds:
        raise Refused(number, place)


def check_sizes_and_costs(sizes, costs):
    need(all(1 <= size <= SIZE for size in sizes), 4)
    need(all(-COST <= cost <= COST for cost in costs), 5)


def whole_rows(kinds, numbers, most):
    return len(numbers) % (2 * kinds) == 0 and len(numbers) // (2 * kinds) <= most


def complete(kinds, bound, sizes, costs, swaps, rules):
    """(number, place, rules): 0 and the number of rows, or a refusal and its place; and the table at exit."""
    try:
        need(1 <= kinds <= KINDS, 1)
        need(1 <= bound <= BOUND, 2)
        need(len(sizes) == len(costs) == kinds, 3)
        need(whole_rows(kinds, swaps, SWAPS) and whole_rows(kinds, rules, ROWS), 3)
        check_sizes_and_costs(sizes, costs)
        kit = Kit(sizes, costs, bound)
        for number, (left, right) in enumerate(pairs(kinds, swaps)):
            need(left != right, 6, number)
            need(kit.grade(left) == kit.grade(right), 7, number)
    except Refused as refused:
        return refused.number, refused.place, list(rules)
    rows = finished(kit, pairs(kinds, swaps), len(rules) // (2 * kinds))
    if rows is None:
        return 8, 0, [0] * len(rules)
    flat = [count for head, tail in rows for count in head + tail]
    return 0, len(rows), flat + [0] * (len(rules) - len(flat))


def proper(kit, row):
    head, tail = row
    return kit.grade(head) == kit.grade(tail) <= kit.bound and kit.key(head) > kit.key(tail)


def settle(kinds, bound, sizes, costs, rules, rows, load):
    """(number, place, load): 0, or a refusal and its place; and the load at exit."""
    try:
        need(1 <= kinds <= KINDS, 1)
        need(1 <= bound <= BOUND, 2)
        need(len(sizes) == len(costs) == len(load) == kinds, 3)
        need(whole_rows(kinds, rules, ROWS) and rows * 2 * kinds <= len(rules), 3)
        check_sizes_and_costs(sizes, costs)
        kit = Kit(sizes, costs, bound)
        used = pairs(kinds, rules)[:rows]
        for number, row in enumerate(used):
            need(proper(kit, row), 9, number)
        need(kit.grade(load) <= bound, 10)
    except Refused as refused:
        return refused.number, refused.place, list(load)
    return 0, 0, list(settled(used, tuple(load)))


def settled(rows, load):
    """While a row's head fits, the first such row is applied once."""
    while True:
        for head, tail in rows:
            if fits(head, load):
                load = tuple(x - h + t for x, h, t in zip(load, head, tail))
                break
        else:
            return load


def earlier(kinds, costs, first, second):
    """1 or 2: which load comes first in the cost order (equal loads: 1); 0 where refused."""
    lengths = len(costs) == len(first) == len(second) == kinds
    if not (1 <= kinds <= KINDS and lengths and all(-COST <= cost <= COST for cost in costs)):
        return 0
    kit = Kit([1] * kinds, costs, 1)
    return 2 if kit.key(second) < kit.key(first) else 1


BUFFERS = (KINDS, KINDS, SWAPS * 2 * KINDS, LOADS * KINDS)


def read(text, sizes, costs, swaps, loads):
    """(number, line, (kinds, bound, swaps, loads), buffers): 0, or a refusal and its line; and the four buffers at exit."""
    lent = (list(sizes), list(costs), list(swaps), list(loads))
    if tuple(map(len, lent)) != BUFFERS:
        return 3, 0, (0, 0, 0, 0), lent
    try:
        found = sheet.read(text)
    except Refused as refused:
        return refused.number, refused.place, (0, 0, 0, 0), tuple([0] * room for room in BUFFERS)
    flat = ([*found.sizes], [*found.costs], [c for pair in found.swaps for side in pair for c in side],
            [c for load in found.loads for c in load])
    counts = (found.kinds, found.bound, len(found.swaps), len(found.loads))
    return 0, 0, counts, tuple(held + [0] * (room - len(held)) for held, room in zip(flat, BUFFERS))
