"""The finished table by listing every load up to the bound: components under swap steps, grade by grade.

Inside, a load is one number with ten bits a kind, kind 1 highest: counts within the bound are below 1,024,
loads add as numbers, and their counts read from kind 1 compare as numbers."""

BITS = 10
MASK = (1 << BITS) - 1


def how_many(sizes, bound):
    """How many loads have grade at most the bound: what listing them would cost."""
    ways = [1] + [0] * bound
    for size in sizes:
        for grade in range(size, bound + 1):
            ways[grade] += ways[grade - size]
    return sum(ways)


def finished(kit, swaps):
    """The rows (head, tail) of the finished table, in its sequence."""
    units = [1 << BITS * (kit.kinds - 1 - kind) for kind in range(kit.kinds)]
    loads = loads_by_grade(kit, units)
    moves = [(kit.grade(left), packed(left, units), packed(right, units)) for left, right in swaps
             if kit.grade(left) <= kit.bound]
    unsettled, rows = [], []
    for grade in range(kit.bound + 1):
        first = first_reached(loads, grade, moves)
        unsettled.append(set(first))
        heads = [load for load in first if is_head(load, grade, kit.sizes, units, unsettled)]
        rows += [(opened(head, units), opened(first[head], units)) for head in sorted(heads)]
    return rows


def loads_by_grade(kit, units):
    """For each grade up to the bound its loads, each with its cost."""
    loads = [[] for _ in range(kit.bound + 1)]
    loads[0].append((0, 0))
    for size, cost, unit in zip(kit.sizes, kit.costs, units):
        for grade in range(size, kit.bound + 1):
            loads[grade] += [(value + cost, load + unit) for value, load in loads[grade - size]]
    return loads


def first_reached(loads, grade, moves):
    """For each unsettled load of this grade the first load, in the cost order, that it reaches."""
    ordered = [load for _, load in sorted(loads[grade])]
    rank = {load: place for place, load in enumerate(ordered)}
    root = list(range(len(ordered)))
    for least, left, right in moves:
        if least <= grade:
            for _, context in loads[grade - least]:
                unite(root, rank[context + left], rank[context + right])
    found = ((load, find(root, place)) for place, load in enumerate(ordered))
    return {load: ordered[place] for load, place in found if ordered[place] != load}


def unite(root, one, other):
    """Joins two components; the lesser rank stays the root."""
    one, other = find(root, one), find(root, other)
    root[max(one, other)] = min(one, other)


def find(root, place):
    while root[place] != place:
        root[place] = root[root[place]]
        place = root[place]
    return place


def is_head(load, grade, sizes, units, unsettled):
    """Of an unsettled load: each load got by taking out one part is settled."""
    for size, unit in zip(sizes, units):
        if load // unit & MASK and load - unit in unsettled[grade - size]:
            return False
    return True


def packed(load, units):
    return sum(count * unit for count, unit in zip(load, units))


def opened(load, units):
    return tuple(load // unit & MASK for unit in units)
