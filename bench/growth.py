"""One kit and its swaps at four bounds, chosen so that the finished tables have 32, 64, 128 and 256 rows.

The kit comes from a seed; the bounds were found by trying. The table of a smaller bound is the front of the table of
a larger one, so the four sheets differ in nothing but how far they go."""
import random

KINDS, SWAPS, SEED = 8, 7, 53
BOUNDS = {32: 299, 64: 363, 128: 412, 256: 518}  # rows: the bound that gives them


def kit(seed):
    """Sizes, costs and swaps from the seed."""
    rng = random.Random(seed)
    sizes = [rng.randint(1, 40) for _ in range(KINDS)]
    costs = [rng.randint(0, 100) for _ in range(KINDS)]
    swaps = []
    while len(swaps) < SWAPS:
        grade = rng.randint(40, 200)
        left, right = load(rng, sizes, grade), load(rng, sizes, grade)
        if left and right and left != right:
            swaps.append(left + right)
    return sizes, costs, swaps


def load(rng, sizes, grade):
    """Some load of this grade, or None."""
    counts = [0] * KINDS
    for kind in rng.sample(range(KINDS), KINDS):
        counts[kind] = rng.randint(0, grade // sizes[kind])
        grade -= counts[kind] * sizes[kind]
    return counts if grade == 0 else None


def sheet(seed, bound):
    """The sheet's text at this bound."""
    sizes, costs, swaps = kit(seed)
    lines = [["kit", KINDS, bound], ["size", *sizes], ["cost", *costs], *(["swap", *swap] for swap in swaps)]
    return "".join("\t".join(map(str, line)) + "\n" for line in lines)
