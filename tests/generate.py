#!/usr/bin/env python3
"""Generators of kits, sheets and calls, each from a seed: the same seed gives the same bytes.

generate.py NAME SEED prints the sheet of one seed (NAME: plain, crowded, damaged), to look at a mismatch again."""
import random
import sys
from dataclasses import dataclass

from second import table
from second.kit import BOUND, COST, COUNT, KINDS, LOADS, ROWS, SWAPS, TEXT, Kit, fits


@dataclass
class Job:
    """A kit with its swaps and loads: what a sheet says."""
    kit: Kit
    swaps: list
    loads: list

    def text(self):
        kit = self.kit
        lines = [("kit", kit.kinds, kit.bound), ("size", *kit.sizes), ("cost", *kit.costs)]
        lines += [("swap", *left, *right) for left, right in self.swaps]
        lines += [("load", *load) for load in self.loads]
        return "".join("\t".join(map(str, line)) + "\n" for line in lines).encode()


# ---- kits

def make_kit(rng, most):
    """A kit with about `most` loads up to its bound, or fewer."""
    kinds = rng.choice((1, 2, 2, 3, 3, 3, 4, 4, 4, 5, 5, 6, 8, 12))
    top = rng.choice((1, 2, 4, 9, 30))
    sizes = [rng.randint(1, top) for _ in range(kinds)]
    if rng.random() < 0.03:
        sizes = [rng.choice((1, 333, 500, 999, 1000)) for _ in range(kinds)]
    return Kit(sizes, make_costs(rng, sizes), make_bound(rng, sizes, most))


def make_costs(rng, sizes):
    style = rng.randrange(6)
    if style == 0:
        return [0] * len(sizes)
    if style == 1:  # equal cost at equal grade
        factor = rng.choice((-2, 1, 3))
        return [factor * size for size in sizes]
    if style == 2:
        return [rng.choice((-COST, -COST + 1, 0, COST - 1, COST)) for _ in sizes]
    reach = rng.choice((1, 3, 20, COST))
    return [rng.randint(-reach, reach) for _ in sizes]


def make_bound(rng, sizes, most):
    """Mostly the largest bound that keeps to `most` loads, or a little below it."""
    low, high = 1, BOUND
    while low < high:
        middle = (low + high + 1) // 2
        if table.how_many(sizes, middle) <= most:
            low = middle
        else:
            high = middle - 1
    return max(1, low - rng.choice((0, 0, 0, 1, low // 3, low - 1)))


# ---- loads and swaps

def load_of_grade(rng, sizes, grade):
    """Some load of exactly this grade, or None where no try found one."""
    for _ in range(12):
        load, rest = [0] * len(sizes), grade
        for kind in rng.sample(range(len(sizes)), len(sizes)):
            last = rng.random() < 0.4 and rest % sizes[kind] == 0
            load[kind] = rest // sizes[kind] if last else rng.randint(0, rest // sizes[kind])
            rest -= load[kind] * sizes[kind]
        if rest == 0:
            return tuple(load)
    return None


def make_load(rng, kit):
    """A load, mostly within the bound and often close to it."""
    style = rng.randrange(12)
    if style == 0:
        return (0,) * kit.kinds
    if style == 1:
        return tuple(rng.choice((0, 1, COUNT)) for _ in kit.sizes)
    grade = rng.choice((kit.bound, kit.bound + 1, rng.randint(0, kit.bound), rng.randint(0, kit.bound)))
    return load_of_grade(rng, kit.sizes, grade) or (0,) * kit.kinds


def make_swap(rng, kit):
    """Two different loads of one grade, sometimes with a shared part, sometimes above the bound; or None."""
    top = kit.bound + kit.bound // 4 + 1 if rng.random() < 0.1 else max(1, kit.bound // rng.choice((1, 2, 2, 3, 4)))
    grade = rng.randint(1, top)
    left, right = load_of_grade(rng, kit.sizes, grade), load_of_grade(rng, kit.sizes, grade)
    if left is None or right is None or left == right:
        return None
    if rng.random() < 0.25:
        kind = rng.randrange(kit.kinds)
        left, right = (tuple(c + (k == kind) for k, c in enumerate(side)) for side in (left, right))
    return left, right


def make_swaps(rng, kit, number):
    swaps = []
    for _ in range(6 * number):
        swap = make_swap(rng, kit)
        if swaps and rng.random() < 0.06:  # the same swap again, or turned round
            swap = rng.choice(swaps)[::rng.choice((1, -1))]
        if swap and len(swaps) < number:
            swaps.append(swap)
    return swaps


# ---- whole sheets

def plain(seed, most=0):
    """A valid sheet of a small kit."""
    rng = random.Random(f"plain {seed}")
    kit = make_kit(rng, most or rng.choice((30, 200, 800, 2500)))
    swaps = make_swaps(rng, kit, rng.choice((0, 1, 1, 2, 2, 3, 4, 5, 8, 14)))
    return Job(kit, swaps, [make_load(rng, kit) for _ in range(rng.choice((0, 1, 3, 6, 12)))])


def crowded(seed):
    """A valid sheet whose finished table has about as many rows as the program lends; often exactly so or one more."""
    rng = random.Random(f"crowded {seed}")
    want = rng.choice((ROWS - 1, ROWS, ROWS, ROWS + 1, ROWS + 1, rng.randint(230, 300)))
    while True:
        kit = Kit([1] * 10, make_costs(rng, [1] * 10), 7)
        swaps = [(beside(rng, 0), beside(rng, 1)) for _ in range(rng.randint(16, 22))]
        rows = table.finished(kit, swaps)
        short = want - len(rows)
        settled = settled_at_bound(rng, kit, rows)
        if 0 <= short <= SWAPS - len(swaps) and len(settled) > short:
            # a swap between settled loads at the bound adds exactly one row
            return Job(kit, swaps + list(zip(settled, settled[1:short + 1])), [make_load(rng, kit) for _ in range(3)])


def beside(rng, clamp):
    """A clamp with three other parts of ten kinds. Swaps of one clamp for another give many rows: two of them join
    loads that share a clamp only."""
    load = [0] * 10
    load[clamp] = 1
    for kind in rng.choices(range(2, 10), k=3):
        load[kind] += 1
    return tuple(load)


def settled_at_bound(rng, kit, rows):
    """Settled loads of the bound's grade, in no sequence, for a kit of size 1 parts."""
    loads = {load_of_grade(rng, kit.sizes, kit.bound) for _ in range(400)} - {None}
    found = sorted(load for load in loads if not any(fits(head, load) for head, _ in rows))
    return rng.sample(found, len(found))


def damaged(seed):
    """The bytes of a valid sheet with one damage, sometimes two; the damages take turns."""
    rng = random.Random(f"damaged {seed}")
    kit = make_kit(rng, 60)
    swaps = make_swaps(rng, kit, rng.randint(0, 4))
    job = Job(kit, swaps, [make_load(rng, kit) for _ in range(rng.randint(0, 3))])
    text = DAMAGES[seed % len(DAMAGES)](rng, job, job.text())
    if rng.random() < 0.15:
        text = rng.choice(DAMAGES)(rng, job, text)
    return text


# ---- damages: each takes the seeded chance, the job and the bytes, and gives bytes

BYTES = b"0123456789\t\n- \r+kswapload\x00\xff,."


def spot(rng, text, among=None):
    """A place in the text, of a byte among those given where there is one."""
    places = [at for at, byte in enumerate(text) if among is None or byte in among]
    return rng.choice(places) if places else 0


def change_byte(rng, job, text):
    at = spot(rng, text)
    return text[:at] + bytes([rng.choice(BYTES)]) + text[at + 1:]


def insert_byte(rng, job, text):
    at = rng.randint(0, len(text))
    return text[:at] + bytes([rng.choice(BYTES)]) + text[at:]


def drop_byte(rng, job, text):
    at = spot(rng, text)
    return text[:at] + text[at + 1:]


def change_digit(rng, job, text):
    at = spot(rng, text, b"0123456789")
    return text[:at] + rng.choice((b"0", b"1", b"2", b"9", b"%d" % rng.randint(0, 99))) + text[at + 1:]


def double_tab(rng, job, text):
    at = spot(rng, text, b"\t\n")
    return text[:at] + b"\t" + text[at:]


def drop_break(rng, job, text):
    at = spot(rng, text, b"\t\n")
    return text[:at] + text[at + 1:]


def add_break(rng, job, text):
    at = rng.randint(0, len(text))
    return text[:at] + rng.choice((b"\n", b"\t", b"\r\n", b"\n\n")) + text[at:]


def cut_short(rng, job, text):
    return text[:rng.randint(0, len(text))]


def cut_lines(rng, job, text):
    return b"\n".join(text.split(b"\n")[:rng.randint(0, 3)]) + rng.choice((b"", b"\n"))


def add_tail(rng, job, text):
    return text + rng.choice((b"\n", b"load", b" ", b"\x00", b"load\t", b"swap\t1\n", b"kit\t1\t1\n"))


def before_number(rng, job, text):
    """A zero, a minus or a plus before a number."""
    words = text.split(b"\t")
    at = rng.randrange(1, len(words)) if len(words) > 1 else 0
    words[at] = rng.choice((b"0", b"-", b"-", b"--", b"+", b"00")) + words[at]
    return b"\t".join(words)


def lines_of(text):
    return text.split(b"\n")[:-1]


def joined(lines):
    return b"".join(line + b"\n" for line in lines)


def trade_lines(rng, job, text):
    lines = lines_of(text)
    if len(lines) > 1:
        one, other = rng.sample(range(len(lines)), 2)
        lines[one], lines[other] = lines[other], lines[one]
    return joined(lines)


def drop_line(rng, job, text):
    lines = lines_of(text)
    at = rng.randrange(len(lines) or 1)
    del lines[at:at + 1]
    return joined(lines)


def double_line(rng, job, text):
    lines = lines_of(text) or [b""]
    line = rng.choice(lines)
    lines.insert(rng.randint(0, len(lines)), line)
    return joined(lines)


def change_key(rng, job, text):
    lines = lines_of(text) or [b""]
    at = rng.randrange(len(lines))
    key, tab, rest = lines[at].partition(b"\t")
    lines[at] = rng.choice((key.upper(), key[:-1], key + b"s", b"load", b"swap", b"cost", b"")) + tab + rest
    return joined(lines)


def long_number(rng):
    return rng.choice((b"4294967297", b"18446744073709551617", b"65536", b"1%s" % (b"0" * rng.randint(4, 400)),
                       b"9" * rng.choice((20, 39, 5000))))


def put_number(rng, text, line, word):
    """The word in place of some number of the line (from 0), where there is such a line."""
    lines = lines_of(text)
    if line < len(lines):
        words = lines[line].split(b"\t")
        words[rng.randrange(min(1, len(words) - 1), len(words))] = word
        lines[line] = b"\t".join(words)
    return joined(lines)


def spoil_kinds(rng, job, text):
    word = rng.choice((b"0", b"13", b"14", b"256", b"268", b"65537", long_number(rng)))
    return text.replace(b"kit\t%d\t" % job.kit.kinds, b"kit\t%s\t" % word, 1)


def spoil_bound(rng, job, text):
    word = rng.choice((b"0", b"1001", b"1000", b"65537", long_number(rng)))
    return text.replace(b"\t%d\n" % job.kit.bound, b"\t%s\n" % word, 1)


def spoil_size(rng, job, text):
    return put_number(rng, text, 1, rng.choice((b"0", b"1001", b"1000", b"65537", long_number(rng))))


def spoil_cost(rng, job, text):
    word = rng.choice((b"1000001", b"-1000001", b"1000000", b"-1000000", b"-0", b"4294967296", b"-4294967296",
                       b"-" + long_number(rng), long_number(rng)))
    return put_number(rng, text, 2, word)


def spoil_count(rng, job, text):
    word = rng.choice((b"65536", b"65535", b"65537", b"131072", long_number(rng)))
    return put_number(rng, text, 3 + rng.randrange(len(job.swaps) + len(job.loads) or 1), word)


def with_swap(rng, job, left, right):
    swaps = list(job.swaps)
    swaps.insert(rng.randint(0, len(swaps)), (left, right))
    return Job(job.kit, swaps, job.loads).text()


def equal_sides(rng, job, text):
    load = make_load(rng, job.kit)
    return with_swap(rng, job, load, load)


def unequal_grades(rng, job, text):
    return with_swap(rng, job, make_load(rng, job.kit), make_load(rng, job.kit))


def many_swaps(rng, job, text):
    """64, 65 or 66 swaps, the last sometimes bad in another way too."""
    kit = job.kit
    swap = make_swap(rng, kit) or ((0,) * kit.kinds,) * 2
    swaps = (job.swaps + [swap] * SWAPS)[:rng.choice((SWAPS, SWAPS + 1, SWAPS + 1, SWAPS + 2))]
    odd = tuple(rng.choice((0, COUNT + 1, 3)) for _ in range(2 * kit.kinds))
    if rng.random() < 0.4:
        swaps[-1] = (odd[:kit.kinds], odd[kit.kinds:])
    return Job(kit, swaps, job.loads).text()


def many_loads(rng, job, text):
    """1,024, 1,025 or more loads, the last sometimes bad in another way too."""
    kit = job.kit
    loads = [(0,) * kit.kinds] * rng.choice((LOADS, LOADS + 1, LOADS + 1, LOADS + 5))
    if rng.random() < 0.4:
        loads[-1] = tuple(rng.choice((0, COUNT + 1, 3)) for _ in range(kit.kinds))
    found = Job(kit, job.swaps, loads).text()
    return found if rng.random() < 0.8 else found[:-1] + b"\tx\n"


def long_text(rng, job, text):
    """Text of about the greatest length, by one long number, by loads, or by anything."""
    room = TEXT + rng.choice((-1, 0, 0, 1, 1, 1, 2, 40_000)) - len(text)
    style = rng.randrange(3)
    if style == 0:
        return text + b"load\t" + b"1" * (room - 6) + b"\n"
    if style == 1:
        return text + b"\n" * room
    first, rest = text.split(b"\n", 1)
    return first + b"7" * room + b"\n" + rest


DAMAGES = (
    change_byte, insert_byte, drop_byte, change_digit, double_tab, drop_break, add_break, cut_short, cut_lines, add_tail,
    before_number, trade_lines, drop_line, double_line, change_key, spoil_kinds, spoil_bound, spoil_size, spoil_cost,
    spoil_count, equal_sides, unequal_grades, many_swaps, many_loads, long_text, lambda rng, job, text: text,
)


# ---- calls through the C interface

HUGE = (2**16 + 1, 2**32, 2**32 + 2, 2**63, 2**63 + 1, 2**64 - 1)


def flat(records):
    return [count for left, right in records for count in left + right]


def junk(rng, length):
    """What an unused buffer may hold."""
    return [rng.choice((0, 1, 7, COUNT, rng.randint(0, COUNT))) for _ in range(length)]


def spoil_call(rng, call):
    """One argument out of its range or of another length. The call is a dict of arguments, changed in place."""
    kinds = min(max(call["kinds"], 1), KINDS)
    name = rng.choice(list(call))
    if name == "kinds":
        call[name] = rng.choice((0, 13, kinds + 1, kinds - 1, *HUGE))
    elif name == "bound":
        call[name] = rng.choice((0, 1001, *HUGE))
    elif name == "rows":
        call[name] = rng.choice((len(call["rules"]) // (2 * kinds) + 1, *HUGE))
    elif rng.random() < 0.5:
        resize(rng, call[name], rng.choice((1, 1, kinds, 2 * kinds * (ROWS + 1))))
    elif name == "swaps" and rng.random() < 0.5:
        at = 2 * kinds * rng.randrange(len(call[name]) // (2 * kinds) + 1)
        call[name][at + kinds:at + 2 * kinds] = call[name][at:at + kinds]
    elif name == "costs":
        put(rng, call[name], (COST + 1, -COST - 1, COST, -COST, 2**31 - 1, -2**31))
    elif name == "sizes":
        put(rng, call[name], (0, 1001, 1000, COUNT))
    else:
        put(rng, call[name], (0, 1, COUNT))


def resize(rng, numbers, by):
    if numbers and rng.random() < 0.5:
        del numbers[-min(by, len(numbers)):]
    else:
        numbers.extend([1] * by)


def put(rng, numbers, words):
    if numbers:
        numbers[rng.randrange(len(numbers))] = rng.choice(words)


def complete_call(seed):
    """Arguments of complete: a small kit with room around the number of its rows, sometimes spoiled."""
    rng = random.Random(f"complete {seed}")
    job = plain(f"complete {seed}", rng.choice((20, 100, 400)))
    kit = job.kit
    rows = len(table.finished(kit, job.swaps))
    room = min(ROWS, rng.choice((rows, rows, max(0, rows - 1), rows + 1, 0, rng.randint(0, ROWS))))
    call = {"kinds": kit.kinds, "bound": kit.bound, "sizes": list(kit.sizes), "costs": list(kit.costs),
            "swaps": flat(job.swaps), "rules": junk(rng, room * 2 * kit.kinds)}
    if rng.random() < 0.08:  # a swap of equal sides, or most likely of unequal grades
        side = list(make_load(rng, kit))
        call["swaps"][:0] = side + rng.choice((side, list(make_load(rng, kit))))
    for _ in range(rng.choice((0, 0, 0, 1, 1, 2))):
        spoil_call(rng, call)
    return call


def proper_row(rng, kit):
    """A row that a table may have: two loads of one grade within the bound, the later in the cost order first."""
    for _ in range(20):
        swap = make_swap(rng, kit)
        if swap and kit.grade(swap[0]) <= kit.bound:
            return tuple(sorted(swap, key=kit.key, reverse=True))
    return None


def improper_row(rng, kit):
    row = proper_row(rng, kit) or ((0,) * kit.kinds,) * 2
    above = load_of_grade(rng, kit.sizes, kit.bound + 1), load_of_grade(rng, kit.sizes, kit.bound + 1)
    choices = [row[::-1], (row[0], row[0]), ((0,) * kit.kinds,) * 2, (make_load(rng, kit), row[1])]
    return rng.choice(choices + ([tuple(sorted(above, key=kit.key, reverse=True))] if all(above) else []))


def make_table(rng, seed):
    """A kit and a table of proper rows: a finished one, any rows, or small rows that are applied many times."""
    style = rng.randrange(10)
    if style < 4:
        kinds, step = rng.randint(2, 4), rng.randint(2, 6)
        kit = Kit([rng.randint(1, 2) for _ in range(kinds)], make_costs(rng, [1] * kinds), rng.randint(30, 120))
        low = Kit(kit.sizes, kit.costs, step)
        return kit, [row for row in (proper_row(rng, low) for _ in range(rng.randint(1, 5))) if row]
    job = plain(f"settle {seed}", rng.choice((20, 100, 400)))
    if style < 7:
        return job.kit, [row for row in (proper_row(rng, job.kit) for _ in range(rng.randint(0, 9))) if row]
    return job.kit, table.finished(job.kit, job.swaps)[:ROWS]


def settle_call(seed):
    """Arguments of settle: a table of proper rows, with unused rows after them, sometimes spoiled."""
    rng = random.Random(f"settle {seed}")
    kit, used = make_table(rng, seed)
    if rng.random() < 0.25:
        used.insert(rng.randint(0, len(used)), improper_row(rng, kit))
        used = used[:ROWS]
    unused = min(ROWS - len(used), rng.choice((0, 0, 1, 5, ROWS)))
    call = {"kinds": kit.kinds, "bound": kit.bound, "sizes": list(kit.sizes), "costs": list(kit.costs),
            "rules": flat(used) + junk(rng, unused * 2 * kit.kinds), "rows": len(used),
            "load": list(make_load(rng, kit))}
    for _ in range(rng.choice((0, 0, 0, 0, 1, 2))):
        spoil_call(rng, call)
    return call


def earlier_call(seed):
    """Arguments of earlier of two: loads far apart, so that a sum of 32 bits would wrap, close, or equal."""
    rng = random.Random(f"earlier {seed}")
    kinds = rng.randint(1, KINDS)
    top = rng.choice((1, 3, 40, COUNT))
    first = [rng.choice((0, top, rng.randint(0, top))) for _ in range(kinds)]
    second = [rng.choice((count, count, rng.randint(0, top))) for count in first]
    call = {"kinds": kinds, "costs": make_costs(rng, [rng.randint(1, 9) for _ in range(kinds)]), "first": first,
            "second": second if rng.random() < 0.9 else list(first)}
    if rng.random() < 0.3:
        spoil_call(rng, call)
    return call


def main(name, seed):
    made = {"plain": plain, "crowded": crowded, "damaged": damaged}[name](int(seed))
    sys.stdout.buffer.write(made if isinstance(made, bytes) else made.text())


if __name__ == "__main__":
    if len(sys.argv) != 3:
        sys.exit(__doc__)
    main(*sys.argv[1:])
