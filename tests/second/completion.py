"""The finished table by plain completion, for sheets whose loads are too many to list.

Every pair of rows that share a kind is treated, in the sequence of the grades of their least common loads. Inside,
a load is one number with eleven bits a kind, the highest bit of each kept free so that "fits" is one subtraction."""
import heapq

BITS = 11


def finished(kit, swaps, room):
    """The rows of the finished table; None as soon as there are more than the room (a row once found stays)."""
    work = Completion(kit)
    for left, right in swaps:
        if kit.grade(left) <= kit.bound:
            heapq.heappush(work.waiting, (kit.grade(left), work.pack(left), work.pack(right)))
    while work.waiting:
        _, one, other = heapq.heappop(work.waiting)
        if work.join(one, other):
            if len(work.heads) > room:
                return None
            work.pair_last()
    return work.rows()


class Completion:
    def __init__(self, kit):
        self.kit = kit
        self.free = sum(1 << BITS * kind + BITS - 1 for kind in range(kit.kinds))
        self.heads, self.tails = [], []
        self.waiting = []  # (grade, load, load): what must come to one end

    def pack(self, load):
        return sum(count << BITS * (self.kit.kinds - 1 - kind) for kind, count in enumerate(load))

    def open(self, load):
        kinds = self.kit.kinds
        return tuple(load >> BITS * (kinds - 1 - kind) & (1 << BITS) - 1 for kind in range(kinds))

    def key(self, load):
        return self.kit.cost(self.open(load)), load

    def step(self, load):
        """The load after some row that fits, or None."""
        guarded, free = load | self.free, self.free
        for head, tail in zip(self.heads, self.tails):
            if (guarded - head) & free == free:
                return load - head + tail
        return None

    def join(self, one, other):
        """Brings two loads to one end; a load that no row fits becomes a head. True where a row was added."""
        while one != other:
            if self.key(one) < self.key(other):
                one, other = other, one
            after = self.step(one)
            if after is None:
                self.heads.append(one)
                self.tails.append(other)
                return True
            one = after
        return False

    def pair_last(self):
        """Lists the last row's pairs with the rows before it."""
        head = self.open(self.heads[-1])
        for at in range(len(self.heads) - 1):
            other = self.open(self.heads[at])
            common = tuple(map(max, head, other))
            grade = self.kit.grade(common)
            if grade <= self.kit.bound and any(map(min, head, other)):
                load = self.pack(common)
                one = load - self.heads[-1] + self.tails[-1]
                heapq.heappush(self.waiting, (grade, one, load - self.heads[at] + self.tails[at]))

    def rows(self):
        rows = [(self.open(head), self.open(self.settled(tail))) for head, tail in zip(self.heads, self.tails)]
        return sorted(rows, key=lambda row: (self.kit.grade(row[0]), row[0]))

    def settled(self, load):
        while (after := self.step(load)) is not None:
            load = after
        return load
