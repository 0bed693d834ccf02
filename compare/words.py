"""The arena of the order: lists of nodes, their words by the column table, the check by its clauses, and the walk by key.

Written from the document alone; paper.py answers the calls with it.
"""
N = 4294967295
MARK = 4279123


class Chain:
    """The nodes of one list, first to last, column by column."""

    __slots__ = ("slots", "keys", "heights")

    def __init__(self, slots=(), keys=(), heights=()):
        self.slots, self.keys, self.heights = list(slots), list(keys), list(heights)

    def cut(self, at):
        """Keeps what stands before index `at` and answers the rest."""
        rest = Chain(self.slots[at:], self.keys[at:], self.heights[at:])
        del self.slots[at:], self.keys[at:], self.heights[at:]
        return rest

    def extend(self, other):
        self.slots += other.slots
        self.keys += other.keys
        self.heights += other.heights

    def insert(self, at, slot, key, height):
        self.slots.insert(at, slot)
        self.keys.insert(at, key)
        self.heights.insert(at, height)


class Model:
    """What the words of a passing arena say."""

    def __init__(self, L, M, C, lists, free):
        self.L, self.M, self.C, self.lists, self.free = L, M, C, lists, free


def length_of(L, M, C):
    return 8 + (L + C) * (4 + 2 * M)


def sizes_in_range(L, M, C):
    return 1 <= L <= 16 and 1 <= M <= 16 and 1 <= C <= 65535


def links_of(chain, M):
    """The link words of each owner, head first: the last node comes first, so that what follows is known."""
    n = len(chain.slots)
    ahead = [None] * M  # level by level: rank of the next node of height above it
    out = [None] * (n + 1)
    for rank in range(n, -1, -1):
        height = M if rank == 0 else chain.heights[rank - 1]
        words = []
        for level in range(M):
            to = ahead[level]
            if level >= height or to is None:
                words += (N, 0)
            else:
                words += (chain.slots[to - 1], to - rank)
        out[rank] = words
        for level in range(height if rank else 0):
            ahead[level] = rank
    return out


def words_of(model):
    """The column table."""
    L, M, C = model.L, model.M, model.C
    free = model.free
    header = [MARK, 1, L, M, C, free[0] if free else N, len(free), 0]
    records = [None] * (L + C)
    for head, chain in enumerate(model.lists):
        slots, links = chain.slots, links_of(chain, M)
        first, last = (slots[0], slots[-1]) if slots else (N, N)
        records[head] = [len(slots), M, first, last] + links[0]
        for i, slot in enumerate(slots):
            following = slots[i + 1] if i + 1 < len(slots) else N
            records[slot] = [chain.keys[i], chain.heights[i], following, 0] + links[i + 1]
    absent = [N, 0] * M
    for i, slot in enumerate(free):
        records[slot] = [0, N, free[i + 1] if i + 1 < len(free) else N, 0] + absent
    out = header
    for record in records:
        out += record
    return out


def follow(w, width, L, C, slot, steps):
    """The chain from `slot` in exactly `steps` steps through node slots to N, or None."""
    slots = []
    while slot != N:
        if len(slots) == steps or not L <= slot < L + C:
            return None
        slots.append(slot)
        slot = w[8 + slot * width + 2]
    return slots if len(slots) == steps else None


def columns_hold(w, M, lists, free):
    """Every record has its column's form, with the links that its list gives it."""
    width, absent = 4 + 2 * M, [N, 0] * M

    def record(slot):
        return w[8 + slot * width : 8 + (slot + 1) * width]

    for head, chain in enumerate(lists):
        if record(head)[1] != M or any(height > M for height in chain.heights):
            return False
        links = links_of(chain, M)
        if record(head)[4:] != links[0]:
            return False
        if any(record(s)[3] != 0 or record(s)[4:] != own for s, own in zip(chain.slots, links[1:])):
            return False
    return all(record(s)[:2] == [0, N] and record(s)[3] == 0 and record(s)[4:] == absent for s in free)


def check(w):
    """The clauses of `An arena passes the check`, in order: the model, or None where one is broken."""
    if len(w) < 8:
        return None
    L, M, C, first_free, free_count = w[2:7]
    if w[0] != MARK or w[1] != 1 or w[7] != 0 or not sizes_in_range(L, M, C) or len(w) != length_of(L, M, C):
        return None
    width = 4 + 2 * M

    def word(slot, column):
        return w[8 + slot * width + column]

    lists = []
    for head in range(L):
        slots = follow(w, width, L, C, word(head, 2), word(head, 0)) if word(head, 0) <= C else None
        if slots is None or word(head, 3) != (slots[-1] if slots else N):
            return None
        chain = Chain(slots, [word(s, 0) for s in slots], [word(s, 1) for s in slots])
        if any(a > b for a, b in zip(chain.keys, chain.keys[1:])):
            return None
        lists.append(chain)
    free = follow(w, width, L, C, first_free, free_count) if free_count <= C else None
    if free is None:
        return None
    if sorted(free + [s for chain in lists for s in chain.slots]) != list(range(L, L + C)):
        return None
    return Model(L, M, C, lists, free) if columns_hold(w, M, lists, free) else None


def walk(chain, M, target):
    """The walk by key: found or not, the rank where it ended, the comparisons."""
    keys, heights, n = chain.keys, chain.heights, len(chain.keys)
    rank = tally = 0
    for level in range(min(M, max(heights, default=0)) - 1, -1, -1):
        while True:
            ahead = rank  # index of the node after the one of this rank
            while ahead < n and heights[ahead] <= level:
                ahead += 1
            if ahead == n:
                break
            tally += 1
            if keys[ahead] >= target:
                break
            rank = ahead + 1
    while rank < n:
        tally += 1
        if keys[rank] > target:
            break
        rank += 1
        if keys[rank - 1] == target:
            return True, rank, tally
    return False, rank, tally
