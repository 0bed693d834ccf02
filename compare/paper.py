#!/usr/bin/env python3
"""Document 01 on paper: a call script in, the answer lines out, `dump` included.

Nothing of the crate or of the proved library is used. An arena that passes the check is kept as sorted lists; its words
are built by the column table (words.py) when someone asks for them. An arena that does not pass is kept as its words.
"""
import sys
from bisect import bisect_left

from words import N, Chain, Model, check, length_of, sizes_in_range, walk, words_of

LEND = 2359844  # words of the largest arena; no more are lent


class Refused(Exception):
    def __init__(self, number, *beside):
        self.number, self.beside = number, beside


class Paper:
    def __init__(self):
        self.words = []
        self.model = None  # of a passing arena; then `words` may be stale
        self.known = True  # whether the check of `words` has been asked

    def now(self):
        """The lent words."""
        if self.model is not None and self.words is None:
            self.words = words_of(self.model)
        return self.words

    def lend(self, words):
        self.words, self.model, self.known = words, None, False

    def passing(self):
        if not self.known:
            self.model, self.known = check(self.words), True
        return self.model

    # items without an answer

    def new(self, length, fill):
        if length > LEND:
            return ["?"]
        self.lend([fill] * length)

    def poke(self, at, value):
        if at >= len(self.now()):
            return ["?"]
        self.lend(self.words)
        self.words[at] = value

    # calls

    def setup(self, L, M, C):
        if not sizes_in_range(L, M, C) or len(self.now()) != length_of(L, M, C):
            return [2]
        self.model = Model(L, M, C, [Chain() for _ in range(L)], list(range(L, L + C)))
        self.words, self.known = None, True
        return [0]

    def check(self):
        return [1 if self.passing() else 0]

    def dump(self):
        return self.now()

    def at(self, *names):
        """The lists named, once 1, 3 and 4 are tested."""
        model = self.passing()
        if model is None:
            raise Refused(1)
        if any(name >= model.L for name in names):
            raise Refused(3)
        if len(names) == 2 and names[0] == names[1]:
            raise Refused(4)
        return [model.lists[name] for name in names]

    def changed(self):
        self.words = None
        return [0]

    def search(self, name, key, allowance):
        (chain,) = self.at(name)
        found, rank, tally = walk(chain, self.model.M, key)
        if tally > allowance:
            raise Refused(10, 0, 0, allowance)
        return [0, 1 if found else 0, rank - 1 if found else rank, tally]

    def read(self, name, index):
        (chain,) = self.at(name)
        if index >= len(chain.keys):
            raise Refused(8)
        return [0, chain.keys[index]]

    def insert(self, name, key, height):
        (chain,) = self.at(name)
        if height > self.model.M:
            raise Refused(5)
        if not self.model.free:
            raise Refused(6)
        chain.insert(bisect_left(chain.keys, key), self.model.free.pop(0), key, height)
        return self.changed()

    def remove(self, chain, index):
        key = chain.keys.pop(index)
        self.model.free.insert(0, chain.slots.pop(index))
        chain.heights.pop(index)
        self.changed()
        return [0, key]

    def removekey(self, name, key):
        (chain,) = self.at(name)
        index = bisect_left(chain.keys, key)
        if index == len(chain.keys) or chain.keys[index] != key:
            raise Refused(9)
        return self.remove(chain, index)

    def removeat(self, name, index):
        (chain,) = self.at(name)
        if index >= len(chain.keys):
            raise Refused(8)
        return self.remove(chain, index)

    def truncate(self, name, n):
        (chain,) = self.at(name)
        if n < len(chain.keys):
            self.model.free[:0] = reversed(chain.cut(n).slots)
            self.changed()
        return [0]

    def clear(self, name):
        return self.truncate(name, 0)

    def splitat(self, source, to, index):
        a, b = self.at(source, to)
        if b.keys:
            raise Refused(7)
        if index > len(a.keys):
            raise Refused(8)
        b.extend(a.cut(index))
        return self.changed()

    def splitkey(self, source, to, key):
        a, b = self.at(source, to)
        if b.keys:
            raise Refused(7)
        b.extend(a.cut(bisect_left(a.keys, key)))
        return self.changed()

    def append(self, to, source):
        a, b = self.at(to, source)
        moved = b.cut(0)
        if not moved.keys:
            return [0]
        if not a.keys or a.keys[-1] <= moved.keys[0]:
            a.extend(moved)
        elif moved.keys[-1] <= a.keys[0]:
            behind = a.cut(0)
            a.extend(moved)
            a.extend(behind)
        else:
            for slot, key, height in zip(moved.slots, moved.keys, moved.heights):
                a.insert(bisect_left(a.keys, key), slot, key, height)
        return self.changed()

    def middle(self, name):
        (chain,) = self.at(name)
        if not chain.keys:
            raise Refused(8)
        n = len(chain.keys)
        return [0, chain.keys[(n - 1) // 2] + chain.keys[n // 2]]

    def level(self, name):
        (chain,) = self.at(name)
        for i in range(len(chain.heights)):
            rank, times = i + 1, 0
            while rank % 2 == 0 and times < self.model.M:
                rank, times = rank // 2, times + 1
            chain.heights[i] = times
        return self.changed()

    def linkmake(self, d):
        if d == 0:
            raise Refused(11)
        return [0, d]

    def linkraise(self, d):
        if d == 0:
            raise Refused(11)
        if d == N:
            raise Refused(12)
        return [0, d + 1]

    def linklower(self, d):
        if d == 0:
            raise Refused(11)
        if d == 1:
            raise Refused(13)
        return [0, d - 1]

    def call(self, item, numbers):
        """The answer of one item as words, None where it has no answer line."""
        if item == "words":
            if not 1 <= len(numbers) <= LEND:
                return ["?"]
            self.lend(numbers)
            return None
        shape = ITEMS.get(item)
        if shape is None or shape[0] != len(numbers):
            return ["?"]
        try:
            return getattr(self, item)(*numbers)
        except Refused as no:
            return [no.number, *(no.beside or (0,) * shape[1])]

    def line(self, text):
        """The answer line of one script line, or None."""
        if text.startswith("#"):
            return None
        item, *words = text.split(" ")
        numbers = []
        for word in words:
            if not (word.isascii() and word.isdigit()) or int(word) > N:
                return "?"
            numbers.append(int(word))
        answer = self.call(item, numbers)
        return None if answer is None else " ".join(map(str, answer))


# how many numbers an item takes, and how many answers stand beside its number
ITEMS = {
    "new": (2, 0), "poke": (2, 0), "setup": (3, 0), "check": (0, 0), "dump": (0, 0),
    "search": (3, 3), "read": (2, 1), "insert": (3, 0), "removekey": (2, 1), "removeat": (2, 1),
    "truncate": (2, 0), "clear": (1, 0), "splitat": (3, 0), "splitkey": (3, 0), "append": (2, 0),
    "middle": (1, 1), "level": (1, 0), "linkmake": (1, 1), "linkraise": (1, 1), "linklower": (1, 1),
}


def main():
    paper, out = Paper(), []
    for text in sys.stdin:
        answer = paper.line(text.rstrip("\n"))
        if answer is not None:
            out.append(answer)
        if len(out) > 4096:
            print("\n".join(out))
            out = []
    if out:
        print("\n".join(out))


if __name__ == "__main__":
    main()
