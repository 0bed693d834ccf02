"""A call script while it is written: its lines, paper.py's answers, and random calls that are mostly sensible.

After a call that changes a list its keys are read back, all of them or some.
"""
import random

from paper import Paper
from words import N, length_of


class Script:
    def __init__(self, seed):
        self.random = random.Random(seed)
        self.paper = Paper()
        self.lines, self.answers = [], []

    def say(self, item, *numbers):
        self.lines.append(" ".join((item, *map(str, numbers))))
        answer = self.paper.call(item, list(numbers))
        if answer is not None:
            self.answers.append(" ".join(map(str, answer)))
        return answer

    def raw(self, line):
        self.lines.append(line)
        answer = self.paper.line(line)
        if answer is not None:
            self.answers.append(answer)

    def note(self, text):
        self.lines.append("# " + text)

    def arena(self, L, M, C, fill=0):
        self.say("new", length_of(L, M, C), fill)
        self.say("setup", L, M, C)

    def write(self, prefix):
        for end, rows in (("calls", self.lines), ("answers", self.answers)):
            with open(f"{prefix}.{end}", "w", encoding="ascii") as f:
                f.write("\n".join(rows) + "\n")

    # random arguments, mostly sensible

    def list_name(self):
        L = self.paper.model.L
        return self.random.randrange(L) if self.random.random() < 0.98 else self.random.choice((L, L + 1, N))

    def index(self, name, past=0.06):
        lists = self.paper.model.lists
        n = len(lists[name].keys) if name < len(lists) else 0
        if self.random.random() < past or n == 0:
            return self.random.choice((n, n, n + 1, N, self.random.randrange(n + 3)))
        return self.random.randrange(n)

    def key(self, name=None):
        """A key of the scene's kind: often one that is there, or a neighbour of it."""
        r = self.random
        if name is not None and name < self.paper.model.L and r.random() < 0.6:
            keys = self.paper.model.lists[name].keys
            if keys:
                return min(N, max(0, r.choice(keys) + r.choice((0, 0, 0, 0, 0, 0, -1, 1))))
        kind = r.random()
        if kind < 0.05:
            return r.choice((0, 1, N - 1, N))
        return r.randrange(self.keys)

    def height(self):
        r, M = self.random, self.paper.model.M
        kind = r.random()
        if kind < 0.02:
            return r.choice((M + 1, N))
        if kind < 0.5:
            h = 0
            while h < M and r.random() < 0.5:
                h += 1
            return h
        return r.randrange(M + 1) if kind < 0.9 else r.choice((0, M))

    def allowance(self):
        return N if self.random.random() < 0.7 else self.random.randrange(12)

    # reading back

    def read_back(self, name):
        if name >= self.paper.model.L:
            return
        n = len(self.paper.model.lists[name].keys)
        if n <= 4 or self.random.random() < 3 / n:
            indexes = range(n)
        else:
            indexes = {self.random.choice((0, n - 1)), self.random.randrange(n)}
        for i in indexes:
            self.say("read", name, i)
        if self.random.random() < 0.1:
            self.say("read", name, n)

    def quiet_call(self):
        r, name = self.random, self.list_name()
        kind = r.random()
        if kind < 0.6:
            self.say("search", name, self.key(name), self.allowance())
        elif kind < 0.75:
            self.say("read", name, self.index(name))
        elif kind < 0.85:
            self.say("middle", name)
        elif kind < 0.9:
            self.say("check")
        else:
            d = r.choice((0, 1, 2, N - 1, N, r.randrange(1000)))
            self.say(r.choice(("linkmake", "linkraise", "linklower")), d)

    def change(self, growing):
        """One call that may change lists; answers the lists it names."""
        r, name = self.random, self.list_name()
        kind = r.random()
        if kind < growing:
            self.say("insert", name, self.key(name), self.height())
            return [name]
        kind = r.random()
        if kind < 0.25:
            self.say("removekey", name, self.key(name))
        elif kind < 0.5:
            self.say("removeat", name, self.index(name))
        elif kind < 0.56:
            self.say("truncate", name, self.index(name, 0.2))
        elif kind < 0.58:
            self.say("clear", name)
        elif kind < 0.66:
            self.say("level", name)
        else:
            other = self.other(name, wants_empty=kind < 0.84)
            if kind < 0.75:
                self.say("splitat", name, other, self.index(name, 0.15))
            elif kind < 0.84:
                self.say("splitkey", name, other, self.key(name))
            else:
                self.say("append", name, other)
            return [name, other]
        return [name]

    def other(self, name, wants_empty):
        """A second list: another one as a rule, and for a split an empty one as a rule."""
        lists = self.paper.model.lists
        if self.random.random() < 0.05:
            return self.list_name()
        fit = [i for i in range(len(lists)) if i != name and bool(lists[i].keys) != wants_empty]
        return self.random.choice(fit) if fit else self.list_name()

    def scene(self, L, M, C, calls, dumps):
        """One arena and about `calls` calls on it."""
        r = self.random
        self.keys = r.choice((2, 5, 20, 100, 1000, N))
        self.arena(L, M, C, r.choice((0, 0, 1, N)))
        end = len(self.answers) + calls
        if r.random() < 0.5:
            for _ in range(r.randrange(C)):
                self.say("insert", r.randrange(min(L, 2)), self.key(), self.height())
        growing = r.choice((0.4, 0.6, 0.75))
        while len(self.answers) < end:
            if r.random() < 0.45:
                self.quiet_call()
            else:
                # a full arena is left for a while, so that 6 is seen, then emptied
                full = not self.paper.model.free and r.random() < 0.5
                for name in dict.fromkeys(self.change(0.1 if full else growing)):
                    self.read_back(name)
            if r.random() < dumps:
                self.say("dump")
