#!/usr/bin/env python3
"""Makes call scripts with the answers of paper.py: scripts.py KIND SEED CALLS PREFIX writes PREFIX.calls and
PREFIX.answers.

Kinds: `lists` random calls over several lists, with every refusal; `long` the same on long lists; `damaged` passing
arenas with words changed, and random words; `limits`, `clauses` and `lines` fixed scripts (SEED and CALLS unused).
"""
import sys

from fixed import clauses, limits, lines
from words import MARK, N, length_of
from writer import Script


def lists(seed, calls):
    s = Script(seed)
    r = s.random
    while len(s.answers) < calls:
        size = r.choice((2, 4, 8, 16, 40, 40, 100, 100, 256, 400))
        C = r.randrange(1, size + 1)
        L = r.choice((1, 2, 2, 3, 3, 4, 5, 16))
        M = r.choice((1, 2, 3, 4, 8, 8, 16))
        room = min(calls - len(s.answers), 60 + 4 * C)
        s.scene(L, M, C, room, 0.01 if C < 50 else 0.001)
    return s


def long(seed, calls):
    """Lists filled to the arena's room, first in a few calls, then used."""
    s = Script(seed)
    r = s.random
    while len(s.answers) < calls:
        L, M = r.choice((2, 3)), r.choice((1, 8, 11, 16))
        C = r.randrange(500, min(3000, 262144 // (4 + 2 * M) - L))
        s.keys = r.choice((50, 10 ** 6))
        s.arena(L, M, C)
        for _ in range(min(C, (calls - len(s.answers)) // 2)):
            s.say("insert", 0, s.key(), s.height())
        for _ in range(max(1, min(300, calls - len(s.answers)))):
            if r.random() < 0.6:
                s.quiet_call()
            else:
                for name in dict.fromkeys(s.change(0.4)):
                    s.read_back(name)
    return s


def any_call(s, L):
    """Any call on any words: list numbers around L, small indexes and heights."""
    r = s.random
    name, other = r.randrange(L + 1), r.randrange(L + 1)
    small, key = r.randrange(5), r.randrange(12)
    s.say(*r.choice((
        ("search", name, key, N), ("read", name, small), ("insert", name, key, small), ("removekey", name, key),
        ("removeat", name, small), ("truncate", name, small), ("clear", name), ("splitat", name, other, small),
        ("splitkey", name, other, key), ("append", name, other), ("middle", name), ("level", name))))


def other_word(r, words, at):
    """Another value for a word: near it, from elsewhere in the arena, or one of the marks."""
    while True:
        value = r.choice((words[at] + 1, words[at] - 1, r.choice(words), r.choice(words), 0, 1, N, N - 1,
                          r.randrange(12), r.randrange(N + 1))) % (N + 1)
        if value != words[at]:
            return value


def damaged(seed, calls):
    s = Script(seed)
    r = s.random
    while len(s.answers) < calls:
        if r.random() < 0.1:
            words = [r.choice((0, 1, 2, 3, N, r.randrange(N + 1))) for _ in range(r.randrange(1, 40))]
            if r.random() < 0.7:
                head = [MARK, 1, r.randrange(1, 3), 1, r.randrange(1, 4), r.choice((1, 2, N)), r.randrange(3), 0]
                words[:8] = head
                words = (words + [0] * 60)[: length_of(head[2], head[3], head[4])]
            s.say("words", *words)
            s.say("check")
            any_call(s, 2)
            s.say("dump")
            continue
        L, M, C = r.randrange(1, 4), r.randrange(1, 4), r.randrange(1, 9)
        s.scene(L, M, C, 6 + 3 * C, 0)
        for _ in range(6):
            words = list(s.paper.now())
            for at in {r.randrange(len(words)) for _ in range(r.choice((1, 1, 1, 2, 3)))}:
                s.say("poke", at, other_word(r, words, at))
            passes = s.say("check") == [1]
            for _ in range(2):
                any_call(s, L)
            if r.random() < 0.25:
                s.say("dump")
            if passes:
                continue  # goes on from the arena that still passes
            for at, word in enumerate(words):
                if s.paper.now()[at] != word:
                    s.say("poke", at, word)
            s.say("check")
    return s


KINDS = {f.__name__: f for f in (lists, long, damaged, limits, clauses, lines)}

if __name__ == "__main__":
    kind, seed, calls, prefix = sys.argv[1:]
    KINDS[kind](int(seed), int(calls)).write(prefix)
