"""Fixed scripts: the edges of every refusal, each clause of the check broken alone, and lines that are no item."""
from words import MARK, N, length_of
from writer import Script


def bench_list(s, to_spare=2):
    """Q of the bench readings as list 0, levelled, with two more lists."""
    s.arena(3, 2, 4 + to_spare)
    for key in (30, 20, 20, 10):
        s.say("insert", 0, key, 0)
    s.say("level", 0)


def readings(s):
    """The document's arenas, and Q through its calls."""
    s.note("the two arenas of the document")
    s.arena(1, 1, 2)
    s.say("dump")
    s.say("insert", 0, 7, 1)
    s.say("dump")
    s.note("Q: the searches")
    bench_list(s)
    s.say("dump")
    for key in (5, 20, 25, 30, 31):
        s.say("search", 0, key, N)
    s.say("search", 1, 5, N)
    for allowance in (4, 5, 6):
        s.say("search", 0, 25, allowance)
    s.note("Q: splits, truncation, middle")
    for call in (("splitat", 0, 1, 5), ("truncate", 0, 4), ("truncate", 0, 5), ("splitat", 0, 1, 4), ("middle", 0),
                 ("middle", 1), ("splitkey", 0, 1, 20), ("append", 0, 1)):
        s.say(*call)
        s.say("dump")


def appends(s):
    s.note("appends: overlapping, behind, in front, equal keys, empty ones")
    for a, b in (((10, 30), (20, 40)), ((1, 2), (2, 3)), ((2, 3), (1, 2)), ((5, 5), (5, 5)), ((), (1, 2)),
                 ((1, 2), ()), ((), ()), ((1, 5, 9), (5, 5)), ((0, N), (0, N))):
        s.arena(2, 3, 6)
        for name, keys in ((0, a), (1, b)):
            for i, key in enumerate(keys):
                s.say("insert", name, key, i + 1)
        s.say("append", 0, 1)
        for i in range(len(a) + len(b) + 1):
            s.say("read", 0, i)
        s.say("dump")


def middles(s):
    s.note("middles: odd and even lengths, sums above 32 bits, an empty list")
    s.arena(1, 2, 8)
    for i, key in enumerate((N, N, 1, 0, N - 1, 7, N, 0)):
        s.say("insert", 0, key, i % 3)
        s.say("middle", 0)
    for _ in range(8):
        s.say("removeat", 0, 0)
        s.say("middle", 0)


def room(s):
    s.note("heights M and M + 1; a full arena, one remove, one insert in the freed slot")
    s.arena(1, 2, 3)
    for key, height in ((4, 2), (2, 3), (2, 2), (9, 0), (5, 1), (5, 3)):
        s.say("insert", 0, key, height)
    s.say("dump")
    s.say("removekey", 0, 4)
    s.say("dump")
    s.say("insert", 0, 5, 1)
    s.say("dump")


def refusals(s):
    s.note("order of the refusals")
    bench_list(s, 0)
    for call in (("splitat", 3, 3, 9), ("splitat", 0, 0, 9), ("splitat", 0, 3, 9), ("splitkey", 3, 0, 9), ("append", 3, 3),
                 ("append", 1, 1), ("insert", 3, 1, 3), ("insert", 0, 1, 3), ("insert", 0, 1, 2), ("read", 3, 9),
                 ("read", 0, 4), ("removeat", 0, 4), ("removekey", 0, 15), ("removekey", N, 15), ("middle", 1),
                 ("middle", 3), ("search", 3, 1, 0), ("search", 0, 31, 0), ("search", 0, 31, 1), ("truncate", 3, 0),
                 ("clear", 3), ("level", 3), ("dump",)):
        s.say(*call)
    s.note("a receiving list in use, a split past the end")
    for call in (("insert", 1, 1, 0), ("removeat", 0, 0), ("insert", 1, 1, 0), ("splitat", 0, 1, 9), ("splitat", 0, 1, 3),
                 ("splitkey", 0, 1, 20), ("splitat", 0, 2, 4), ("dump",)):
        s.say(*call)


def setups(s):
    s.note("set-up: ranges and lengths")
    for L, M, C in ((0, 1, 1), (17, 1, 1), (1, 0, 1), (1, 17, 1), (1, 1, 0), (1, 1, 65536), (1, 1, 1), (16, 16, 1),
                    (N, N, N), (1, 1, N), (16, 1, 40000), (2, 16, 7000)):
        length = length_of(L, M, C)
        for off in (0, 1, -1):
            if 0 < length + off <= 262144:
                s.say("new", length + off, 5)
                s.say("setup", L, M, C)
                s.say("check")
                s.say("search", 0, 5, N)
        if length > 262144:
            s.say("setup", L, M, C)
    s.note("set-up over an arena in use: refused, then done")
    bench_list(s)
    for sizes in ((3, 2, 5), (2, 2, 6), (3, 0, 6), (17, 2, 6)):
        s.say("setup", *sizes)
    s.say("dump")
    s.say("setup", 3, 2, 6)
    s.say("dump")


def distances(s):
    s.note("distances")
    for call in ("linkmake", "linkraise", "linklower"):
        for d in (0, 1, 2, 255, N - 1, N):
            s.say(call, d)


def limits(_seed, _calls):
    s = Script(0)
    for part in (readings, appends, middles, room, refusals, setups, distances):
        part(s)
    return s


def word(slot, column):
    """Where a word stands at two levels."""
    return 8 + 8 * slot + column


# Words that break a clause, on Q with key 7 in list 1 at height 1: slots 3 to 6 hold Q's readings 30, 20, 20, 10 as they
# were inserted, slot 7 key 7, slots 8 and 9 are free.
BROKEN = (
    ("mark", (0, MARK + 1)), ("version", (1, 2)), ("version above 16 bits", (1, 65537)), ("lists", (2, 2)),
    ("lists and nodes that keep the length", (2, 2), (4, 8)), ("levels", (3, 1)), ("nodes", (4, 6)),
    ("first free is no free slot", (5, 3)), ("first free skips one", (5, 9)), ("free count", (6, 1)),
    ("free count far too large", (6, N)), ("header word 7", (7, 1)),
    ("length too small", (word(0, 0), 3)), ("length too large", (word(0, 0), 5)),
    ("length far too large", (word(0, 0), N)), ("length of an empty list", (word(2, 0), 1)),
    ("head's levels", (word(0, 1), 1)), ("first node", (word(0, 2), 5)), ("last node", (word(0, 3), 4)),
    ("last node of an empty list", (word(2, 3), 7)), ("a chain through a head", (word(6, 2), 1)),
    ("a chain past the slots", (word(6, 2), 10)), ("a chain that comes back", (word(3, 2), 6)),
    ("a chain that ends early", (word(5, 2), N)), ("a chain into another list", (word(4, 2), 7)),
    ("keys fall", (word(5, 0), 21)), ("height above M", (word(6, 1), 3)), ("height too small", (word(3, 1), 1)),
    ("height too large", (word(4, 1), 1)), ("node's word 3", (word(5, 3), 1)),
    ("free slot's key", (word(8, 0), 1)), ("free slot's height", (word(8, 1), 0)),
    ("free chain comes back", (word(9, 2), 8)), ("free chain ends early", (word(8, 2), N)),
    ("free chain through a head", (word(8, 2), 0)), ("free slot's word 3", (word(9, 3), 1)),
    ("free slot's link", (word(9, 4), 3), (word(9, 5), 1)), ("free slot's distance", (word(9, 7), 1)),
    ("link's target", (word(0, 4), 4)), ("link's distance", (word(0, 5), 1)), ("link missing", (word(0, 6), N), (word(0, 7), 0)),
    ("link's distance 0", (word(5, 5), 0)), ("absent link with a distance", (word(3, 5), 1)),
    ("link past the last node", (word(3, 6), 5), (word(3, 7), 1)), ("link above the height", (word(6, 4), 5), (word(6, 5), 1)),
    ("a node in two lists", (word(2, 0), 1), (word(2, 2), 7), (word(2, 3), 7), (word(2, 4), 7), (word(2, 5), 1)),
    ("a node in no list", (word(1, 0), 0), (word(1, 2), N), (word(1, 3), N), (word(1, 4), N), (word(1, 5), 0)),
    ("still passes: another key in order", (word(4, 0), 25)),
    ("still passes: the free slots the other way", (5, 9), (word(9, 2), 8), (word(8, 2), N)),
)


def clauses(_seed, _calls):
    """Each clause of the check broken alone, and every word changed alone."""
    s = Script(0)
    bench_list(s, 3)
    s.say("insert", 1, 7, 1)
    s.say("dump")
    s.say("check")
    words = list(s.paper.now())
    for name, *pokes in BROKEN:
        s.note(name)
        for at, value in pokes:
            s.say("poke", at, value)
        s.say("check")
        s.say("search", 0, 20, N)
        s.say("insert", 2, 1, 0)
        s.say("dump")
        for at, word_before in enumerate(words):
            if s.paper.now()[at] != word_before:
                s.say("poke", at, word_before)
        s.say("check")
    s.note("every word by itself: one more, and N or 0")
    for at, word_before in enumerate(words):
        for value in ((word_before + 1) % (N + 1), 0 if word_before == N else N):
            s.say("poke", at, value)
            s.say("check")
        s.say("poke", at, word_before)
    s.say("check")
    return s


def lines(_seed, _calls):
    """Lines that are no item."""
    s = Script(0)
    s.arena(1, 1, 2)
    for line in ("bad", "Check", "check 1", "read 0", "read 0 1 2", "read 0 x", "read 0 -1", "read 0 +1", "read 0 4294967296",
                 "read 0 99999999999999999999", "insert 0 1", "read  0 1", "read 0 1 ", " read 0 1", "poke 26 0",
                 "poke 4294967295 0", "new 4294967295 0", "new 5", "setup 1 1", "words x", "dump 1", "linkmake", "search 0 1",
                 "", " ", "chec", "checks", "check ", "check\t", "c#", "1", "0 check", "splitkeyssplitkeyssplitkeys 0 0", "words", "words ",
                 "words  1", "words 1 2 4294967296", "words 1 2x", "insert 0 1 1 1", "read 0 42949672950", "linkmake 1 2 3 4 5 6"):
        s.raw(line)
    s.raw("#read 0 1")
    s.raw("# a comment")
    s.raw("check")
    s.raw("insert 0 4294967295 0")
    s.raw("read 0 0")
    s.raw("read 00 0000000000000000000")
    s.raw("dump")
    return s
