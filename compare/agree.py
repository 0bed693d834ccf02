#!/usr/bin/env python3
"""agree.py SCRIPT PAPER PROGRAM [CRATE]: compares the answer lines of a call script.

PROGRAM must give paper.py's lines; so must CRATE where it knows the answer. Where it doesn't it writes `-`, for a dump with
the keys and heights of its lists, which must be those of the words. Prints how many lines agreed and how many of them the
crate knew, or the first difference, and then writes the calls since the slice was lent to SCRIPT.short.
"""
import sys

from paper import Paper
from words import check


def rows(name):
    with open(name, encoding="ascii", errors="replace") as f:
        return f.read().split("\n")[:-1]


def call_of(script, answer):
    """The script line that gives the answer of this number, with the line at which its slice was lent."""
    paper, count, lent = Paper(), -1, 0
    for at, line in enumerate(script):
        if line.startswith(("new ", "words ")):
            lent = at
        if paper.line(line) is not None:
            count += 1
        if count == answer:
            return at, lent
    return len(script) - 1, lent


def lists_of(dump):
    """The crate's form of a dump."""
    model = check([int(word) for word in dump.split()])
    if model is None:
        return "(no arena)"
    rows = ([f"{k}/{h}" for k, h in zip(chain.keys, chain.heights)] for chain in model.lists)
    return " ".join(["-"] + [" ".join(["|"] + row) for row in rows])


def agrees(who, given, wanted):
    if given == wanted:
        return True
    if who != "crate" or not given.startswith("-"):
        return False
    return given == "-" or given == lists_of(wanted)


def first_difference(paper, others):
    for i in range(max(map(len, [paper, *(answers for _, answers in others)]))):
        wanted = paper[i] if i < len(paper) else "(no line)"
        for who, answers in others:
            given = answers[i] if i < len(answers) else "(no line)"
            if i >= len(paper) or not agrees(who, given, wanted):
                return i, who, wanted, given
    return None


def main():
    name, *files = sys.argv[1:]
    paper, *given = map(rows, files)
    others = list(zip(("program", "crate"), given))
    found = first_difference(paper, others)
    if found is None:
        known = sum(1 for line in given[1] if line != "-") if len(given) > 1 else 0
        print(len(paper), known)
        return 0
    answer, who, wanted, got = found
    script = rows(name)
    at, lent = call_of(script, answer)
    with open(name + ".short", "w", encoding="ascii") as f:
        f.write("\n".join(script[lent : at + 1]) + "\n")
    print(f"{name}:{at + 1}: {script[at][:200]}\n  paper   {wanted}\n  {who:7} {got}\n  replay with {name}.short")
    return 1


if __name__ == "__main__":
    sys.exit(main())
