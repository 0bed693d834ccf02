#!/usr/bin/env python3
"""Requests K1 and K2 on paper: a shift's text on standard input, its report on standard output.

Nothing of the proved library is used: a text split at its newlines, and two sorted lists.
"""
import re
import sys
from bisect import insort

LISTS, ROOM, LARGEST = 2, 400, 4294967295
LINE = re.compile(rb"([0-9]+) ([0-9]+)")


def lines_of(text):
    """Each newline ends a line; the last may be missing."""
    *lines, last = text.split(b"\n")
    return lines + [last] if last else lines


def number(digits):
    """What a run of digits stands for, or None above the largest. Python reads at most 4300 digits: zeros in front go first."""
    digits = digits.lstrip(b"0") or b"0"
    return int(digits) if len(digits) <= 10 and int(digits) <= LARGEST else None


def reading(line):
    """The list and the key of a line that parses, or None."""
    parts = LINE.fullmatch(line)
    numbers = [number(run) for run in parts.groups()] if parts else [None]
    return None if None in numbers else numbers


def figures(keys):
    """The quarter in the middle is doubled: K2's sum."""
    n = len(keys)
    if not keys:
        return [0]
    return [n, keys[0], keys[-1], keys[(n - 1) // 4], keys[(n - 1) // 2] + keys[n // 2], keys[3 * (n - 1) // 4]]


def report(text):
    lists, skipped = [[] for _ in range(LISTS)], 0
    for line in lines_of(text):
        found = reading(line)
        if found is None or found[0] >= LISTS or sum(map(len, lists)) == ROOM:
            skipped += 1
        else:
            insort(lists[found[0]], found[1])
    rows = [*([name, *figures(keys)] for name, keys in enumerate(lists)), ("skipped", skipped)]
    return "".join(" ".join(map(str, row)) + "\n" for row in rows)


if __name__ == "__main__":
    sys.stdout.write(report(sys.stdin.buffer.read()))
