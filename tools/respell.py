#!/usr/bin/env python3
"""Brings this repository's own definitions and lemmas to the kit's spelling: words in snake case, types and modules in camel case.

usage: python3 tools/respell.py        at the top, once, right after the kit's own port script

A dash stays where it joins the names of two definitions; elsewhere it becomes an underscore. Names of src/, exported names, strings, inputs and outputs
stay: only names that specs/ or proofs/*.antt declare are turned, in .antt and .rt files, in the must-fail edits, and in the pages where they stand in
backticks. Where two would get one name, the definition gets it and the lemma ends in _lem, which is printed; so is a file in which an old name and
another's new one both stand.
"""
import collections
import os
import re

TOKEN = re.compile(r"[^\s(){}\[\];,.\"`:|\u00ab\u00bb]+")
BY_HAND = {"key-walk": "plain_key_walk", "rank-walk": "plain_rank_walk", "end-from": "ended_from", "footing-at": "footing_of", "key-at": "key_at_lem", "withDigit": "with_digit", "turnedLine": "turned_line", "setupNumber": "setup_number", "totalNodes": "total_nodes"}
GENERATED = ("Proof.antt", "Answers.antt", "Invariants.antt")


def files(ends):
    for d, ds, fs in os.walk("crates"):
        ds[:] = [x for x in ds if x != "out"]
        for f in sorted(fs):
            if f.endswith(ends):
                yield os.path.join(d, f)


def snake(name):
    name = re.sub(r"([a-z0-9])([A-Z])(?=[a-z])", lambda m: m[1] + "_" + m[2].lower(), name)
    return name


def main():
    declared, words, foreign = {}, set(), set()
    texts = {p: open(p, encoding="utf-8").read() for p in files((".antt", ".rt"))}
    for p, t in texts.items():
        for m in re.finditer(r"(?m)^(?:pub )?(?:ghost )?use (\S+?)\.\{([^}]*)\}", t):
            if m[1].split(".")[0] != "Rattle" or m[1].split(".")[1] in ("std", "core", "io", "libc", "os"):
                foreign |= set(re.split(r"[\s,]+", m[2]))
        if p.endswith(".rt") or p.endswith(GENERATED):
            continue
        inside = None
        for line in t.splitlines():
            head = re.match(r"( *)(?:pub )?(?:record|data) ([^\s:({]+)[^=]*(?:: Type|where|$)", line)
            if head:
                inside = len(head[1])
                words.add(head[2].lower())
                continue
            if line.strip() and inside is not None and len(line) - len(line.lstrip()) <= inside:
                inside = None
            m = re.match(r"( *)(abbrev |unfoldable )?(?:pub )?([^\s:(){}.,;=]+) : ", line)
            if not m or m[3].startswith("--"):
                continue
            member = inside is not None and len(m[1]) > inside
            plain = "/specs/" in p or member or bool(m[2])
            declared[m[3]] = declared.get(m[3], False) or plain
            if m[2] or ("/specs/" in p and not member):
                words.add(snake(m[3]).lower())
    words |= {w.lower() for w in foreign if re.fullmatch(r"[A-Za-z_]+", w)}
    new = {}
    for name, plain in sorted(declared.items()):
        if not name[0].islower() or name in foreign:
            continue
        to = snake(name)
        if plain:
            to = to.replace("-", "_")
        else:
            parts = to.split("-")
            out = parts[0]
            for left, right in zip(parts, parts[1:]):
                out += ("-" if left.lower() in words and right.lower() in words else "_") + right
            to = out
        if to != name:
            new[name] = to

    def spoken(text, old):
        return any(m[0] == old and not text[: m.start()].endswith(".") and not text[m.end() :].startswith(".") for m in TOKEN.finditer(text))

    new |= BY_HAND
    alike = collections.defaultdict(list)
    for a, b in new.items():
        alike[b].append(a)
    for b, olds in sorted(alike.items()):
        olds.sort(key=lambda a: (not declared.get(a), "-" in a))
        for a in olds[1:]:
            new[a] = b + "_lem"
    for a, b in sorted(new.items()):
        both = [p for p, t in texts.items() if p.endswith(".antt") and not p.endswith(GENERATED) and a in t and spoken(t, a) and b in t and spoken(t, b)]
        if both:
            print("look:", a, "and", b, "both stand in", *both)
    print("\n".join(f"{a} -> {b}" for a, b in sorted(new.items()) if b.endswith("_lem")))
    for p in list(texts) + list(files(".edit")):
        t = open(p, encoding="utf-8").read()
        turn = lambda s: TOKEN.sub(lambda m: new.get(m[0], m[0]), s)
        if p.endswith(".rt"):
            hump = lambda s: TOKEN.sub(lambda m: m[0] if "-" in m[0] else new.get(m[0], m[0]), s)
            u = "\n".join(l if '"' in l else turn(l) if re.search(r"ghost|requires|ensures", l) else hump(l) for l in t.split("\n"))
        else:
            u = turn(t)
        if u != t:
            open(p, "w", encoding="utf-8").write(u)
    for d, _, fs in [("." , [], os.listdir("."))] + list(os.walk("docs")):
        for f in fs:
            if f.endswith(".md"):
                p = os.path.join(d, f)
                t = open(p, encoding="utf-8").read()
                u = re.sub(r"`[^`\n]+`", lambda m: TOKEN.sub(lambda k: new.get(k[0], k[0]), m[0]), t)
                if u != t:
                    open(p, "w", encoding="utf-8").write(u)
    print(len(new), "names turned")
    return new


if __name__ == "__main__":
    main()
