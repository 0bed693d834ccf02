#!/usr/bin/env python3
"""texts.py TEXTS SEED KEPT PROGRAM..: random texts through the program `report`, each compared with report.py.

A text goes in by its file's name, through a pipe, or in pieces: a socket hands over one packet at each read. Prints how
many texts agreed, or the first difference; its text is then in the file KEPT. PROGRAM is a command; it may begin with an
emulator.
"""
import random
import socket
import subprocess
import sys

from report import LARGEST, report

ODD = [b" ", b"\n", b"\r", b"\t", b"\0", b"+", b"-", b".", b"x", b"\xef\xbb\xbf", b"\xff", b"0", b"9", b"4294967296"]


class Texts:
    def __init__(self, seed):
        self.random = random.Random(seed)
        self.keys = self.damage = 0

    def digits(self, n):
        zeros = self.random.choices((0, 1, 9, 70000), (900, 50, 50, 1))[0]
        return b"0" * zeros + str(n).encode()

    def line(self):
        r = self.random
        name = r.choices((0, 1, 2, 10, LARGEST, LARGEST + 1), (50, 50, 2, 1, 1, 1))[0]
        key = r.randrange(self.keys) if r.random() < 0.97 else r.choice((LARGEST, LARGEST + 1, LARGEST * 10, 2 ** 64 + r.randrange(9)))
        line = self.digits(name) + b" " + self.digits(key)
        while r.random() < self.damage:
            at, cut = r.randrange(len(line) + 1), r.choice((0, 0, 1, 2))
            line = line[:at] + r.choice((b"", r.choice(ODD), r.randbytes(1))) + line[at + cut :]
        return line

    def text(self):
        """Any number of lines up to more than there is room for; a last newline or none."""
        r = self.random
        self.keys = r.choice((1, 4, 100, 10 ** 6, LARGEST + 1))
        self.damage = r.choice((0, 0, 0.02, 0.2, 0.6))
        count = r.choice((r.randrange(4), r.randrange(12), r.randrange(12), r.randrange(100), r.randrange(380, 420), r.randrange(1000)))
        return b"\n".join(self.line() for _ in range(count)) + r.choice((b"", b"\n"))

    def pieces(self, text):
        longest = self.random.choice((1, 2, 5, 50, 5000, 65536))
        at = 0
        while at < len(text):
            end = at + self.random.randint(1, longest)
            yield text[at:end]
            at = end


def run(program, **given):
    done = subprocess.run(program, capture_output=True, check=False, **given)
    return done.returncode, done.stdout, done.stderr


def run_pieces(program, pieces):
    ours, theirs = socket.socketpair(socket.AF_UNIX, socket.SOCK_SEQPACKET)
    with subprocess.Popen(program, stdin=theirs, stdout=subprocess.PIPE, stderr=subprocess.PIPE) as child:
        theirs.close()
        try:
            for piece in pieces:
                ours.send(piece)
        except BrokenPipeError:
            pass  # the program has ended: what it said is compared
        ours.close()
        out, err = child.communicate()
    return child.returncode, out, err


def main():
    count, seed, kept, *program = sys.argv[1:]
    texts, lines = Texts(int(seed)), 0
    for i in range(int(count)):
        text = texts.text()
        way = texts.random.choice(("by name", "through a pipe", "in pieces"))
        if way == "by name":
            with open(kept, "wb") as f:
                f.write(text)
            given = run([*program, kept], stdin=subprocess.DEVNULL)
        elif way == "through a pipe":
            given = run(program, input=text)
        else:
            given = run_pieces(program, texts.pieces(text))
        wanted = report(text)
        if given != (0, wanted.encode(), b""):
            with open(kept, "wb") as f:
                f.write(text)
            status, out, err = given
            print(f"text {i + 1}, {way}, kept as {kept}:\npaper\n{wanted}program, status {status}\n{(out + err).decode(errors='replace')}", end="")
            return 1
        lines += text.count(b"\n")
    print(f"{count} texts agree with the request on paper, {lines} lines")
    return 0


if __name__ == "__main__":
    sys.exit(main())
