#!/usr/bin/env python3
"""shrink.py SCRIPT PROGRAM..: makes a script on which PROGRAM and paper.py differ as short as it goes, by leaving out lines
while they still differ, and prints it. PROGRAM is a command; it may begin with an emulator."""
import subprocess
import sys

from paper import Paper


def differ(program, lines):
    paper = Paper()
    wanted = [answer for answer in map(paper.line, lines) if answer is not None]
    text = "".join(line + "\n" for line in lines)
    given = subprocess.run(program, input=text, capture_output=True, text=True, check=False).stdout
    return given != "".join(answer + "\n" for answer in wanted)


def main():
    with open(sys.argv[1], encoding="ascii") as f:
        lines = f.read().split("\n")[:-1]
    program = sys.argv[2:]
    if not differ(program, lines):
        sys.exit("the answers agree")
    size = len(lines) // 2
    while size:
        at = 0
        while at < len(lines):
            shorter = lines[:at] + lines[at + size :]
            if differ(program, shorter):
                lines = shorter
            else:
                at += size
        size //= 2
    print("\n".join(lines))


if __name__ == "__main__":
    main()
