#!/usr/bin/env python3
"""Compares a console program with the published safe_tip.rs at scale.

Usage: compare.py CONSOLE ORACLE [LINES] [--sizes]
  CONSOLE  a program that reads console lines from standard input
  ORACLE   the program that build.sh has made
  LINES    how many lines in all (default 240,000): scripts of 2,000 lines for every set
           size from 2 to 16 in turn
Ends with a summary; the first difference ends it with both answers and a non-zero exit.
"""
import subprocess
import sys

from generate import script

LENGTH = 2000


def answers(program, text):
    done = subprocess.run([program], input=text, capture_output=True, text=True)
    if done.returncode:
        sys.exit(f"{program} ended with {done.returncode}: {done.stderr[-500:]}")
    return done.stdout.splitlines()


def first_difference(one, other):
    for number, (a, b) in enumerate(zip(one, other), 1):
        if a != b:
            return number, a, b
    return min(len(one), len(other)) + 1, "(end)", "(end)"


def main():
    words = [w for w in sys.argv[1:] if w != "--sizes"]
    if len(words) not in (2, 3):
        sys.exit(__doc__)
    total = int(words[2]) if len(words) == 3 else 240_000
    lines = scripts = counted = changes = 0
    while lines < total:
        n, seed = 2 + scripts % 15, 1000 + scripts // 15
        made = script(n, seed, LENGTH, "--sizes" in sys.argv)
        text = "\n".join(made) + "\n"
        ours, theirs = answers(words[0], text), answers(words[1], text)
        if ours != theirs:
            number, a, b = first_difference(ours, theirs)
            sys.exit(f"n {n} seed {seed}, answer {number}:\n  console {a}\n  oracle  {b}")
        scripts += 1
        lines += len(made)
        counted += sum(a.startswith("counted") for a in theirs)
        changes += sum(a.startswith("signers") for a in theirs)
    print(f"{scripts} scripts, {lines} lines, {counted} tips counted, {changes} sets: no difference")


if __name__ == "__main__":
    main()
