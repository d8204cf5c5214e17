#!/usr/bin/env python3
"""Compares a program that reads the console's lines with the model, on random scripts.

Usage: compare.py PROGRAM [SCRIPTS]. 4,000 scripts unless told otherwise, the same each time. The first answer that
differs ends it with a non-zero exit. What the program prints after the last answer is passed over.
"""
import random
import subprocess
import sys

from model import AREA, Console

BATCH = 200
SECTIONS = [0, 1, 2, 3, 4, 257, 2**64 - 1]
HEADS = [0, 1, 7, 8, 9, 10, 11, 12, 13, 14]
FAR = [1080, 1081, 2151, 3222, 3223, 4093, 4094, 4095]


def body(draw):
    length = draw.choice([0, 0, 1, 2, 3, draw.randint(0, 20), draw.randint(0, 300), 870, 871, 1067, 1068, 1069])
    return (bytes([draw.choice([0, 1, 2, 255])]) * length).hex() or "-"


def damage(draw, areas):
    place = draw.choice([*HEADS, *FAR, draw.randint(0, 40), draw.randrange(AREA)])
    byte = draw.choice([0, 1, 2, 3, 4, 255, draw.randint(0, 255)])
    return f"damage {draw.randrange(areas) * AREA + place} {byte}"


def line(draw, areas):
    """One line; `areas` is 0 for a journal that is not damaged."""
    kind = draw.random()
    if kind < 0.45:
        return f"append {draw.choice(SECTIONS)} {body(draw)}"
    if kind < 0.50:
        return draw.choice(["sync-all", f"sync {draw.choice(SECTIONS)}"])
    if kind < 0.60:
        return f"prune {draw.randint(0, 5)}"
    if kind < 0.63:
        return "cut"
    if kind < 0.75:
        stores = draw.choice([draw.randint(0, 4), draw.randint(0, 40), draw.randint(0, 1500)])
        return draw.choice(["power on", f"power {stores}"])
    if kind < 0.88 and areas:
        return damage(draw, areas)
    return "read"


def script(seed):
    """A script for each seed: every third has slots, the others have areas, half of them damaged."""
    draw = random.Random(f"journal {seed}")
    count = draw.randint(0, 4)
    if seed % 3 == 0:
        lines = [f"journal slots {count}"]
        return lines + [line(draw, 0) for _ in range(draw.randint(5, 40))] + ["read"]
    lines = [f"journal bytes {count}"]
    lines += [line(draw, count if seed % 2 else 0) for _ in range(draw.randint(5, 40))]
    return lines + ["read"] + [f"bytes {i * AREA} {AREA}" for i in range(count)]


def main():
    if len(sys.argv) not in (2, 3):
        sys.exit(__doc__)
    scripts = int(sys.argv[2]) if len(sys.argv) == 3 else 4000
    compared = 0
    for first in range(0, scripts, BATCH):
        console = Console()
        lines = [text for seed in range(first, min(first + BATCH, scripts)) for text in script(seed)]
        wanted = [answer for text in lines for answer in console.answer(text)]
        run = subprocess.run([sys.argv[1]], input="\n".join(lines) + "\n", capture_output=True, text=True)
        got = run.stdout.splitlines()
        for i, answer in enumerate(wanted):
            if i >= len(got) or got[i] != answer:
                sys.exit(f"scripts from {first}, answer {i + 1}: {got[i : i + 1]} is not {answer}")
        compared += len(lines)
    print(f"{scripts:,} scripts, {compared:,} lines, no difference")


if __name__ == "__main__":
    main()
