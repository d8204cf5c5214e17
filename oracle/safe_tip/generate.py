#!/usr/bin/env python3
"""Makes scripts of console lines for the safe tip.

Usage: generate.py N SEED LINES [--sizes]
Prints a script of LINES lines for a display of N signers (2 to 16). The same arguments give
the same script. With --sizes it also asks for sets of other sizes, of which the published
code dies and which the console refuses.
"""
import random
import sys

TOP = 2**64 - 1
NEAR = 2**62


class Script:
    """The lines so far, and what the generator needs to know to aim the next one."""

    def __init__(self, n, seed, sizes):
        self.random = random.Random(f"safe tip {n} {seed}")
        self.n = n
        self.sizes = sizes
        self.wide = self.random.random() < 0.3
        self.pool = self.random.sample(range(60), 40)
        if self.wide:
            self.pool = [0, TOP] + self.random.sample(range(1, 2**62), 38)
        self.tips = dict.fromkeys(self.random.sample(self.pool, n), 0)

    def height(self, old):
        """A height that is aimed at ties, small steps, jumps and the ends of the range."""
        r = self.random
        kind = r.random()
        if kind < 0.30:
            return min(TOP, old + r.randint(0, 4))
        if kind < 0.50:
            return r.choice(list(self.tips.values()))
        if kind < 0.65:
            return max(0, min(TOP, r.choice(list(self.tips.values())) + r.randint(-2, 2)))
        if kind < 0.75:
            return r.randint(0, max(0, old))
        if kind < 0.90:
            return min(TOP, max(self.tips.values()) + r.randint(0, 40))
        if kind < 0.94:
            return r.randint(0, 2000)
        if kind < 0.95:
            return NEAR + r.randint(-3, 16)
        if kind < 0.955:
            return TOP - r.randint(0, 2)
        return 0

    def set_line(self, keys):
        keys = list(keys)
        self.random.shuffle(keys)
        return "signers " + " ".join(map(str, keys))

    def change(self):
        """Some leave, as many join; now and then all, none, or one of the highest."""
        r = self.random
        keys = list(self.tips)
        kind = r.random()
        if kind < 0.15:
            leavers = []
        elif kind < 0.25:
            leavers = keys
        elif kind < 0.55:
            leavers = sorted(keys, key=lambda k: -self.tips[k])[: r.randint(1, 2)]
        else:
            leavers = r.sample(keys, r.randint(1, max(1, self.n // 2)))
        others = [k for k in self.pool if k not in self.tips]
        joiners = r.sample(others, min(len(leavers), len(others)))
        leavers = leavers[: len(joiners)]
        for key in leavers:
            del self.tips[key]
        for key in joiners:
            self.tips[key] = 0
        return self.set_line(self.tips)

    def tip(self):
        r = self.random
        key = r.choice(self.pool) if r.random() < 0.1 else r.choice(list(self.tips))
        height = self.height(self.tips.get(key, 0))
        if key in self.tips and height > self.tips[key]:
            self.tips[key] = height
        space = r.choice([" ", " ", " ", "\t", "  "])
        return f"tip{space}{key}{space}{height}"

    def line(self):
        r = self.random
        kind = r.random()
        if kind < 0.01:
            return r.choice(["", "# a comment", " \t"])
        if kind < 0.06:
            return self.change()
        if kind < 0.075:
            return self.reset()
        if kind < 0.085 and self.sizes:
            size = r.choice([s for s in range(2, 17) if s != self.n])
            return self.set_line(r.sample(self.pool, size))
        return self.tip()

    def reset(self):
        """A whole new set, so that low heights matter again."""
        others = [k for k in self.pool if k not in self.tips]
        self.tips = dict.fromkeys(self.random.sample(others, self.n), 0)
        return self.set_line(self.tips)


def script(n, seed, lines, sizes=False):
    made = Script(n, seed, sizes)
    first = [f"# safe tip, {n} signers, seed {seed}", made.set_line(made.tips)]
    return first + [made.line() for _ in range(lines - 2)]


def main():
    words = [w for w in sys.argv[1:] if w != "--sizes"]
    if len(words) != 3:
        sys.exit(__doc__)
    n, seed, lines = map(int, words)
    print("\n".join(script(n, seed, lines, "--sizes" in sys.argv)))


if __name__ == "__main__":
    main()
