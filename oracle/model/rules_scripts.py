"""Scripts for the rules alone."""
from collections import Counter

from console import Console
from scripts import Script


class RulesScript(Script):
    """A script that also uses what only the rules have: lodging, little room for output, and
    every refusal. The published engine cannot answer it."""

    def step(self):
        r = self.r
        if r.random() < 0.8:
            if self.engine.room < 4000 and r.random() < 0.5:
                self.say("room 1048576")
            super().step()
            return
        {"shut": self.odd_shut, "halted": self.odd_halted, "running": self.odd}[
            self.engine.phase]()

    def slip(self, word, *rest):
        """Hands back one of the slips held, taking one first where there is none."""
        if not self.engine.held:
            self.call("take")
        if self.engine.held:
            height = self.r.choice(sorted(self.engine.held))
            self.call(" ".join([word, str(height), *rest]))

    def odd(self):
        r, engine = self.r, self.engine
        late = str(2**62 + r.randint(0, 5))
        kind = r.randint(0, 8)
        if kind <= 2:
            self.slip("lodge")
        elif kind == 3:
            self.call("fetch")
        elif kind == 4:
            self.slip("digest", "d0", late)
        elif kind == 5:
            self.call(r.choice([f"due {late}", f"epoch {engine.epoch} {late}", "close"]))
        elif kind == 6:
            self.say(f"room {r.choice([0, 2047, 2048, 2049])}")
            for _ in range(2):
                r.choice([self.ack, self.due, lambda: self.slip("digest", "d0", "7")])()
                if engine.phase != "running":
                    return
        else:
            last = r.choice(["too high", "epoch back", "epoch unknown", "set size", "slips out"])
            line = self.bad_call(last)
            if line and self.engine.phase == "running":
                self.call(line)

    def odd_halted(self):
        r = self.r
        if r.random() < 0.5:
            self.call(r.choice(["fetch", "close"]))
        elif self.engine.held:
            self.slip(r.choice(["lodge", "cancel"]))
        else:
            self.step_halted()

    def odd_shut(self):
        """Openings that are refused."""
        r = self.r
        kind = r.randint(0, 6)
        if kind == 0:
            bad = r.choice([(0, 1), (9, 0), (5, 4), (8, 1)])
            self.say(f"settings {bad[0]} {bad[1]} 1 0 0 5")
        elif kind == 1:
            bad = r.choice(["1 0 0 0 0 5", "1 0 4294967297 0 0 5", "1 0 1 2 1 5", "1 0 1 0 0 0",
                            "1 0 1 0 0 4294967297"])
            self.say(f"settings {bad}")
        elif kind == 2:
            self.call(f"open {self.current} {2**62}")
        elif kind == 3:
            self.say("room " + str(r.choice([0, 4, 5, 103, 300])))
            self.call(f"open {self.current} {self.clock}")
            self.say("room 1048576")
        else:
            self.bad_journal()
        if self.engine.phase == "shut":
            self.call(f"open {self.current} {self.clock}")
        if self.engine.phase == "shut":
            self.settings()
            self.renew()

    def bad_journal(self):
        r = self.r
        if self.current not in self.engine.epochs:
            return
        tip = self.tip()
        bad = r.choice(["-", "03", "02", "028000", "0205ff", "00aa", "02908080808080808040"])
        height = tip + self.W + r.randint(0, 3)
        kind = r.choice([bad, bad, f"ack {height} 01 {self.current} 0", f"certified {height} 01 -"])
        self.say(f"record {self.section(tip)} {kind}")


class Written:
    """A script that is written out."""

    def __init__(self, seed, lines):
        console = Console()
        self.seed, self.n, self.lines = seed, 2, lines
        self.answers = [console.line(line) for line in lines]
        self.calls = sum(line.startswith(("open", "close")) for line in lines)
        self.seen = Counter(console.engine.seen)


def crowded():
    """An opening over 128 acks outside the epoch bounds, and over one more."""
    acks = [f"record {at % 8} ack {at % 8} d0 {9 + at // 128} {at // 8 % 16}" for at in range(129)]
    scene = ["new", "participants 0 0 a1 a2", "journal byte 8", "settings 8 0 1 0 0 5"]
    opened = ["open 0 0", "state", "close"]
    return Written("none, crowded", scene + acks[:128] + opened + acks[128:] + ["open 0 0", "state"])
