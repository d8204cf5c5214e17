"""How a script begins: who signs, the settings, the journal that is found.

The model runs along, so that each line can be aimed at its state.
"""
import random

from console import Console
from forms import uint

HIGH = 2**62
PAIRS = [(w, a) for w in range(1, 9) for a in range(0, 9 - w)]
SPLITS = [(0, 0), (0, 1), (1, 0), (1, 1), (2, 0), (0, 2)]


class Scene:
    """Lines, and the model's answers to them."""

    def __init__(self, seed, hard, states):
        r = self.r = random.Random(f"engine {seed}")
        self.console = Console()
        self.hard = hard  # only what a real journal can do
        self.states = states  # how often the state is asked for
        self.lines, self.answers = [], []
        self.calls = 0
        self.clock = r.choice([0, 0, 5, 1000, 2**61])
        self.scene(seed)

    # Lines.

    def say(self, line):
        self.lines.append(line)
        answer = self.console.line(line)
        self.answers.append(answer)
        return answer

    def call(self, line):
        """A call, now and then with a cut armed, and then the questions."""
        r = self.r
        if r.random() < (0.12 if line.startswith(("digest", "close", "open")) else 0.06):
            kinds = [""] if self.hard else ["", "mask"]
            how = r.choice(kinds + [" done"])
            if how == "mask":
                how = " " + "".join(r.choice("01") for _ in range(r.randint(1, 6)))
            self.say(f"arm {r.choice([1, 1, 2, 2, 3, 3, 4, 5, 5, 6])}{how}")
        answer = self.say(line)
        self.calls += 1
        cut = answer[-1].startswith("cut")
        if r.random() < self.states:
            self.say("state")
        if cut or r.random() < self.states * 0.05:
            self.say("records")
        return answer

    @property
    def engine(self):
        return self.console.engine

    def later(self, most):
        if self.r.random() < 0.02:
            self.clock = max(0, self.clock - self.r.randint(0, 20))  # a clock may go back
        else:
            self.clock += self.r.randint(0, most)
        return self.clock

    # The scene.

    def scene(self, seed):
        r = self.r
        self.n = 2 + seed % 15
        self.W, self.A = PAIRS[(seed * 7 + seed // 180) % 36]
        self.S = r.choice([1, 1, 2, 3, 10, 1000, 2**32])
        self.lo, self.hi = SPLITS[seed // 5 % 6]
        self.timeout = r.choice([1, 10, 1000, 2**32])
        self.say("new")
        self.say("provider " + r.choice(["listed", "pooled"]))
        kind = r.random()
        if kind < 0.2:
            self.say(f"journal byte {r.randint(2, 24)}")
        elif kind < 0.4:
            self.say(f"journal slot {r.randint(4, 120)}")
        elif self.hard:
            self.say(f"journal byte {r.randint(8, 24)}")
        self.epochs(r)
        self.settings()
        base = r.random()
        self.base = 0
        if base < 0.10:
            self.base = HIGH - r.randint(0, 30)
        elif base < 0.2:
            self.base = r.choice([100, 127, 128, 20000, 2**40])
        if self.base:
            self.say(f"record {self.base // self.S} tip {self.base}")
        story = r.random()
        if story < 0.3:
            self.strange()
        elif story < 0.45:
            r.choice([self.story_quorum, self.story_later_own, self.story_loose, self.story_edge])()

    # Beginnings that chance alone would seldom make.

    def tip(self):
        """The highest recorded tip."""
        records = [record for _, record in self.engine.journal.records()]
        return max((tip_of(record) for record in records if record[:1] == b"\2"), default=0)

    def opened(self):
        """Opens, and takes the first slip."""
        self.call(f"open {self.current} {self.later(9)}")
        if self.engine.phase == "running" and self.engine.wanted:
            self.call("take")

    def story_quorum(self):
        """The journal holds others' acks for a quorum, which the digest then certifies."""
        if self.r.random() < 0.5:
            self.A = 0
            self.settings()
        members = self.engine.epochs[self.current]
        tip = self.tip()
        others = [s for s in range(members.n) if s != members.own]
        for signer in others[:self.r.choice([members.quorum, members.quorum - 1])]:
            ack = f"{tip} {self.digest_of(tip)} {self.current} {signer}"
            self.say(f"record {tip // self.S} ack {ack}")
        self.opened()
        if tip in self.engine.held:
            self.call(f"digest {tip} {self.digest_of(tip)} {self.clock}")

    def story_later_own(self):
        """The journal holds a badly signed own ack of an epoch that comes later."""
        tip = self.tip()
        later = [e for e in self.known if e > self.current][:1]
        size = self.engine.epochs[self.current].n
        for epoch in later:
            members = self.engine.epochs[epoch]
            if members.own is None or members.n != size:
                continue
            ack = f"{tip} {self.digest_of(tip)} {epoch} {members.own} 77"
            self.say(f"record {tip // self.S} ack {ack}")
            self.opened()
            if self.engine.phase != "running":
                continue
            self.current = epoch
            self.call(f"epoch {epoch} {self.clock}")
            if tip in self.engine.held:
                self.call(f"digest {tip} {self.digest_of(tip)} {self.clock}")

    def story_loose(self):
        """Loose records, and a cut that keeps some of them."""
        if self.hard:
            return
        for _ in range(self.r.randint(1, 3)):
            self.strange("loose")
        if self.r.random() < 0.6:
            self.say("cut " + "".join(self.r.choice("01") for _ in range(self.r.randint(1, 9))))
            self.say("records")

    def story_edge(self):
        """A byte journal's area with room for the next own ack, or for all of it but a byte."""
        tip, r = self.tip(), self.r
        self.say("journal byte " + str(r.randint(1, 3)))
        if tip:
            self.say(f"record {tip // self.S} tip {tip}")
        ack = 1 + len(uint(tip)) + 32 + len(uint(self.current)) + 1 + 64
        held = self.engine.journal.held(tip // self.S)
        room = 4096 - 1 - 9 - sum(3 + len(record) for record in held) - (3 + ack) + r.choice([0, 1])
        low = max(0, tip - self.A - 1)
        head = 1 + len(uint(low)) + 32
        while room > 0:
            size = min(room, 1071) if room <= 1071 or room > 1071 + 3 + head else room // 2
            certificate = "5a" * (size - 3 - head) or "-"
            self.say(f"record {tip // self.S} certified {low} 01 {certificate}")
            room -= size
        self.opened()
        if tip in self.engine.held:
            self.call(f"digest {tip} {self.digest_of(tip)} {self.clock}")

    def epochs(self, r):
        pool = list({self.key() for _ in range(self.n * 3)})
        while len(pool) < self.n + 3:
            pool = list({*pool, self.key()})
        pool.sort()
        own = r.choice(pool)
        first = r.choice([0, 0, 0, 1, 5, 300, 2**64 - 3])
        count = r.randint(1, 5)
        late = r.random() < 0.12  # no own signer in the first epoch
        keys = r.sample([k for k in pool if k != own], self.n - 1) + [own]
        self.pool, self.current = pool, first
        self.known = []
        for epoch in range(first, min(first + count, 2**64)):
            if epoch > first and r.random() < 0.08:
                continue  # an unknown epoch
            size = self.n
            if epoch > first and r.random() < 0.12:
                size = r.randint(2, 16)
            if epoch > first and r.random() < 0.7:
                keys = self.changed(keys, own)
            members = sorted(keys)
            if size < len(members):
                members = members[:size]
            while size > len(members):
                members = sorted({*members, self.key()})
            position = members.index(own) if own in members else None
            if r.random() < 0.08 or (late and epoch == first):
                position = None
            shuffled = members[:]
            r.shuffle(shuffled)
            word = "-" if position is None else position
            self.say(f"participants {epoch} {word} {' '.join(k.hex() for k in shuffled)}")
            self.known.append(epoch)
        self.other = first + 20
        if r.random() < 0.5 and self.other < 2**64:
            size = r.choice([s for s in range(2, 17) if s != self.n])
            keys = " ".join(f"{at:02x}" for at in range(1, size + 1))
            self.say(f"participants {self.other} - {keys}")

    def key(self):
        r = self.r
        kind = r.random()
        if kind < 0.9:
            return bytes([r.randint(1, 255)])
        return bytes(30) + bytes([r.randint(0, 1), r.randint(1, 255)])

    def changed(self, keys, own):
        """Another set of equal size; mostly the own key stays."""
        r = self.r
        keep = r.sample(keys, r.randint(0, len(keys)))
        if r.random() < 0.85 and own not in keep:
            keep = keep[1:] + [own]
        others = [k for k in self.pool if k not in keep]
        return keep + r.sample(others, len(keys) - len(keep))

    def settings(self):
        self.say(f"settings {self.W} {self.A} {self.S} {self.lo} {self.hi} {self.timeout}")

    def digest_of(self, height, other=False):
        """The digest that all agree on, or another."""
        if other:
            return f"{height % 251 + 1:02x}ee" if self.r.random() < 0.8 else "-"
        if height % 5 == 0:
            return f"{height % 251 + 1:02x}{'00' * 22}{height % 256:02x}" + "17" * 7
        return f"{height % 251 + 1:02x}"

    def section(self, height):
        return height // self.S if self.r.random() < 0.9 else self.r.randint(0, 5)

    def strange(self, word=None):
        """Records that no run, or another engine's run, left behind; all within the window."""
        r = self.r
        tip = self.tip()
        if r.random() < 0.3 and tip < HIGH - 40:
            tip += r.randint(0, 9)
            self.say(f"record {self.section(tip)} tip {tip}")
        word = word or ("record" if self.hard or r.random() < 0.8 else "loose")
        epoch = self.current
        members = self.engine.epochs.get(epoch)
        busy = r.randint(max(0, tip - self.A), tip + self.W - 1)
        for _ in range(r.randint(1, 14)):
            height = r.randint(max(0, tip - self.A - 2), tip + self.W - 1)
            if r.random() < 0.5:
                height = busy
            if height > HIGH + 15:
                continue
            kind = r.random()
            if kind < 0.15:
                certificate = r.choice(["-", "0007aa", "ff" * r.randint(1, 40)])
                digest = self.digest_of(height)
                self.say(f"{word} {self.section(height)} certified {height} {digest} {certificate}")
                continue
            signer = r.randint(0, 15) if r.random() < 0.15 else r.randint(0, self.n - 1)
            if members and members.own is not None and r.random() < 0.4:
                signer = members.own
            at = epoch if r.random() < 0.7 else r.choice(self.known + [epoch + 9, 0])
            digest = self.digest_of(height, r.random() < 0.25)
            bad = " 77" if r.random() < 0.1 else ""
            at = min(at, 2**64 - 1)
            self.say(f"{word} {self.section(height)} ack {height} {digest} {at} {signer}{bad}")


def tip_of(record):
    value = 0
    for at, byte in enumerate(record[1:]):
        value += byte % 128 << 7 * at
    return value
