"""Makes random scripts: one step after the other, aimed at the state of the model.

The same number makes the same script.
"""
from forms import Ack, Fault, read_message, uint, write_message
from provider import trial_tag
from scene import HIGH, PAIRS, SPLITS, Scene
from console import Console

# Where the published code and the rules part by design: the last line of a script.
LAST = ("too high", "epoch back", "epoch unknown", "set size", "slips out", "open unknown",
        "open record", "open height", "crowded")


class Script(Scene):
    """A script of so many calls, and what its last line shows (or None)."""

    def __init__(self, seed, length=60, hard=False, states=1.0, last=None):
        self.last = None
        self.campaign = None
        super().__init__(seed, hard, states)
        while self.calls < length:
            self.step()
        if last is None and self.r.random() < 0.3:
            last = self.r.choice(LAST)
        if last:
            self.finish(last)
        self.seen = self.engine.seen

    # One step.

    def step(self):
        phase = self.engine.phase
        if phase == "shut":
            self.step_shut()
        elif phase == "halted":
            self.step_halted()
        else:
            self.step_running()

    def step_shut(self):
        r = self.r
        if r.random() < 0.05:
            self.call(r.choice(["take", "due 5", "close", f"epoch {self.current} 5",
                                "cancel 0", "message 01 00"]))
            return
        if r.random() < 0.15:
            self.strange()
        if r.random() < 0.15:
            self.resettle()
        if r.random() < 0.25:
            self.current = r.choice(self.known)
        if self.current not in self.engine.epochs or self.over_window():
            self.renew()
        self.call(f"open {self.current} {self.later(50)}")

    def resettle(self):
        """Other settings for the next opening."""
        r = self.r
        self.S = r.choice([1, 2, 10, 2**32, 2**32])
        if r.random() < 0.5:
            self.W, self.A = r.choice(PAIRS)
        self.lo, self.hi = r.choice(SPLITS)
        self.settings()

    def over_window(self):
        """Would an opening now be refused where the published code goes on?"""
        trial = Console()
        engine = self.engine
        trial.engine.epochs, trial.engine.settings = engine.epochs, engine.settings
        trial.engine.journal.durable = dict(enumerate([[r] for _, r in engine.journal.records()]))
        answer = trial.line(f"open {self.current} 0")
        return answer[-1].startswith(("refused 5", "refused 6", "refused 7", "refused 8"))

    def renew(self):
        """An empty journal, where the one at hand can not be opened alike by both."""
        self.current = self.r.choice(self.known)
        journal = self.engine.journal
        self.say(f"journal {journal.kind} {journal.size}" if journal.size else "journal plain")

    def step_halted(self):
        r = self.r
        held = sorted(self.engine.held)
        if held and r.random() < 0.8:
            height = r.choice(held)
            self.call(r.choice([f"cancel {height}", f"digest {height} 01 5"]))
        elif r.random() < 0.3:
            self.call(r.choice(["take", "due 5", f"open {self.current} 5", "message 01 00",
                                f"epoch {self.current} 5"]))
        elif not held and r.random() < 0.7:
            self.call("close")
        else:
            self.call("cut")

    def step_running(self):
        r, engine = self.r, self.engine
        kind = r.random()
        if kind < 0.16:
            self.slips()
        elif kind < 0.78:
            self.ack()
        elif kind < 0.88:
            self.due()
        elif kind < 0.93:
            self.epoch()
        elif kind < 0.955:
            if engine.held and r.random() < 0.5:
                self.hand_back(r.choice(sorted(engine.held)))
            elif not engine.held:
                self.call("close")
        elif kind < 0.965:
            self.call(f"open {self.current} 5")
        elif kind < 0.98:
            self.call("cut")
        else:
            self.malformed()

    def slips(self):
        r, engine = self.r, self.engine
        if engine.held and (not engine.wanted or r.random() < 0.6):
            self.hand_back(r.choice(sorted(engine.held)))
        elif engine.slips_out() == 0 and r.random() < 0.03:
            self.call("cancel 3")
        else:
            self.call("take")

    def hand_back(self, height):
        r = self.r
        if r.random() < 0.08:
            self.call(f"cancel {height}")
            return
        digest = self.digest_of(height, r.random() < 0.1)
        self.call(f"digest {height} {digest} {self.later(20)}")

    def due(self):
        r, engine = self.r, self.engine
        deadline = min(engine.deadlines.values(), default=self.clock)
        kind = r.random()
        if kind < 0.1 and deadline:
            self.clock = deadline - 1
        elif deadline < self.clock + 2 * self.timeout:
            self.clock = max(self.clock, deadline)
        self.call(f"due {self.clock}")

    def epoch(self):
        r, engine = self.r, self.engine
        size = len(engine.seats)
        later = [e for e in self.known if e >= engine.epoch and engine.epochs[e].n == size]
        self.current = later[1] if len(later) > 1 and r.random() < 0.6 else r.choice(later)
        self.call(f"epoch {self.current} {self.later(30)}")

    # Messages.

    def tip_for(self, key):
        """A told tip: nothing new, a step, or part of a jump that several tell."""
        r, engine = self.r, self.engine
        if self.campaign is not None and self.campaign <= engine.tip:
            self.campaign = None
        if self.campaign is None and r.random() < 0.03:
            self.campaign = engine.tip + r.choice([1, 1, 2, 3, 5, 9, 30])
        top = HIGH - 1
        if self.campaign is not None and r.random() < 0.6:
            return min(top, self.campaign + r.choice([0, 0, 0, 1, 2]))
        kind = r.random()
        if kind < 0.5:
            return min(top, engine.seats.get(key, 0))
        if kind < 0.8:
            return min(top, engine.tip)
        if kind < 0.9:
            return min(top, max(0, engine.tip + r.randint(-3, 1)))
        if kind < 0.93:
            return min(top, engine.tip + r.randint(1, 12))
        return 0

    def lacking(self, height, epoch):
        """Signers without an ack here."""
        members = self.engine.epochs[epoch]
        return [s for s in range(members.n) if (height, epoch, s) not in self.engine.acks]

    def ack(self):
        """Mostly a good ack that is still lacking; else one that is wrong in one way."""
        r, engine = self.r, self.engine
        low, high = engine.bounds()
        epochs = [e for e in self.known if low <= e <= high]
        epoch = engine.epoch if r.random() < 0.75 else r.choice(epochs)
        members = engine.epochs[epoch]
        open_heights = [h for h in engine.pending if h not in engine.certified]
        height = engine.tip
        if open_heights:
            height = min(open_heights) if r.random() < 0.6 else r.choice(open_heights)
        lacking = self.lacking(height, epoch)
        signer = r.choice(lacking or range(members.n))
        key = members.keys[signer]
        digest = self.digest_of(height, r.random() < 0.07)
        tip = self.tip_for(key)
        signature = ""
        wrong = r.random()
        if wrong < 0.03:  # sender of another seat
            key = r.choice(members.keys)
        elif wrong < 0.06:  # sender without a seat
            key = fixed_key(r.choice(self.pool + [b"\xfe\xfe"]))
        elif wrong < 0.09:
            near = self.near_miss(height, digest, signer)
            signature = " " + r.choice(["-", "77", "00" * 7 + "01", near])
        elif wrong < 0.12:  # another epoch
            epoch = r.choice([low - 1, high + 1, low, high, engine.epoch + 1, 0])
            epoch = max(0, min(2**64 - 1, epoch))
        elif wrong < 0.17:  # another height
            height = engine.tip + r.choice([-self.A - 1, -self.A, -1, 0, self.W - 1, self.W, 40])
            digest = self.digest_of(max(0, height))
        elif wrong < 0.20:  # one more time
            stored = list(engine.acks.values())
            if stored:
                ack = r.choice(stored)
                if ack.epoch in engine.epochs and ack.signer < engine.epochs[ack.epoch].n:
                    height, epoch, signer = ack.height, ack.epoch, ack.signer
                    digest = ack.digest.hex() if r.random() < 0.7 else self.digest_of(height)
                    key = engine.epochs[epoch].keys[signer]
        elif wrong < 0.23:  # the ack of a height that the told tip moves to
            tip = min(HIGH - 1, engine.tip + r.randint(1, 4))
            height = tip + r.choice([0, 0, -1, 1])
            digest = self.digest_of(height)
        elif wrong < 0.25:  # a certified height
            height = r.choice(sorted(engine.certified) or [height])
        height = max(0, height)
        if height >= HIGH:
            height = HIGH - 1
        self.call(f"ack {key.hex()} {tip} {height} {digest} {epoch} {signer}{signature}")

    def near_miss(self, height, digest, signer):
        whole = bytes.fromhex("" if digest == "-" else digest).ljust(32, b"\0")
        tag = bytearray(trial_tag(signer, max(0, height), whole))
        tag[self.r.choice([0, 7, 8, 63])] ^= 1
        return tag.hex()

    def malformed(self):
        r, engine = self.r, self.engine
        key = r.choice(engine.epochs[engine.epoch].keys)
        ack = Ack(engine.tip, bytes(32), engine.epoch, 0, bytes(64))
        data = write_message(engine.tip, ack)
        kind = r.randint(0, 6)
        if kind == 0:
            data = data[:r.randint(0, len(data) - 1)]
        elif kind == 1:
            data += bytes(r.randint(1, 3))
        elif kind == 2:
            data = b"\x80\x00" + data[1:]
        elif kind == 3:
            data = b"\xff" * 9 + bytes([r.choice([2, 127, 128, 255])]) + data[1:]
        elif kind == 4:
            data = data[:-65] + bytes([r.randint(16, 255)]) + data[-64:]
        elif kind == 5:
            data = data[:-65] + b"\x8f\x00" + data[-64:]
        else:
            data = bytes(r.randint(0, 255) for _ in range(r.randint(0, 30)))
        try:
            tip, ack = read_message(data)
            if max(tip, ack.height) >= HIGH:
                return
        except Fault:
            pass
        self.call(f"message {key.hex()} {data.hex() or '-'}")

    # Lines at which the two part.

    def finish(self, last):
        r = self.r
        if last in ("open unknown", "open record", "open height", "crowded"):
            if self.engine.phase != "shut":
                self.say("cut")
            self.current = r.choice(self.known)
            line = self.bad_opening(last)
        else:
            if self.engine.phase != "running":
                return
            line = self.bad_call(last)
        if line:
            self.say(line)
            self.last = last

    def bad_opening(self, last):
        r = self.r
        if last == "open unknown":
            self.current = max(self.known) + 1
            if self.current >= 2**64:
                return None
        else:
            self.say("journal plain")
            if last == "open record":
                high = "02" + uint(HIGH + 16 + r.randint(0, 9)).hex()
                self.say("record 0 tip 3")
                self.say("record 1 " + r.choice(["-", "03", "02", "028000", "0205ff", "00aa", high]))
            elif last == "open height":
                height = self.W + r.randint(0, 5)
                kind = r.choice([f"ack {height} 01 {self.current} 0", f"certified {height} 01 -"])
                self.say(f"record 0 {kind}")
            else:
                for at in range(129 + r.randint(0, 3)):
                    height, signer = at % self.W, at // self.W % 16
                    epoch = (self.current + 10 + at // self.W // 16) % 2**64
                    self.say(f"record 0 ack {height} 01 {epoch} {signer}")
        return f"open {self.current} {self.clock}"

    def bad_call(self, last):
        r, engine = self.r, self.engine
        if last == "too high":
            key = r.choice(sorted(engine.seats))
            members = engine.epochs[engine.epoch]
            signer = members.position(key)
            high = HIGH + r.choice([0, 0, 1, 2**63])
            tip, height = r.choice([(high, engine.tip), (engine.tip, high), (high, high)])
            return f"ack {key.hex()} {tip} {height} 01 {engine.epoch} {signer}"
        if last == "epoch back":
            return f"epoch {engine.epoch - 1} {self.clock}" if engine.epoch else None
        if last == "epoch unknown":
            epoch = max(self.known) + 1
            return f"epoch {epoch} {self.clock}" if epoch < 2**64 else None
        if last == "set size":
            sizes = engine.epochs
            other = [e for e in sizes if e >= engine.epoch and sizes[e].n != len(engine.seats)]
            return f"epoch {r.choice(other)} {self.clock}" if other else None
        if not engine.held:
            if not engine.wanted:
                return None
            self.say("take")
        return "close"


def fixed_key(key):
    return key.ljust(32, b"\0")
