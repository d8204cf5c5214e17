"""The rules of the aggregation engine, call by call.

Written from the rules alone. A call answers a list of lines: the acts in order, and last its
result with the number of bytes written.
"""
from collections import Counter

import forms
from forms import Ack
from journal import Journal

NAMES = [
    "", "NotRunning", "Running", "Settings", "Clock", "UnknownEpoch", "JournalRecord",
    "JournalHeight", "Crowded", "OutShort", "EpochBack", "SetSize", "Decode", "TooHigh",
    "AckEpochOutsideBounds", "UnknownValidator", "PeerMismatch", "AckCertified", "AckHeight",
    "AckDigest", "AckDuplicate", "InvalidAckSignature", "NotPending", "NoSlip", "Stray", "NotDue",
    "SlipsOut", "JournalFull", "JournalPruned", "AssemblyFailed",
]
HIGH = 2**62
CLOCK_END = 2**62
OUT_MIN = 2048
OUTSIDE_MAX = 128


class Refused(Exception):
    """The call is refused; what was done before stands."""

    def __init__(self, number):
        super().__init__(number)
        self.number = number


class Halted(Refused):
    """The engine halts."""


class Off(Exception):
    """The power went."""


def refuse(number, when=True):
    if when:
        raise Refused(number)


class Engine:
    def __init__(self):
        self.epochs = {}  # Members by epoch
        self.settings = (0,) * 6
        self.journal = Journal()
        self.room = 2**20
        self.armed = None
        self.seen = Counter()  # which ways were gone, for the counts
        self.shut()

    def shut(self):
        self.phase = "shut"
        self.held, self.lodged = set(), set()

    # What a call does, one act after the other.

    def call(self, name, *arguments):
        self.acts, self.written, self.operations = [], 0, 0
        try:
            getattr(self, name)(*arguments)
            result = "ok"
        except Halted as halt:
            self.phase = "halted"
            result = f"halted {halt.number} {NAMES[halt.number]}"
        except Refused as refusal:
            result = f"refused {refusal.number} {NAMES[refusal.number]}"
        except Off:
            self.shut()
            result = "cut"
        self.armed = None
        self.seen[f"{name}: {result}"] += 1
        return self.acts + [f"{result} {self.written}"]

    def operation(self, word, appending=None, pruning=0):
        """A journal operation begins: the power may go at it."""
        self.operations += 1
        if self.armed is None or self.armed[0] != self.operations:
            return
        how = self.armed[1]
        if appending and how != "before":
            self.journal.append(*appending)
        if how == "before":
            self.journal.cut(pruning, lambda pruned: True)
        elif how == "done":
            self.journal.cut(pruning, lambda pruned: not pruned)
        else:
            mask = iter(how)
            self.journal.cut(pruning, lambda pruned: next(mask, "0") == "1")
        self.seen[f"cut at {word}"] += 1
        raise Off

    def append(self, height, activity):
        section, record = height // self.S, forms.write_record(activity)
        self.operation("append", appending=(section, record))
        refusal = self.journal.append(section, record)
        if refusal:
            raise Halted(refusal)
        self.acts.append(f"append {section} {record.hex()}")

    def sync(self, height):
        self.operation("sync")
        self.journal.sync(height // self.S)
        self.acts.append(f"sync {height // self.S}")

    def prune(self, section):
        self.operation("prune", pruning=section)
        self.journal.prune(section)
        self.acts.append(f"prune {section}")

    def output(self, word, kind, payload):
        whole = bytes([kind]) + len(payload).to_bytes(2, "big") + payload
        self.written += len(whole)
        self.acts.append(f"{word} {whole.hex()}")

    def tell(self, activity):
        self.output("tell", 1, forms.write_record(activity))

    def send(self, ack):
        self.output("send", 2, forms.write_message(self.tip, ack))

    def block(self, key):
        self.output("block", 3, key)

    # Questions.

    def own(self):
        """The own signer of the current epoch, or None."""
        return self.epochs[self.epoch].own

    def floor(self, tip=None):
        """The lowest height that is not dropped."""
        return max(0, (self.tip if tip is None else tip) - self.A)

    def bounds(self):
        return max(0, self.epoch - self.lo), min(2**64 - 1, self.epoch + self.hi)

    def safe_tip(self):
        f = (len(self.seats) - 1) // 3
        return sorted(self.seats.values(), reverse=True)[f]

    def next(self):
        return max([self.tip] + [h + 1 for h in self.pending] + [h + 1 for h in self.certified])

    def stored(self, height):
        """The stored acks of a height by epoch and signer."""
        return [self.acks[key] for key in sorted(k for k in self.acks if k[0] == height)]

    def slips_out(self):
        return len(self.held) + len(self.lodged)

    # The rules that the calls share.

    def move(self, tip):
        floor = self.floor(tip)
        for table in (self.pending, self.certified, self.deadlines):
            for height in [h for h in table if h < floor]:
                del table[height]
        self.acks = {key: ack for key, ack in self.acks.items() if key[0] >= floor}
        self.wanted = {h for h in self.wanted if h >= floor}
        self.lodged = {h for h in self.lodged if h >= floor}
        self.append(tip, ("tip", tip))
        self.sync(tip)
        self.tell(("tip", tip))
        self.prune(floor // self.S)
        self.tip = tip

    def store(self, ack):
        """False if the height is not pending."""
        if ack.epoch not in self.epochs:
            self.seen["store: unknown epoch"] += 1
            return False
        if ack.height not in self.pending:
            self.seen["store: not pending"] += 1
            return False
        digest = self.pending[ack.height]
        if digest is not None and digest != ack.digest:
            self.seen["store: other digest"] += 1
            return False
        key = (ack.height, ack.epoch, ack.signer)
        if key in self.acks:
            self.seen["store: already there"] += 1
            return True
        self.acks[key] = ack
        same = [a for a in self.stored(ack.height)
                if a.epoch == ack.epoch and a.digest == ack.digest]
        members = self.epochs[ack.epoch]
        if len(same) >= members.quorum:
            certificate = members.assemble(same)
            if certificate is None:
                raise Halted(29)
            self.certify(ack.height, ack.digest, certificate)
        return True

    def certify(self, height, digest, certificate):
        if height in self.certified:
            self.seen["certify: already"] += 1
            return
        self.certified[height] = (digest, certificate)
        activity = ("certified", height, digest, certificate)
        self.append(height, activity)
        self.sync(height)
        self.tell(activity)
        if height == self.tip:
            tip = height + 1
            while tip in self.certified:
                tip += 1
            self.seen["certify: moves by one" if tip == height + 1 else "certify: moves on"] += 1
            self.move(tip)
        else:
            above = "above" if height > self.tip else "below"
            self.seen[f"certify: {above} the tip"] += 1

    def sign(self, height, digest):
        """The own ack of the current epoch, or None without an own signer."""
        if self.own() is None:
            self.seen["sign: no own signer"] += 1
            return None
        signature = self.epochs[self.epoch].sign(height, digest)
        ack = Ack(height, digest, self.epoch, self.own(), signature)
        self.append(height, ("ack", ack))
        self.sync(height)
        return ack

    def fill(self):
        while self.next() - self.tip < self.W:
            height = self.next()
            self.pending[height] = None
            self.wanted.add(height)
            self.seen["fill"] += 1

    # The calls.

    def open(self, epoch, clock):
        refuse(2, self.phase != "shut")
        W, A, S, lo, hi, timeout = self.settings
        in_range = (1 <= W <= 8 and A <= 8 - W and 1 <= S <= 2**32 and lo + hi <= 2
                    and 1 <= timeout <= 2**32)
        refuse(3, not in_range)
        refuse(4, clock >= CLOCK_END)
        refuse(5, epoch not in self.epochs)
        self.operation("read")
        self.journal.sync_all()
        self.acts.append("read")
        try:
            activities = [forms.read_record(record) for _, record in self.journal.records()]
        except forms.Fault:
            raise Refused(6) from None
        tip = max([a[1] for a in activities if a[0] == "tip"], default=0)
        floor = max(0, tip - A)
        certified = {a[1]: a[2:] for a in activities if a[0] == "certified" and a[1] >= floor}
        acks = [a[1] for a in activities if a[0] == "ack" and a[1].height >= floor
                and a[1].height not in certified]
        heights = {ack.height for ack in acks}
        refuse(7, any(h >= tip + W for h in heights | set(certified)))
        own = self.epochs[epoch].own
        verified = {}
        for ack in acks:
            if ack.epoch == epoch and ack.signer == own:
                verified.setdefault(ack.height, ack.digest)
        table = {}
        for ack in acks:
            if verified.get(ack.height, ack.digest) == ack.digest:
                table[ack.height, ack.epoch, ack.signer] = ack
        low, high = max(0, epoch - lo), min(2**64 - 1, epoch + hi)
        outside = [key for key in table if not low <= key[1] <= high]
        refuse(8, len(outside) > OUTSIDE_MAX)
        refuse(9, sum(3 + len(record) for _, record in self.journal.records()) > self.room)
        for activity in activities:
            self.tell(activity)
        self.phase = "running"
        self.W, self.A, self.S, self.lo, self.hi, self.timeout = self.settings
        self.epoch, self.tip = epoch, tip
        self.seats = dict.fromkeys(self.epochs[epoch].keys, 0)
        self.certified, self.acks = certified, table
        self.pending = {height: verified.get(height) for height in heights}
        self.deadlines = dict.fromkeys(verified, clock)
        self.wanted = heights - set(verified)
        for height in range(tip, self.next()):
            if height not in self.pending and height not in self.certified:
                self.pending[height] = None
                self.wanted.add(height)
                self.seen["open: a hole"] += 1
        self.seen["open: verified heights"] += len(verified)
        self.seen["open: unverified heights with acks"] += len(heights) - len(verified)
        self.fill()

    def change_epoch(self, epoch, clock):
        refuse(1, self.phase != "running")
        refuse(4, clock >= CLOCK_END)
        refuse(10, epoch < self.epoch)
        refuse(5, epoch not in self.epochs)
        refuse(11, self.epochs[epoch].n != len(self.seats))
        self.epoch = epoch
        self.seats = {key: self.seats.get(key, 0) for key in self.epochs[epoch].keys}
        least = self.bounds()[0]
        self.acks = {key: ack for key, ack in self.acks.items() if key[1] >= least}
        if self.own() is not None:
            for height, digest in self.pending.items():
                uncertified = height not in self.certified
                if digest is not None and uncertified and height not in self.deadlines:
                    self.deadlines[height] = clock
                    self.seen["epoch: due now"] += 1
        self.fill()

    def message(self, key, data):
        refuse(1, self.phase != "running")
        refuse(9, self.room < OUT_MIN)
        try:
            tip, ack = forms.read_message(data)
        except forms.Fault:
            self.block(key)
            raise Refused(12) from None
        refuse(13, tip >= HIGH or ack.height >= HIGH)
        if key in self.seats and self.seats[key] < tip:
            self.seats[key] = tip
            safe = self.safe_tip()
            if safe > self.tip:
                self.seen["message: moves to the safe tip"] += 1
                self.move(safe)
        try:
            self.check(key, ack)
            refuse(22, not self.store(ack))
        except Halted:
            raise
        except Refused:
            self.fill()
            raise
        self.fill()

    def check(self, key, ack):
        low, high = self.bounds()
        refuse(14, not low <= ack.epoch <= high)
        refuse(5, ack.epoch not in self.epochs)
        members = self.epochs[ack.epoch]
        position = members.position(key)
        refuse(15, position is None)
        if position != ack.signer:
            self.block(key)
            raise Refused(16)
        refuse(17, ack.height < self.floor())
        refuse(18, ack.height >= self.tip + self.W)
        refuse(17, ack.height in self.certified)
        digest = self.pending.get(ack.height)
        refuse(19, digest is not None and digest != ack.digest)
        refuse(20, (ack.height, ack.epoch, ack.signer) in self.acks)
        if not members.accepts(ack):
            self.block(key)
            raise Refused(21)

    # Slips: the console holds those that were handed out, by height.

    def take(self):
        refuse(1, self.phase != "running")
        refuse(23, not self.wanted)
        height = min(self.wanted)
        self.wanted.remove(height)
        self.held.add(height)
        self.acts.append(f"slip {height}")

    def fetch(self):
        refuse(23, not self.lodged)
        height = min(self.lodged)
        self.lodged.remove(height)
        self.held.add(height)
        self.acts.append(f"slip {height}")

    def hand_back(self, height):
        """The slip leaves the console's hands."""
        refuse(24, self.slips_out() == 0)
        self.held.remove(height)
        refuse(1, self.phase != "running")

    def lodge(self, height):
        self.hand_back(height)
        self.lay_in(height)

    def lay_in(self, height):
        """A lodged slip counts as out until its height is dropped."""
        if height >= self.floor():
            self.lodged.add(height)

    def cancel(self, height):
        self.hand_back(height)

    def digest(self, height, digest, clock):
        self.hand_back(height)
        for number, applies in ((9, self.room < OUT_MIN), (4, clock >= CLOCK_END)):
            if applies:
                self.lay_in(height)
                raise Refused(number)
        if height not in self.pending:
            self.seen["digest: dropped height"] += 1
            self.fill()
            return
        stored = self.stored(height)
        self.acks = {key: ack for key, ack in self.acks.items() if key[0] != height}
        self.pending[height] = digest
        for epoch in sorted({ack.epoch for ack in stored}):
            for ack in stored:
                if ack.epoch == epoch and ack.digest == digest:
                    self.store(ack)
            if height in self.certified:
                self.seen["digest: stops after an epoch"] += 1
                break
        ack = self.sign(height, digest)
        if ack is not None:
            if height in self.pending:
                self.deadlines[height] = clock + self.timeout
            self.store(ack)
            self.send(ack)
        self.fill()

    def due(self, clock):
        refuse(1, self.phase != "running")
        refuse(9, self.room < OUT_MIN)
        refuse(4, clock >= CLOCK_END)
        refuse(25, not self.deadlines)
        deadline, height = min((d, h) for h, d in self.deadlines.items())
        refuse(25, deadline > clock)
        del self.deadlines[height]
        own = self.own()
        if own is None:
            self.seen["due: no own signer"] += 1
        else:
            ack = self.acks.get((height, self.epoch, own))
            if ack is None:
                self.seen["due: signs anew"] += 1
                ack = self.sign(height, self.pending[height])
                self.store(ack)
            else:
                self.seen["due: sends the stored ack"] += 1
            if height in self.pending:
                self.deadlines[height] = clock + self.timeout
            self.send(ack)
        self.fill()

    def close(self):
        refuse(1, self.phase == "shut")
        refuse(26, self.slips_out() > 0)
        self.operation("sync all")
        self.journal.sync_all()
        self.acts.append("sync all")
        self.shut()
