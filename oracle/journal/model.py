#!/usr/bin/env python3
"""The byte journal and the slot journal, store by store, and what a journal means beside them.

Usage: model.py < LINES. Prints what each line is to be answered with. Every operation is held against
the meaning (`Meaning`) as well; where the two part, the program stops with both.
"""
import sys

RECORD_MAX = 1068
AREA = 4096
HEAD = 9
ANOTHER_MARK = "another mark"
LENGTH_PAST = "a length past the record or the area"
SECOND_AREA = "a second area"
AGE_TWICE = "an age twice"


class Off(Exception):
    """The power went."""


class Refused(Exception):
    """A refusal of the rules, by its number and name."""


FULL = "27 JournalFull"
PRUNED = "28 JournalPruned"


class Journal:
    """What both journals share: the bound, the power, and the order of refusals."""

    def __init__(self):
        self.bound = 0
        self.power = None
        self.stores = 0

    def spend(self):
        """One store is about to be made."""
        if self.power == 0:
            self.bound = 0
            raise Off
        if self.power is not None:
            self.power -= 1
        self.stores += 1

    def append(self, section, record):
        if section < self.bound:
            raise Refused(PRUNED)
        if len(record) > RECORD_MAX or not self.has_room(section, len(record)):
            raise Refused(FULL)
        self.add(section, record)

    def prune(self, section):
        self.free_below(section)
        self.bound = max(self.bound, section)

    def cut(self):
        self.bound = 0

    def before_overrun(self):
        """The records in reading order up to the first overrun, and that overrun."""
        overrun = self.overrun()
        sections = self.sections()
        records = [(s, n, r) for s in sorted(sections) for n, r in enumerate(sections[s])]
        if overrun is None:
            return records, None
        return [r for r in records if r[:2] < overrun[:2]], overrun


class ByteJournal(Journal):
    """Areas of 4,096 bytes; each byte is one store."""

    def __init__(self, areas):
        super().__init__()
        self.medium = bytearray(AREA * areas)

    def put(self, at, byte):
        self.spend()
        self.medium[at] = byte

    def starts(self):
        return range(0, len(self.medium), AREA)

    def number(self, at, count):
        return int.from_bytes(self.medium[at : at + count], "big")

    def section_at(self, start):
        return self.number(start + 1, 8)

    def records_at(self, start):
        """The records of an area in use, the place behind them, and the fault that stands there, if any."""
        if self.medium[start] != 1:
            return [], start + HEAD, ANOTHER_MARK
        area = bytes(self.medium[start : start + AREA]) + bytes(3)
        records, at = [], HEAD
        while True:
            mark, length = area[at], area[at + 1] * 256 + area[at + 2]
            if mark == 0:
                return records, start + at, None
            if mark != 1:
                return records, start + at, ANOTHER_MARK
            if length > RECORD_MAX or at + 3 + length > AREA:
                return records, start + at, LENGTH_PAST
            records.append(area[at + 3 : at + 3 + length])
            at += 3 + length

    def in_use(self):
        """The areas in use by section, each by its place, in the order of their places."""
        areas = {}
        for start in self.starts():
            if self.medium[start] != 0:
                areas.setdefault(self.section_at(start), []).append(start)
        return areas

    def sections(self):
        """The records by section: of two areas of one section those of the first that has any."""
        found = {}
        for section, starts in self.in_use().items():
            for start in starts:
                records = self.records_at(start)[0]
                if records:
                    found[section] = records
                    break
        return found

    def overrun(self):
        """The first in reading order: section, number, what."""
        for section, starts in sorted(self.in_use().items()):
            records, _, fault = self.records_at(starts[0])
            if fault:
                return section, len(records), fault
            if len(starts) > 1:
                return section, len(records), SECOND_AREA
        return None

    def has_room(self, section, length):
        starts = self.in_use().get(section, [])
        if not starts:
            return any(self.medium[start] == 0 for start in self.starts())
        if len(starts) > 1:
            return False
        _, end, fault = self.records_at(starts[0])
        return fault is None and end - starts[0] + 3 + length < AREA

    def add(self, section, record):
        starts = self.in_use().get(section, [])
        start = starts[0] if starts else self.begin(section)
        at = self.records_at(start)[1]
        behind = len(record).to_bytes(2, "big") + record + bytes(1)
        for i, byte in enumerate(behind):
            self.put(at + 1 + i, byte)
        self.put(at, 1)

    def begin(self, section):
        """Takes the first free area into use."""
        start = next(start for start in self.starts() if self.medium[start] == 0)
        for i, byte in enumerate(section.to_bytes(8, "big") + bytes(1)):
            self.put(start + 1 + i, byte)
        self.put(start, 1)
        return start

    def free_below(self, section):
        for start in reversed(self.starts()):
            if self.medium[start] != 0 and self.section_at(start) < section:
                self.put(start, 0)

    def cost(self, section, record):
        """How many stores an append takes that is carried out."""
        return len(record) + (4 if section in self.in_use() else 14)

    def damage(self, place, byte):
        old, self.medium[place] = self.medium[place], byte
        return old


class SlotJournal(Journal):
    """A list of slots, each free or with section, age and record; each slot is one store."""

    def __init__(self, count):
        super().__init__()
        self.slots = [None] * count

    def put(self, i, slot):
        self.spend()
        self.slots[i] = slot

    def sections(self):
        found = {}
        for section, _, record in sorted(slot for slot in self.slots if slot):
            found.setdefault(section, []).append(record)
        return found

    def overrun(self):
        seen, numbers = set(), {}
        for section, age, _ in sorted(slot for slot in self.slots if slot):
            if age in seen:
                return section, numbers.get(section, 0), AGE_TWICE
            seen.add(age)
            numbers[section] = numbers.get(section, 0) + 1
        return None

    def next_age(self):
        return 1 + max((slot[1] for slot in self.slots if slot), default=0)

    def has_room(self, section, length):
        return None in self.slots and self.next_age() < 2**64

    def add(self, section, record):
        self.put(self.slots.index(None), (section, self.next_age(), record))

    def free_below(self, section):
        for i, slot in enumerate(self.slots):
            if slot and slot[0] < section:
                self.put(i, None)

    def cost(self, section, record):
        return 1


class Parted(Exception):
    """A journal did what its meaning does not allow."""


def begins(short, long):
    return long[: len(short)] == short


def in_order(some, all_):
    """Whether these are some of all, in order."""
    rest = iter(all_)
    return all(any(record == other for other in rest) for record in some)


class Meaning:
    """The value of a journal: a bound, and per section the durable records and the loose ones.

    It knows nothing of bytes and slots. What a cut leaves is checked against all that it may leave; what
    was left is taken as durable from then on.
    """

    def __init__(self):
        self.bound = 0
        self.durable, self.loose = {}, {}

    def held(self, section):
        return self.durable.get(section, []) + self.loose.get(section, [])

    def names(self, sections):
        return set(self.durable) | set(self.loose) | set(sections)

    def must_hold(self, sections):
        """Exactly these records, and no others."""
        for section in self.names(sections):
            if self.held(section) != sections.get(section, []):
                raise Parted(f"section {section}: {sections.get(section)} is not {self.held(section)}")

    def appended(self, section, record):
        if section < self.bound or len(record) > RECORD_MAX:
            raise Parted("it was to be refused")
        self.loose.setdefault(section, []).append(record)

    def refused(self, why, section, record, room):
        wanted = PRUNED if section < self.bound else FULL
        if why != wanted or (why == FULL and len(record) <= RECORD_MAX and room):
            raise Parted(f"refused {why}")

    def synced(self, section):
        if section in self.loose:
            self.durable.setdefault(section, []).extend(self.loose.pop(section))

    def synced_all(self):
        for section in list(self.loose):
            self.synced(section)

    def pruned(self, below):
        self.bound = max(self.bound, below)
        for kept in (self.durable, self.loose):
            for section in [s for s in kept if s < below]:
                del kept[section]

    def cut(self, left, appending=None, pruning=0):
        """The power went: what is left of each section is one of the things that a cut may leave."""
        if appending:
            self.loose.setdefault(appending[0], []).append(appending[1])
        for section in self.names(left):
            kept = left.get(section, [])
            if section < pruning:
                allowed = in_order(kept, self.held(section))
            else:
                allowed = begins(self.durable.get(section, []), kept) and begins(kept, self.held(section))
            if not allowed:
                raise Parted(f"section {section}: a cut may not leave {kept} of {self.held(section)}")
        self.take(left, 0)

    def take(self, sections, bound):
        """All that is there, durable."""
        self.durable = {s: list(records) for s, records in sections.items()}
        self.loose = {}
        self.bound = bound


def to_hex(data):
    return bytes(data).hex() or "-"


def from_hex(word):
    return b"" if word == "-" else bytes.fromhex(word)


class Console:
    """Lines in, answers out; each operation is held against the meaning."""

    def __init__(self):
        self.journal = None
        self.meaning = None
        self.offs = 0

    def answer(self, line):
        """The lines that are printed."""
        words = line.split()
        if not words or line.startswith("#"):
            return []
        method = getattr(self, "do_" + words[0].replace("-", "_"))
        return method(*words[1:])

    def checked(self):
        """The journal holds what its meaning says, and its bound is the meaning's."""
        self.meaning.must_hold(self.journal.sections())
        if self.journal.bound != self.meaning.bound:
            raise Parted(f"bound {self.journal.bound}, not {self.meaning.bound}")

    def went_off(self):
        self.offs += 1
        if self.journal.power != 0:
            raise Parted("the power went, and some is left")
        self.checked()
        return ["off, the power went"]

    def do_journal(self, kind, count):
        count = int(count)
        self.journal = ByteJournal(count) if kind == "bytes" else SlotJournal(count)
        self.meaning = Meaning()
        unit = {"bytes": "areas", "slots": "slots"}[kind]
        return [f"journal {kind}, {count} {unit}"]

    def do_append(self, section, word):
        journal, section, record = self.journal, int(section), from_hex(word)
        overrun, before = journal.overrun(), journal.power
        room, cost = journal.has_room(section, len(record)), journal.cost(section, record)
        try:
            journal.append(section, record)
        except Refused as why:
            self.meaning.refused(str(why), section, record, room)
            self.unmoved(overrun, before)
            return [f"refused {why}"]
        except Off:
            if before >= cost:
                raise Parted(f"off with {before} stores of {cost}")
            self.meaning.cut(journal.sections(), appending=(section, record))
            self.unmoved(overrun, 0)
            return self.went_off()
        self.meaning.appended(section, record)
        self.unmoved(overrun, None if before is None else before - cost)
        return ["appended"]

    def unmoved(self, overrun, power):
        """The overrun is where it was, this much power is left, and the meaning is kept."""
        if self.journal.overrun() != overrun:
            raise Parted(f"the overrun was {overrun} and is {self.journal.overrun()}")
        if self.journal.power != power:
            raise Parted(f"the power is {self.journal.power}, not {power}")
        self.checked()

    def do_sync(self, section):
        self.meaning.synced(int(section))
        self.checked()
        return ["synced"]

    def do_sync_all(self):
        self.meaning.synced_all()
        self.checked()
        return ["synced all"]

    def do_prune(self, section):
        overrun = self.journal.overrun()
        try:
            self.journal.prune(int(section))
        except Off:
            self.meaning.cut(self.journal.sections(), pruning=int(section))
            return self.went_off()
        self.meaning.pruned(int(section))
        self.checked()
        if overrun is None and self.journal.overrun():
            raise Parted("a prune made an overrun")
        return ["pruned"]

    def do_read(self):
        records, overrun = self.journal.before_overrun()
        self.checked()
        self.meaning.synced_all()
        lines = [f"record {section} {number} {to_hex(record)}" for section, number, record in records]
        if overrun:
            return lines + ["overrun section {} number {}: {}".format(*overrun)]
        return lines + [f"read {len(records)} records"]

    def do_power(self, count):
        self.journal.power = None if count == "on" else int(count)
        return ["power without limit" if count == "on" else f"power for {int(count)} stores"]

    def do_cut(self):
        self.journal.cut()
        self.meaning.cut(self.journal.sections())
        self.checked()
        return ["cut"]

    def do_damage(self, place, byte):
        old = self.journal.damage(int(place), int(byte))
        self.meaning.take(self.journal.sections(), self.journal.bound)
        return [f"damaged, was {old}"]

    def do_bytes(self, start, count):
        start, count = int(start), int(count)
        return [f"bytes {to_hex(self.journal.medium[start : start + count])}"]


def main():
    console = Console()
    for line in sys.stdin:
        for answer in console.answer(line):
            print(answer)


if __name__ == "__main__":
    main()
