#!/usr/bin/env python3
"""Puts errors into the model, one at a time, and counts the recorded cases that find each.

Usage: mutants.py LINES ANSWERS. Each error is an edit of the model's text; the wrong model answers the cases again.
Last it says which errors no case finds; any such ends it with a non-zero
exit.
"""
import pathlib
import sys
import types

SOURCE = (pathlib.Path(__file__).parent / "model.py").read_text()

# Name, old text, new text.
ERRORS = [
    ("the mark stored first",
     "        for i, byte in enumerate(behind):",
     "        self.put(at, 1)\n        for i, byte in enumerate(behind):"),
    ("the next end mark left out", '"big") + record + bytes(1)', '"big") + record'),
    ("the first end mark of a new area left out",
     'section.to_bytes(8, "big") + bytes(1)',
     'section.to_bytes(8, "big")'),
    ("the in-use mark stored first",
     "        for i, byte in enumerate(section",
     "        self.put(start, 1)\n        for i, byte in enumerate(section"),
    ("the next end mark stored before the length",
     "for i, byte in enumerate(behind):",
     "for i, byte in [list(enumerate(behind))[-1], *list(enumerate(behind))[:-1]]:"),
    ("the section written little-endian", 'section.to_bytes(8, "big")', 'section.to_bytes(8, "little")'),
    ("the length written little-endian", 'to_bytes(2, "big")', 'to_bytes(2, "little")'),
    ("the length read little-endian", "area[at + 1] * 256 + area[at + 2]", "area[at + 2] * 256 + area[at + 1]"),
    ("the last byte of an area used", "3 + length < AREA", "3 + length <= AREA"),
    ("the last two bytes of an area left", "3 + length < AREA", "4 + length < AREA"),
    ("a record of 1,069 bytes taken", "if len(record) > RECORD_MAX or not", "if len(record) > RECORD_MAX + 1 or not"),
    ("a record of 1,068 bytes refused", "if len(record) > RECORD_MAX or not", "if len(record) >= RECORD_MAX or not"),
    ("a length of 1,069 read", "if length > RECORD_MAX or", "if length > RECORD_MAX + 1 or"),
    ("a length of 1,068 an overrun", "if length > RECORD_MAX or", "if length >= RECORD_MAX or"),
    ("a record up to the end of its area an overrun", "length > AREA:", "length >= AREA:"),
    ("a record past its area read", "or at + 3 + length > AREA:", "or at + 2 + length > AREA:"),
    ("full told before pruned",
     "        if section < self.bound:\n            raise",
     "        if section < self.bound and self.has_room(section, len(record)):\n            raise"),
    ("a pruned section taken again", "        if section < self.bound:\n            raise Refused(PRUNED)\n", ""),
    ("the bound itself is pruned",
     "if section < self.bound:\n            raise",
     "if section <= self.bound:\n            raise"),
    ("a cut keeps the bound", "    def cut(self):\n        self.bound = 0", "    def cut(self):\n        pass"),
    ("Off keeps the bound",
     "        if self.power == 0:\n            self.bound = 0\n",
     "        if self.power == 0:\n"),
    ("a prune lowers the bound", "self.bound = max(self.bound, section)", "self.bound = section"),
    ("a prune leaves the bound", "        self.bound = max(self.bound, section)\n", ""),
    ("prune frees one area too many", "self.section_at(start) < section", "self.section_at(start) <= section"),
    ("prune frees from the first area", "for start in reversed(self.starts())", "for start in self.starts()"),
    ("prune leaves an area with another mark", "if self.medium[start] != 0 and", "if self.medium[start] == 1 and"),
    ("prune asks for power for nothing",
     "        self.free_below(section)\n",
     "        self.spend()\n        self.free_below(section)\n"),
    ("the last free area is taken", "for start in self.starts() if", "for start in reversed(self.starts()) if"),
    ("an area with another mark counts as free", "if self.medium[start] != 0:", "if self.medium[start] == 1:"),
    ("an area with another mark is read", "if self.medium[start] != 1:", "if self.medium[start] == 0:"),
    ("a record with another mark is read", "            if mark != 1:", "            if mark > 2:"),
    ("a second area is not seen",
     "            if len(starts) > 1:\n                return section",
     "            if False:\n                return section"),
    ("a section with two areas has room", "        if len(starts) > 1:\n            return False\n", ""),
    ("an area with a fault has room", "return fault is None and", "return"),
    ("a second area is told first",
     "            if fault:\n                return section, len(records), fault\n",
     "            if fault and len(starts) < 2:\n                return section, len(records), fault\n"),
    ("the highest section's overrun is told",
     "in sorted(self.in_use().items()):",
     "in sorted(self.in_use().items(), reverse=True):"),
    ("records past an overrun are answered",
     "[r for r in records if r[:2] < overrun[:2]], overrun",
     "records, overrun"),
    ("records numbered from 1", "for n, r in enumerate(sections[s])]", "for n, r in enumerate(sections[s], 1)]"),
    ("sections in the order of their places", "for s in sorted(sections) for", "for s in sections for"),
    ("the age is one above the number of records",
     "1 + max((slot[1] for slot in self.slots if slot), default=0)",
     "1 + sum(1 for slot in self.slots if slot)"),
    ("slots read in the order of their places",
     "in sorted(slot for slot in self.slots if slot):\n            found",
     "in [slot for slot in self.slots if slot]:\n            found"),
    ("slots freed from the last",
     "for i, slot in enumerate(self.slots):",
     "for i, slot in reversed(list(enumerate(self.slots))):"),
    ("prune frees slots of the bound", "if slot and slot[0] < section:", "if slot and slot[0] <= section:"),
    ("the last slot is kept free", "return None in self.slots and", "return self.slots.count(None) > 1 and"),
    ("an Off leaves a store",
     "        if self.power == 0:\n",
     "        if self.power is not None and self.power <= 1:\n"),
]


def model(source):
    """A model that is not held against the meaning."""
    module = types.ModuleType("wrong")
    exec(source, module.__dict__)
    console = module.Console
    console.checked = lambda self: None
    console.unmoved = lambda self, overrun, power: None
    console.went_off = lambda self: ["off, the power went"]
    for name in ["must_hold", "appended", "refused", "cut"]:
        setattr(module.Meaning, name, lambda *args, **named: None)
    return console()


def cases(path):
    """The cases, each with its lines."""
    found = []
    for line in pathlib.Path(path).read_text().splitlines():
        if line.startswith("journal"):
            found.append([])
        if not line.startswith("#"):
            found[-1].append(line)
    return found


def answers(console, lines):
    """What it answers; an error that stops it is an answer, too."""
    try:
        return [answer for line in lines for answer in console.answer(line)]
    except Exception as stopped:
        return [f"stopped: {stopped!r}"]


def parts(path, counts):
    """The recorded answers, a part for each case."""
    lines = iter(pathlib.Path(path).read_text().splitlines())
    return [[next(lines) for _ in range(count)] for count in counts]


def main():
    if len(sys.argv) != 3:
        sys.exit(__doc__)
    played = cases(sys.argv[1])
    right = model(SOURCE)
    mine = [answers(right, lines) for lines in played]
    recorded = parts(sys.argv[2], [len(part) for part in mine])
    print(f"the right model: {sum(a != b for a, b in zip(mine, recorded))} of {len(played):,} cases differ")
    missed = []
    for name, old, new in ERRORS:
        if SOURCE.count(old) != 1:
            sys.exit(f"{name}: its text stands {SOURCE.count(old)} times")
        wrong = model(SOURCE.replace(old, new))
        found = sum(answers(wrong, lines) != part for lines, part in zip(played, recorded))
        print(f"| {name} | {found:,} |")
        if not found:
            missed.append(name)
    print(f"{len(ERRORS)} errors, not found: {', '.join(missed) or 'none'}")
    sys.exit(bool(missed))


if __name__ == "__main__":
    main()
