#!/usr/bin/env python3
"""Puts errors into the model, one at a time, and counts the scripts that find each.

Usage: mutants.py ORACLE [SCRIPTS]
Each error is an edit of the model's text. The scripts are made with the right model and answered
by the published engine; the wrong model answers them again. An error that no script finds ends it
with a non-zero exit.
"""
import sys
import types
from pathlib import Path

from compare import differs, run_oracle
from scripts import Script

HERE = Path(__file__).parent
MODULES = ("forms", "provider", "journal", "rules", "console")

# Name, module, and one or more times old text and new text.
ERRORS = [
    ("fills before a message's ack is stored", "rules",
     "        try:\n            self.check(key, ack)\n",
     "        self.fill()\n        try:\n            self.check(key, ack)\n"),
    ("forgets the tip of a refused ack", "rules",
     "        if key in self.seats and self.seats[key] < tip:\n",
     "        before = dict(self.seats)\n        if key in self.seats and self.seats[key] < tip:\n",
     "        except Refused:\n            self.fill()\n",
     "        except Refused:\n            self.seats = before\n            self.fill()\n"),
    ("counts acks of two epochs", "rules",
     "                if a.epoch == ack.epoch and a.digest == ack.digest]",
     "                if a.digest == ack.digest]"),
    ("counts acks of two digests", "rules",
     "                if a.epoch == ack.epoch and a.digest == ack.digest]",
     "                if a.epoch == ack.epoch]"),
    ("at opening an earlier ack of a signer stays", "rules",
     "                table[ack.height, ack.epoch, ack.signer] = ack\n",
     "                table.setdefault((ack.height, ack.epoch, ack.signer), ack)\n"),
    ("does not stop after an epoch once certified", "rules",
     "                self.seen[\"digest: stops after an epoch\"] += 1\n                break\n",
     "                self.seen[\"digest: stops after an epoch\"] += 1\n"),
    ("stops at once when certified, inside an epoch", "rules",
     "                if ack.epoch == epoch and ack.digest == digest:\n",
     "                if ack.epoch == epoch and ack.digest == digest and height not in self.certified:\n"),
    ("certifies with one ack more than the quorum", "rules",
     "if len(same) >= members.quorum:", "if len(same) > members.quorum:"),
    ("certifies with one ack fewer than the quorum", "rules",
     "if len(same) >= members.quorum:", "if len(same) >= members.quorum - 1:"),
    ("takes the quorum of the current epoch", "rules",
     "        members = self.epochs[ack.epoch]\n        if len(same)",
     "        members = self.epochs[self.epoch]\n        if len(same)"),
    ("the safe tip is one place too high", "rules",
     "        f = (len(self.seats) - 1) // 3\n", "        f = max(0, (len(self.seats) - 1) // 3 - 1)\n"),
    ("a tip may fall", "rules",
     "self.seats[key] < tip:", "self.seats[key] != tip:"),
    ("moves to a safe tip that is the tip", "rules",
     "            if safe > self.tip:\n", "            if safe >= self.tip and safe:\n"),
    ("a move drops all below the new tip", "rules",
     "        floor = self.floor(tip)\n        for table", "        floor = tip\n        for table"),
    ("a move forgets the certificates it should keep", "rules",
     "        for table in (self.pending, self.certified, self.deadlines):\n",
     "        self.certified = {h: c for h, c in self.certified.items() if h >= tip}\n"
     "        for table in (self.pending, self.certified, self.deadlines):\n"),
    ("prunes below the section of the tip", "rules",
     "        self.prune(floor // self.S)\n", "        self.prune(tip // self.S)\n"),
    ("prunes before it tells", "rules",
     "        self.tell((\"tip\", tip))\n        self.prune(floor // self.S)\n",
     "        self.prune(floor // self.S)\n        self.tell((\"tip\", tip))\n"),
    ("tells a certificate before its sync", "rules",
     "        self.sync(height)\n        self.tell(activity)\n",
     "        self.tell(activity)\n        self.sync(height)\n"),
    ("moves by one over certified heights", "rules",
     "            while tip in self.certified:\n", "            while False:\n"),
    ("moves at a certificate above the tip", "rules",
     "        if height == self.tip:\n            tip = height + 1\n",
     "        if height >= self.tip:\n            tip = height + 1\n"),
    ("an ack replaces the stored one", "rules",
     "        if key in self.acks:\n            self.seen[\"store: already there\"] += 1\n            return True\n",
     ""),
    ("keeps acks below the bounds at an epoch change", "rules",
     "        self.acks = {key: ack for key, ack in self.acks.items() if key[1] >= least}\n", ""),
    ("drops the acks of earlier epochs at an epoch change", "rules",
     "        least = self.bounds()[0]\n", "        least = self.epoch\n"),
    ("makes nothing due at an epoch change", "rules",
     "                if digest is not None and uncertified and height not in self.deadlines:\n",
     "                if False:\n"),
    ("makes certified heights due at an epoch change", "rules",
     "                uncertified = height not in self.certified\n", "                uncertified = True\n"),
    ("stayers lose their tip", "rules",
     "self.seats = {key: self.seats.get(key, 0) for key in self.epochs[epoch].keys}",
     "self.seats = dict.fromkeys(self.epochs[epoch].keys, 0)"),
    ("is due only after its deadline", "rules",
     "        refuse(25, deadline > clock)\n", "        refuse(25, deadline >= clock)\n"),
    ("a rebroadcast sets no new deadline", "rules",
     "                self.seen[\"due: sends the stored ack\"] += 1\n"
     "            if height in self.pending:\n                self.deadlines[height] = clock + self.timeout\n",
     "                self.seen[\"due: sends the stored ack\"] += 1\n"),
    ("a rebroadcast always signs anew", "rules",
     "            ack = self.acks.get((height, self.epoch, own))\n", "            ack = None\n"),
    ("a certified height is not rebroadcast", "rules",
     "        if own is None:\n", "        if own is None or height in self.certified:\n"),
    ("the window has one height more", "rules",
     "        refuse(18, ack.height >= self.tip + self.W)\n",
     "        refuse(18, ack.height > self.tip + self.W)\n"),
    ("the window begins one height later", "rules",
     "        refuse(17, ack.height < self.floor())\n", "        refuse(17, ack.height <= self.floor())\n"),
    ("a duplicate is seen before another digest", "rules",
     "        refuse(19, digest is not None and digest != ack.digest)\n"
     "        refuse(20, (ack.height, ack.epoch, ack.signer) in self.acks)\n",
     "        refuse(20, (ack.height, ack.epoch, ack.signer) in self.acks)\n"
     "        refuse(19, digest is not None and digest != ack.digest)\n"),
    ("a bad signature does not block", "rules",
     "        if not members.accepts(ack):\n            self.block(key)\n",
     "        if not members.accepts(ack):\n"),
    ("epochs above the current are refused", "rules",
     "        return max(0, self.epoch - self.lo), min(2**64 - 1, self.epoch + self.hi)\n",
     "        return max(0, self.epoch - self.lo), self.epoch\n"),
    ("the last own ack gives the digest at opening", "rules",
     "                verified.setdefault(ack.height, ack.digest)\n",
     "                verified[ack.height] = ack.digest\n"),
    ("an own ack of any epoch gives the digest at opening", "rules",
     "            if ack.epoch == epoch and ack.signer == own:\n", "            if ack.signer == own:\n"),
    ("other digests stay at opening", "rules",
     "            if verified.get(ack.height, ack.digest) == ack.digest:\n", "            if True:\n"),
    ("leaves holes at opening", "rules",
     "        for height in range(tip, self.next()):\n", "        for height in range(0):\n"),
    ("acks of certified heights are kept at opening", "rules",
     "                and a[1].height not in certified]\n", "                ]\n"),
    ("the last recorded tip counts at opening", "rules",
     "        tip = max([a[1] for a in activities if a[0] == \"tip\"], default=0)\n",
     "        tip = ([0] + [a[1] for a in activities if a[0] == \"tip\"])[-1]\n"),
    ("the first certificate of a height stays at opening", "rules",
     "{a[1]: a[2:] for a in activities if a[0]", "{a[1]: a[2:] for a in reversed(activities) if a[0]"),
    ("a verified height is not due at opening", "rules",
     "        self.deadlines = dict.fromkeys(verified, clock)\n", "        self.deadlines = {}\n"),
    ("acks of another digest stay when the digest comes", "rules",
     "        self.acks = {key: ack for key, ack in self.acks.items() if key[0] != height}\n",
     "        self.acks = {key: ack for key, ack in self.acks.items() if key[0] != height"
     " or ack.digest != digest}\n"),
    ("sends before it stores the own ack", "rules",
     "            self.store(ack)\n            self.send(ack)\n        self.fill()\n\n    def due",
     "            self.send(ack)\n            self.store(ack)\n        self.fill()\n\n    def due"),
    ("signs no ack for a height that was certified meanwhile", "rules",
     "        ack = self.sign(height, digest)\n",
     "        ack = self.sign(height, digest) if height in self.pending else None\n"),
    ("a new deadline is counted from the old one", "rules",
     "                self.seen[\"due: sends the stored ack\"] += 1\n"
     "            if height in self.pending:\n                self.deadlines[height] = clock + self.timeout\n",
     "                self.seen[\"due: sends the stored ack\"] += 1\n"
     "            if height in self.pending:\n                self.deadlines[height] = deadline + self.timeout\n"),
    ("hands out the highest wanted height", "rules",
     "        height = min(self.wanted)\n", "        height = max(self.wanted)\n"),
    ("a cancelled height is wanted again", "rules",
     "    def cancel(self, height):\n        self.hand_back(height)\n",
     "    def cancel(self, height):\n        self.hand_back(height)\n        self.wanted.add(height)\n"),
    ("a cut keeps the bound", "journal", "        self.loose = {}\n        self.bound = 0\n",
     "        self.loose = {}\n"),
    ("a cut loses durable records of a pruned section only as a whole", "journal",
     "                left[section] = [r for r in self.held(section) if keep(True)]\n",
     "                kept = [keep(True) for r in self.held(section)]\n"
     "                left[section] = self.held(section) if all(kept) else []\n"),
    ("a later loose record outlives an earlier one", "journal",
     "                    whole = keep(False) and whole\n", "                    whole = keep(False)\n"),
    ("the last byte of an area is used", "journal",
     "            return used + 1 <= AREA\n", "            return used <= AREA\n"),
    ("a full journal is told before a pruned section", "journal",
     "        if section < self.bound:\n            return 28\n", ""),
    ("longer spellings of a number are read", "forms",
     "            if least > limit or (byte == 0 and weight > 1):\n", "            if least > limit:\n"),
    ("bytes left over are read over", "forms",
     "    ack = read_ack(reader)\n    reader.end()\n", "    ack = read_ack(reader)\n"),
    ("signer 16 is read", "forms", "SIGNER_MAX = 15\n", "SIGNER_MAX = 255\n"),
    ("the tag turns the height by 16", "provider",
     "    turned = (height << 17 | height >> 47) % 2**64\n",
     "    turned = (height << 16 | height >> 48) % 2**64\n"),
    ("assembles signers outside the set", "provider",
     " or signers[-1] >= self.n:\n", ":\n"),
    ("one fault is borne by three", "provider", "    return (n - 1) // 3\n", "    return n // 3\n"),
]


def edited(text, texts):
    for old, new in zip(texts[::2], texts[1::2]):
        if text.count(old) != 1:
            sys.exit(f"the text to edit stands {text.count(old)} times: {old}")
        text = text.replace(old, new)
    return text


def load(module, texts):
    """The model with an error, as a console class."""
    saved = {name: sys.modules.get(name) for name in MODULES}
    try:
        for name in MODULES:
            text = (HERE / f"{name}.py").read_text()
            if name == module:
                text = edited(text, texts)
            made = types.ModuleType(name)
            sys.modules[name] = made
            exec(compile(text, f"{name}.py", "exec"), made.__dict__)
        return sys.modules["console"].Console
    finally:
        for name, value in saved.items():
            if value is not None:
                sys.modules[name] = value


class Again:
    """A script answered by another model."""

    def __init__(self, console, script):
        self.lines, self.last = script.lines, script.last
        answers = console()
        self.answers = []
        for line in script.lines:
            try:
                self.answers.append(answers.line(line))
            except Exception as error:  # a wrong model may also break
                self.answers.append([f"broke: {error!r}"])
                self.last = None


def main():
    if len(sys.argv) < 2:
        sys.exit(__doc__)
    count = int(sys.argv[2]) if len(sys.argv) > 2 else 600
    scripts = [Script(seed) for seed in range(1, count + 1)]
    calls = sum(script.calls for script in scripts)
    answers, _ = run_oracle(sys.argv[1], scripts)
    start, theirs = 0, []
    for script in scripts:
        theirs.append(answers[start:start + len(script.lines)])
        start += len(script.lines)
    wrong = [s for s, t in zip(scripts, theirs) if differs(s, t) is not None]
    print(f"{count} scripts, {calls} events; the right model differs in {len(wrong)}")
    missed = 0
    for name, module, *texts in ERRORS:
        console = load(module, texts)
        found = sum(differs(Again(console, s), t) is not None for s, t in zip(scripts, theirs))
        missed += not found
        print(f"  found in {found:4} of {count}: {name}", flush=True)
    print(f"{len(ERRORS)} errors, {len(ERRORS) - missed} found")
    sys.exit(bool(missed or wrong))


if __name__ == "__main__":
    main()
