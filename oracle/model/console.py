#!/usr/bin/env python3
"""The engine's event language over the model of the rules.

Reads a script from standard input and prints the answers that the rules give. The judge for
every program that reads the same language.
"""
import sys
from collections import Counter

import forms
from forms import Ack, uint
from journal import Journal
from provider import Members, faults, trial_tag
from rules import NAMES, Engine


class Bad(Exception):
    """No such line."""


def short(data):
    """Hex without the zero bytes at the end; `-` for nothing."""
    return data.rstrip(b"\0").hex() or "-"


def whole(data):
    return data.hex() or "-"


def listed(word, items):
    return " ".join([word, *map(str, items)])


def number(word):
    if not (word.isascii() and word.isdigit()) or int(word) >= 2**64:
        raise Bad
    return int(word)


def hexed(word):
    try:
        return b"" if word == "-" else bytes.fromhex(word)
    except ValueError:
        raise Bad from None


def fixed(size, word):
    data = hexed(word)
    if len(data) > size:
        raise Bad
    return data + bytes(size - len(data))


def counts(tips):
    return [f"{tip}*{count}" for tip, count in sorted(Counter(tips).items())]


class Console:
    """One engine, its journal, and the answers to its lines."""

    def __init__(self, engine=Engine):
        self.make = engine
        self.begin()

    def begin(self):
        self.engine = self.make()
        self.listed = True

    def line(self, text):
        """The answer's lines, or None for an empty line or a comment."""
        words = text.split()
        if not words or text.startswith("#"):
            return None
        word, rest = words[0], words[1:]
        try:
            answer = getattr(self, "do_" + word, None)
            if answer is None:
                raise Bad
            return answer(*rest)
        except (Bad, TypeError, IndexError):
            raise Bad(text) from None

    # Lines that set the scene.

    def do_new(self):
        self.begin()
        return ["ok 0"]

    def do_provider(self, kind):
        if kind not in ("listed", "pooled"):
            raise Bad
        self.listed = kind == "listed"
        return ["ok 0"]

    def do_participants(self, epoch, own, *keys):
        keys = [fixed(32, key) for key in keys]
        own = None if own == "-" else number(own)
        n = len(keys)
        if not 2 <= n <= 16 or len(set(keys)) < n or (own is not None and own >= n):
            raise Bad
        self.engine.epochs[number(epoch)] = Members(self.listed, keys, own)
        return ["ok 0"]

    def do_journal(self, kind, size="0"):
        if kind not in ("plain", "byte", "slot"):
            raise Bad
        self.engine.journal = Journal(kind, number(size))
        return ["ok 0"]

    def do_settings(self, W, A, S, lo, hi, timeout):
        self.engine.settings = tuple(map(number, (W, A, S, lo, hi, timeout)))
        return ["ok 0"]

    def do_room(self, size):
        self.engine.room = number(size)
        return ["ok 0"]

    def do_arm(self, at, how="before"):
        if how not in ("before", "done") and set(how) - set("01"):
            raise Bad
        self.engine.armed = (number(at), how)
        return ["ok 0"]

    def do_record(self, section, *words, durable=True):
        kind, rest = words[0], words[1:]
        if kind == "ack":
            data = b"\0" + self.ack(*rest).bytes()
        elif kind == "certified":
            height, digest, certificate = rest
            data = b"\1" + uint(number(height)) + fixed(32, digest) + hexed(certificate)
        elif kind == "tip":
            data = b"\2" + uint(number(*rest))
        elif rest:
            raise Bad
        else:
            data = hexed(kind)
        engine = self.engine
        refusal = 2 if engine.phase != "shut" else engine.journal.append(number(section), data)
        if refusal:
            return [f"refused {refusal} {NAMES[refusal]} 0"]
        if durable:
            engine.journal.sync(number(section))
        return ["ok 0"]

    def do_loose(self, section, *words):
        return self.do_record(section, *words, durable=False)

    def ack(self, height, digest, epoch, signer, signature=None):
        height, epoch, signer = number(height), number(epoch), number(signer)
        digest = fixed(32, digest)
        right = trial_tag(signer, height, digest)
        return Ack(height, digest, epoch, signer,
                   right if signature is None else fixed(64, signature))

    # Calls.

    def do_open(self, epoch, clock):
        return self.engine.call("open", number(epoch), number(clock))

    def do_epoch(self, epoch, clock):
        return self.engine.call("change_epoch", number(epoch), number(clock))

    def do_message(self, key, data):
        return self.engine.call("message", fixed(32, key), hexed(data))

    def do_ack(self, key, tip, *ack):
        data = forms.write_message(number(tip), self.ack(*ack))
        return self.engine.call("message", fixed(32, key), data)

    def do_take(self):
        return self.engine.call("take")

    def do_fetch(self):
        return self.engine.call("fetch")

    def back(self, name, height, *rest):
        engine = self.engine
        if number(height) not in engine.held and engine.slips_out():
            return ["refused: no slip for that height 0"]
        return engine.call(name, number(height), *rest)

    def do_digest(self, height, digest, clock):
        return self.back("digest", height, fixed(32, digest), number(clock))

    def do_cancel(self, height):
        return self.back("cancel", height)

    def do_lodge(self, height):
        return self.back("lodge", height)

    def do_due(self, clock):
        return self.engine.call("due", number(clock))

    def do_close(self):
        return self.engine.call("close")

    def do_cut(self, mask=None):
        bits = iter(mask or "")
        keep = (lambda _: True) if mask is None else (lambda _: next(bits, "0") == "1")
        self.engine.journal.cut(0, keep)
        self.engine.shut()
        return ["cut 0"]

    # Questions.

    def do_records(self):
        journal = self.engine.journal
        lines = [f"bound {journal.bound}"]
        for section in journal.sections():
            durable, loose = journal.durable.get(section, []), journal.loose.get(section, [])
            lines += [f"record {section} {whole(record)}" for record in durable]
            lines += [f"loose {section} {whole(record)}" for record in loose]
        return lines + ["ok 0"]

    def do_state(self):
        engine = self.engine
        slips = [listed("out", sorted(engine.held)), listed("lodged", sorted(engine.lodged))]
        if engine.phase == "shut":
            return ["state shut", "ok 0"]
        if engine.phase == "halted":
            return ["state halted", *slips, "ok 0"]
        tips = sorted(engine.seats.values())
        low = len(tips) - faults(len(tips))
        seats = [engine.seats[key] for key in sorted(engine.seats)]
        lines = [
            f"state running epoch {engine.epoch} tip {engine.tip} safe {engine.safe_tip()}",
            listed("seats", seats),
            listed("lo", counts(tips[:low])),
            listed("hi", counts(tips[low:])),
        ]
        for height, digest in sorted(engine.pending.items()):
            how = "unverified" if digest is None else f"verified {short(digest)}"
            lines.append(f"pending {height} {how}")
        for (height, epoch, signer), ack in sorted(engine.acks.items()):
            words = f"{short(ack.digest)} {short(ack.signature)}"
            lines.append(f"ack {height} {epoch} {signer} {words}")
        for height, (digest, certificate) in sorted(engine.certified.items()):
            lines.append(f"certified {height} {short(digest)} {whole(certificate)}")
        for deadline, height in sorted((d, h) for h, d in engine.deadlines.items()):
            lines.append(f"deadline {deadline} {height}")
        return lines + [listed("wanted", sorted(engine.wanted)), *slips, "ok 0"]


def main():
    console = Console()
    for at, text in enumerate(sys.stdin, 1):
        try:
            answer = console.line(text)
        except Bad:
            sys.exit(f"line {at}: no such line: {text.rstrip()}")
        if answer:
            print("\n".join(answer))


if __name__ == "__main__":
    main()
