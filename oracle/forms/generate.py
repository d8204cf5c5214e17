#!/usr/bin/env python3
"""Writes a session for the lines `decode` and `encode` of the console, and what has to be answered.

Worked from the rules of the forms alone, with no look at the program: numbers in groups of seven bits, low group first, the top bit
set while more follow, in the shortest spelling; a record is a kind byte and its body (0 an ack, 1 height, digest and certificate to
the end, 2 a tip); a message is a tip and an ack; an ack is height, digest of 32 bytes, epoch, signer, signature of 64 bytes. Heights
and tips of records go up to 2^62 + 15, signers up to 15, other numbers up to 2^64 - 1, certificates that are written up to 1,026
bytes. A fault names the field and the first byte that is missing, wrong or left over: with that byte the bytes begin no message.

usage: generate.py LINES ANSWERS      writes the two files
"""
import itertools
import sys

TOP = 2**64 - 1
TOP_RECORD = 2**62 + 15
TOP_SIGNER = 15
TOP_CERTIFICATE = 1026

DIGEST = bytes(range(0x20, 0x40))
SIGNATURE = bytes((7 * i + 3) % 256 for i in range(64))


def uint(n):
    """The shortest spelling."""
    out = []
    while n >= 128:
        out.append(n % 128 + 128)
        n //= 128
    return bytes(out + [n])


def begins(prefix, most):
    """Whether some number up to `most` is spelled with these bytes first: by what the bytes leave open."""
    low = sum((b % 128) << (7 * i) for i, b in enumerate(prefix))
    if any(b < 128 for b in prefix[:-1]):
        return False
    if not prefix:
        return True
    if prefix[-1] < 128:
        return low <= most and (len(prefix) == 1 or prefix[-1] > 0)
    # more groups follow, the last of which is at least 1: the least such number has a 1 right behind
    return low + (1 << (7 * len(prefix))) <= most


class Fault(Exception):
    def __init__(self, field, at):
        self.text = f"fault {field} at {at}"


class Reader:
    def __init__(self, data, at=0):
        self.data, self.at = data, at

    def number(self, field, most):
        start = self.at
        while True:
            if self.at == len(self.data):
                raise Fault(field, self.at)
            taken = self.data[start:self.at + 1]
            if not begins(taken, most):
                raise Fault(field, self.at)
            self.at += 1
            if taken[-1] < 128:
                return sum((b % 128) << (7 * i) for i, b in enumerate(taken))

    def part(self, field, n):
        if len(self.data) - self.at < n:
            raise Fault(field, len(self.data))
        self.at += n
        return self.data[self.at - n:self.at], self.at - n

    def end(self):
        if self.at < len(self.data):
            raise Fault("end", self.at)


def hexed(data):
    return data.hex() or "-"


def ack(r, most):
    h = r.number("height", most)
    d, dp = r.part("digest", 32)
    e = r.number("epoch", TOP)
    s = r.number("signer", TOP_SIGNER)
    g, gp = r.part("signature", 64)
    r.end()
    return f"ack height {h} digest {hexed(d)} at {dp} epoch {e} signer {s} signature {hexed(g)} at {gp}"


def decode_record(data):
    try:
        if not data or data[0] > 2:
            raise Fault("kind", 0)
        r = Reader(data, 1)
        if data[0] == 0:
            return ack(r, TOP_RECORD)
        if data[0] == 1:
            h = r.number("height", TOP_RECORD)
            d, dp = r.part("digest", 32)
            return f"certified height {h} digest {hexed(d)} at {dp} certificate {hexed(data[r.at:])} at {r.at}"
        t = r.number("tip", TOP_RECORD)
        r.end()
        return f"tip height {t}"
    except Fault as f:
        return f.text


def decode_message(data):
    try:
        r = Reader(data)
        t = r.number("tip", TOP)
        return f"message tip {t} " + ack(r, TOP)
    except Fault as f:
        return f.text


def ack_bytes(h, e, s, digest=DIGEST, signature=SIGNATURE):
    return uint(h) + digest + uint(e) + uint(s) + signature


LINES = []


def say(line, answer):
    LINES.append((line, answer))


def record(data):
    say(f"decode record {hexed(data)}", decode_record(data))


def message(data):
    say(f"decode message {hexed(data)}", decode_message(data))


# each form, by hand
say("encode tip 0", "0200")
say("encode tip 127", "027f")
say("encode tip 128", "028001")
say("decode record 027f", "tip height 127")
say("decode record 028001", "tip height 128")
say("decode record 028000", "fault tip at 2")
say("decode record -", "fault kind at 0")
say("decode message -", "fault tip at 0")
say(f"decode record 01{'05'}{DIGEST.hex()}", f"certified height 5 digest {DIGEST.hex()} at 2 certificate - at 34")
say(f"decode record 0005{DIGEST.hex()}0203{SIGNATURE.hex()}", f"ack height 5 digest {DIGEST.hex()} at 2 epoch 2 signer 3 signature {SIGNATURE.hex()} at 36")
say(f"decode message 0705{DIGEST.hex()}0203{SIGNATURE.hex()}", f"message tip 7 ack height 5 digest {DIGEST.hex()} at 2 epoch 2 signer 3 signature {SIGNATURE.hex()} at 36")
say("encode tip 4611686018427387919", "028f80808080808080" + "40")
say("decode record 02908080808080808040", "fault tip at 9")

# numbers around the ends of groups, of 2^62 + 15, of 2^63 and of 2^64
EDGES = sorted({n for c in (2**7, 2**14, 2**21, 2**56, 2**62, TOP_RECORD, 2**63) for n in (c - 1, c, c + 1)} | {0, 1, TOP - 1, TOP})
for n in EDGES:
    spelled = uint(n)
    record(b"\x02" + spelled)
    record(b"\x00" + spelled + DIGEST + b"\x02\x03" + SIGNATURE)
    record(b"\x01" + spelled + DIGEST + b"\xab\xcd")
    record(b"\x00\x05" + DIGEST + spelled + b"\x03" + SIGNATURE)
    message(spelled + ack_bytes(5, 2, 3))
    message(b"\x07" + ack_bytes(n, 2, 3))
    message(b"\x07" + ack_bytes(5, n, 3))
    # one group too many, and the last group left out
    record(b"\x02" + spelled[:-1] + bytes([spelled[-1] + 128, 0]))
    record(b"\x02" + spelled[:-1])
# one past 64 bits, and longer
for past in (uint(2**64), uint(2**64 + 1), uint(2**70), b"\xff" * 9 + b"\x02", b"\xff" * 9 + b"\x81\x00", b"\xff" * 12, b"\x80" * 12):
    record(b"\x02" + past)
    message(past + ack_bytes(5, 2, 3))
    message(b"\x07" + past + DIGEST + b"\x02\x03" + SIGNATURE)
    record(b"\x00\x05" + DIGEST + past + b"\x03" + SIGNATURE)

# signers
for s in (0, 1, 14, 15, 16, 17, 127, 128, 255, 2**62):
    record(b"\x00" + ack_bytes(5, 2, s))
    message(b"\x07" + ack_bytes(5, 2, s))
for spelled in (b"\x80\x00", b"\x8f\x00", b"\x80\x01", b"\x8f\x01", b"\x8f", b"\x90"):
    record(b"\x00\x05" + DIGEST + b"\x02" + spelled + SIGNATURE)

# every kind byte
for k in range(256):
    record(bytes([k]))
    record(bytes([k, 5]))

# each field cut at every byte, and one byte too many
whole = [
    (record, b"\x02" + uint(TOP_RECORD)),
    (record, b"\x00" + ack_bytes(300, 70000, 9)),
    (record, b"\x01" + uint(300) + DIGEST + SIGNATURE),
    (message, uint(2**40) + ack_bytes(300, 70000, 9)),
]
for read, data in whole:
    for n in range(len(data) + 1):
        read(data[:n])
    read(data + b"\x00")
    read(data + b"\xff\xff")

# the longest of each
record(b"\x01" + uint(TOP_RECORD) + DIGEST + bytes(1026))
record(b"\x01" + uint(TOP_RECORD) + DIGEST + bytes(1027))
record(b"\x00" + ack_bytes(TOP_RECORD, TOP, 15))
message(uint(TOP) + ack_bytes(TOP, TOP, 15))

# writing
for t in EDGES:
    if t <= TOP_RECORD:
        say(f"encode tip {t}", hexed(b"\x02" + uint(t)))
for h, e, s in itertools.product((0, 127, 128, TOP_RECORD), (0, 128, TOP), (0, 15)):
    fields = f"{h} {DIGEST.hex()} {e} {s} {SIGNATURE.hex()}"
    say(f"encode ack {fields}", hexed(b"\x00" + ack_bytes(h, e, s)))
    say(f"encode message {h} {fields}", hexed(uint(h) + ack_bytes(h, e, s)))
say(f"encode message {TOP} {TOP} {DIGEST.hex()} {TOP} 15 {SIGNATURE.hex()}", hexed(uint(TOP) + ack_bytes(TOP, TOP, 15)))
for h, c in itertools.product((0, 128, TOP_RECORD), (b"", b"\x00", SIGNATURE, bytes(range(256)) * 4 + b"\x01\x02")):
    say(f"encode certified {h} {DIGEST.hex()} {hexed(c)}", hexed(b"\x01" + uint(h) + DIGEST + c))

# digits of hex in either case, words between any spaces and tabs
say("decode record 027F", "tip height 127")
say(f"encode ack 5 {DIGEST.hex().upper()} 2 3 {SIGNATURE.hex()}", hexed(b"\x00" + ack_bytes(5, 2, 3)))
say("  decode\trecord   027f\t", "tip height 127")
say("encode tip 000127", "027f")

# refused: words are looked at from the left to the right
REFUSED = 0


def refuse(line, why):
    global REFUSED
    REFUSED += 1
    say(line, "refused: " + why)


def at(place, why):
    return f"word {place} after the command {why}"


def number(line, place, most):
    refuse(line, at(place, f"is no number from 0 to {most}"))


def no_hex(line, place):
    refuse(line, at(place, "is no hex: two digits a byte, or - for no bytes"))


def length(line, place, given, wanted):
    refuse(line, at(place, f"has {given} bytes, not {wanted}"))


ACK = ["5", DIGEST.hex(), "2", "3", SIGNATURE.hex()]
FORMS = {
    "tip": ["5"],
    "ack": ACK,
    "certified": ["5", DIGEST.hex(), "abcd"],
    "message": ["7"] + ACK,
}
NO_FORM = {"decode": "neither record nor message", "encode": "none of tip, ack, certified and message"}

# too few words and one too many
for name in ("decode", "encode"):
    refuse(name, at(1, "is missing"))
    for form in ("item", "Tip", "records", "certificate", "-"):
        refuse(f"{name} {form}", at(1, "is " + NO_FORM[name]))
        refuse(f"{name} {form} 02 00", at(1, "is " + NO_FORM[name]))
for form in ("record", "message"):
    refuse(f"encode {form[:3]} 5", at(1, "is " + NO_FORM["encode"]))
    refuse(f"decode {form}", at(2, "is missing"))
    refuse(f"decode {form} 02 00", at(3, "is one too many"))
    refuse(f"decode {form} 02 0x", at(3, "is one too many"))
    for wrong in ("0", "zz", "0x00", "--", "0-", "0g", "g0", "020"):
        no_hex(f"decode {form} {wrong}", 2)
        no_hex(f"decode {form} {wrong} 00", 2)
for form, words in FORMS.items():
    for n in range(len(words)):
        refuse(" ".join(["encode", form] + words[:n]), at(n + 2, "is missing"))
    refuse(" ".join(["encode", form] + words + ["7"]), at(len(words) + 2, "is one too many"))
    refuse(" ".join(["encode", form] + words + ["x", "7"]), at(len(words) + 2, "is one too many"))


def with_word(form, i, word):
    words = list(FORMS[form])
    words[i] = word
    return " ".join(["encode", form] + words)


# each word that is a number: not one, and one past the largest
NUMBERS = [
    ("tip", 0, TOP_RECORD), ("ack", 0, TOP_RECORD), ("ack", 2, TOP), ("ack", 3, TOP_SIGNER), ("certified", 0, TOP_RECORD),
    ("message", 0, TOP), ("message", 1, TOP), ("message", 3, TOP), ("message", 4, TOP_SIGNER),
]
for form, i, most in NUMBERS:
    for wrong in ("x", "-1", "+1", "-", "1.0", "0x1", str(most + 1), str(2**64), str(2**64 + 1), str(10**30)):
        number(with_word(form, i, wrong), i + 2, most)
for n in EDGES:
    if n > TOP_RECORD:
        number(f"encode tip {n}", 2, TOP_RECORD)

# each word that is bytes: no hex, and another number of them
BYTES = [("ack", 1, 32), ("ack", 4, 64), ("certified", 1, 32), ("message", 2, 32), ("message", 5, 64)]
for form, i, size in BYTES:
    full = FORMS[form][i]
    for wrong in (full[:-1], full + "0", "g" + full[1:], full[:-1] + "x", "x", "--"):
        no_hex(with_word(form, i, wrong), i + 2)
    for wrong in ("-", "00", full[:-2], full + "00", full + full):
        length(with_word(form, i, wrong), i + 2, 0 if wrong == "-" else len(wrong) // 2, size)
for wrong in ("abc", "0g", "x"):
    no_hex(with_word("certified", 2, wrong), 4)
for size in (TOP_CERTIFICATE + 1, TOP_CERTIFICATE + 2, 5000):
    refuse(with_word("certified", 2, "00" * size), at(4, f"has {size} bytes, {TOP_CERTIFICATE} at most"))

# of two words that are wrong the first is named, and a wrong word before one that lacks or is left over
number(f"encode ack x {DIGEST.hex()[:-2]} 2 16 -", 2, TOP_RECORD)
length(f"encode ack 5 {DIGEST.hex()[:-2]} x 16", 3, 31, 32)
number(f"encode message 5 x", 3, TOP)
number(f"encode message x", 2, TOP)
no_hex(f"encode certified 5 {DIGEST.hex()} x 00", 4)
number(f"encode tip x 5", 2, TOP_RECORD)

if len(sys.argv) != 3:
    sys.exit("usage: generate.py LINES ANSWERS")
LINES.append((None, f"{len(LINES)} lines, 0 tips counted, {REFUSED} refused, no safe tip"))
with open(sys.argv[1], "w") as f:
    f.writelines(line + "\n" for line, _ in LINES if line is not None)
with open(sys.argv[2], "w") as f:
    f.writelines(answer + "\n" for _, answer in LINES)
print(f"{len(LINES) - 1} lines, {REFUSED} of them refused")
