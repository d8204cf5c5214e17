#!/usr/bin/env python3
"""The console's lines about providers, answered from docs/RULES.md and docs/CONSOLE.md. It shares no code with the crates.

    provider.py < lines        answers the lines, and ends with the summary line
    provider.py vectors        prints the lines of the test vectors
"""
import hashlib
import sys

MASK = (1 << 64) - 1


# ---- the rules

def quorum(n):
    return n - (n - 1) // 3


def tag(signer, height, digest):
    turned = ((height << 17) | (height >> 47)) & MASK
    out = (signer + 1) ^ turned
    for k in range(4):
        out ^= int.from_bytes(digest[8 * k:8 * k + 8], "big")
    return out


def signature(signer, height, digest):
    return tag(signer, height, digest).to_bytes(8, "big") + bytes(56)


class Refused(Exception):
    """Why a line is refused: what stands behind the word `refused`."""


class Trial:
    """A provider: its kind, and the keys and the own signer of each epoch."""

    def __init__(self, kind):
        self.kind = kind
        self.sets = {}

    def add(self, epoch, me, keys):
        n = len(keys)
        if self.sets:
            last = max(self.sets)
            if epoch == last:
                raise Refused(": the epoch is the one before it")
            if epoch < last:
                raise Refused(": the epoch is below the one before it")
        if n < 2:
            raise Refused(": an epoch has 2 keys or more")
        if n > 16:
            raise Refused(": an epoch has 16 keys at most")
        for at in range(1, n):
            if keys[at] == keys[at - 1]:
                raise Refused(f": the key of signer {at} is the one before it")
            if keys[at] < keys[at - 1]:
                raise Refused(f": the key of signer {at} is below the one before it")
        if me is not None and me >= n:
            raise Refused(": the own signer is none of the epoch's")
        self.sets[epoch] = (n, me)
        own = "none" if me is None else me
        return f"epoch {epoch} signers {n} faults {n - quorum(n)} quorum {quorum(n)} own {own}"

    def known(self, epoch):
        if epoch not in self.sets:
            raise Refused(f" 5 UnknownEpoch: {epoch}")
        return self.sets[epoch]

    def sign(self, epoch, height, digest):
        me = self.known(epoch)[1]
        if me is None:
            raise Refused(f": epoch {epoch} has no own signer")
        return "signature " + signature(me, height, digest).hex()

    def accepts(self, epoch, signer, height, digest, sig):
        n = self.known(epoch)[0]
        return "accepted" if signer < n and sig == signature(signer, height, digest) else "rejected"

    def certificate(self, pairs):
        bits = sum(1 << signer for signer, _ in pairs).to_bytes(2, "big")
        if self.kind == "listed":
            return bits + b"".join(sig for _, sig in pairs)
        total = sum(int.from_bytes(sig[:8], "big") for _, sig in pairs)
        return bits + (total & MASK).to_bytes(8, "big")

    def assemble(self, epoch, pairs):
        n = self.known(epoch)[0]
        signers = [signer for signer, _ in pairs]
        ascend = all(a < b for a, b in zip(signers, signers[1:]))
        if len(pairs) < quorum(n) or not ascend or any(signer >= n for signer in signers):
            raise Refused(" 29 AssemblyFailed")
        return "certificate " + self.certificate(pairs).hex()

    def reason(self, n, height, digest, cert):
        if len(cert) < 2:
            return "no map"
        bits = int.from_bytes(cert[:2], "big")
        signers = [i for i in range(16) if bits >> i & 1]
        if bits >> n:
            return "a bit that is no signer's"
        if len(signers) < quorum(n):
            return "too few signers"
        body = cert[2:]
        if len(body) != (64 * len(signers) if self.kind == "listed" else 8):
            return "a wrong length"
        if self.kind == "listed":
            good = body == b"".join(signature(i, height, digest) for i in signers)
        else:
            good = int.from_bytes(body, "big") == sum(tag(i, height, digest) for i in signers) & MASK
        return None if good else "a bad signature"

    def judge(self, epoch, height, digest, cert):
        reason = self.reason(self.known(epoch)[0], height, digest, cert)
        return f"rejected: {reason}" if reason else "accepted"


# ---- the words of a line

def wrong(place, what):
    raise Refused(f": word {place} after the command {what}")


def number(word, place, most=MASK):
    if not word or not all(c in "0123456789" for c in word) or int(word) > most:
        wrong(place, f"is no number from 0 to {most}")
    return int(word)


def hexed(word, place, size=None):
    if word != "-" and (len(word) % 2 or not all(c in "0123456789abcdefABCDEF" for c in word)):
        wrong(place, "is no hex: two digits a byte, or - for no bytes")
    out = b"" if word == "-" else bytes.fromhex(word)
    if size is not None and len(out) != size:
        wrong(place, f"has {len(out)} bytes, not {size}")
    return out


def digest_of(word, place):
    return hexed(word, place, 32)


def key(word, place):
    if word.startswith("k"):
        return bytes(31) + bytes([number(word[1:], place, 255)])
    return hexed(word, place, 32)


def own(word):
    if word == "me=none":
        return None
    if not word.startswith("me="):
        wrong(2, "is no own signer: me= and a number, or me=none")
    return number(word[3:], 2)


def pair(word, place):
    if ":" not in word:
        wrong(place, "is no signature: a signer, a colon and 64 bytes in hex")
    signer, sig = word.split(":", 1)
    return number(signer, place), hexed(sig, place, 64)


def kind_name(word, place):
    return word


FIXED = {
    "provider": [kind_name],
    "sign": [number, number, digest_of],
    "accepts": [number, number, number, digest_of, hexed],
    "accepts-certificate": [number, number, digest_of, hexed],
}


def fixed(name, words):
    """The values of a line that takes a fixed number of words, looked at one by one."""
    values = []
    for place, read in enumerate(FIXED[name], 1):
        if place > len(words):
            wrong(place, "is missing")
        values.append(read(words[place - 1], place))
    if len(words) > len(values):
        wrong(len(values) + 1, "is one too many")
    return values


def first_number(words):
    if not words:
        wrong(1, "is missing")
    return number(words[0], 1)


class Console:
    def __init__(self):
        self.trial = Trial("listed")

    def obey(self, name, words):
        if name == "provider":
            kind = fixed(name, words)[0]
            if kind not in ("listed", "pooled"):
                wrong(1, "is no provider: listed or pooled")
            self.trial = Trial(kind)
            return f"provider {kind}"
        if name == "epoch-set":
            epoch = first_number(words)
            if len(words) < 2:
                wrong(2, "is missing")
            me = own(words[1])
            return self.trial.add(epoch, me, [key(w, place) for place, w in enumerate(words[2:], 3)])
        if name == "assemble":
            epoch = first_number(words)
            return self.trial.assemble(epoch, [pair(w, place) for place, w in enumerate(words[1:], 2)])
        values = fixed(name, words)
        if name == "sign":
            return self.trial.sign(*values)
        if name == "accepts":
            return self.trial.accepts(*values)
        return self.trial.judge(*values)


# ---- the vectors

def digest(seed):
    return hashlib.sha256(seed.encode()).digest()


def keys(n):
    return " ".join(f"k{i}" for i in range(1, n + 1))


def pairs(sigs, signers):
    return " ".join(f"{i}:{sigs[i].hex()}" for i in signers)


# heights whose turning crosses the top bit, and those beside them
HEIGHTS = [0, 1, (1 << 46), (1 << 46) - 1, (1 << 47), (1 << 47) - 1, (1 << 63) | 5, (1 << 63) - 1, MASK]
# digests of equal words, and with one word that is not zero
DIGESTS = [bytes(32), b"\xff" * 32, bytes([7] * 8) * 4, digest("four words")] + [
    bytes(8 * k) + digest("one word")[:8] + bytes(24 - 8 * k) for k in range(4)]


def tags():
    """Own signatures, and what is accepted."""
    for height in HEIGHTS:
        for d in DIGESTS:
            yield f"sign 7 {height} {d.hex()}"
    height, d = (1 << 63) | 5, digest("four words")
    sig = signature(3, height, d)
    at = f"{height} {d.hex()}"
    yield f"accepts 7 3 {at} {sig.hex()}"
    for signer in (2, 4, 7, 3 + 256, 3 + (1 << 32), MASK):
        yield f"accepts 7 {signer} {at} {sig.hex()}"
    for other in (sig[:-1], sig + bytes(1), sig[:8], b"", sig[:63] + b"\x01", b"\x80" + sig[1:], bytes([sig[0] ^ 128]) + sig[1:]):
        yield f"accepts 7 3 {at} {other.hex() or '-'}"
    yield f"accepts 7 3 {height + 1} {d.hex()} {sig.hex()}"
    yield f"accepts 7 3 {height} {DIGESTS[2].hex()} {sig.hex()}"


def assembling(n, sigs):
    """Which lists of signatures make a certificate of n signers."""
    q = quorum(n)
    least = list(range(n - q, n))
    lists = [least, least[1:], least[1:] + least[:1], least[:1] + least, least[:-1] + [n]]
    if n in (2, 4, 7, 16):
        lists += [list(range(q)), list(range(n)), list(reversed(range(n))), least + least[-1:], [n - 1] * q, []]
    for signers in lists:
        yield (f"assemble {n} " + pairs(sigs, signers)).rstrip()
    yield f"assemble {n} " + pairs(sigs, least[:-1]) + f" {(n - 1) + 256}:{sigs[n - 1].hex()}"


def judging(trial, n, height, d, sigs):
    """Which certificates of n signers are accepted."""
    q = quorum(n)
    cert = trial.certificate([(i, sigs[i]) for i in range(n - q, n)])
    every = trial.certificate([(i, sigs[i]) for i in range(n)])
    few = trial.certificate([(i, sigs[i]) for i in range(n - q + 1, n)])
    bits = int.from_bytes(cert[:2], "big")
    turned = cert[:9] + bytes([cert[9] ^ 1]) + cert[10:]
    certs = [cert, few, cert + bytes(1), cert[:-1], cert[:2], cert[:1], b"", turned]
    if n < 16:
        certs.append((bits | 1 << n).to_bytes(2, "big") + cert[2:])
    if n in (2, 4, 7, 16):
        certs += [every, cert + bytes(64), cert[:-8], (bits & (bits - 1)).to_bytes(2, "big") + cert[2:], cert[1::-1] + cert[2:],
                  (bits | 1 << 15).to_bytes(2, "big") + cert[2:]]
    for c in certs:
        yield f"accepts-certificate {n} {height} {d.hex()} {c.hex() or '-'}"
    yield f"accepts-certificate {n} {height + 1} {d.hex()} {cert.hex()}"
    if n in (2, 4, 7, 16):
        yield f"accepts-certificate {n} {height} {digest('another').hex()} {cert.hex()}"
        yield f"accepts-certificate {n - 1} {height} {d.hex()} {cert.hex()}"


def sums(trial):
    """Sums that wrap, once and many times, and one that just does not."""
    d = bytes(32)
    once = (1 << 45) | (1 << 44)
    many = (1 << 47) - 1
    for n, height, wraps in ((2, 1 << 45, 0), (4, once, 1), (16, many, 10), (7, many, 4)):
        signers = range(n - quorum(n), n)
        total = sum(tag(i, height, d) for i in signers)
        assert total >> 64 == wraps, (n, height, total >> 64)
        sigs = [signature(i, height, d) for i in range(n)]
        cert = trial.certificate([(i, sigs[i]) for i in signers])
        yield f"assemble {n} " + pairs(sigs, signers)
        yield f"accepts-certificate {n} {height} {d.hex()} {cert.hex()}"
    # signatures that no one accepts are assembled as they are
    sigs = [b"\xff" * 64, digest("a") + digest("b"), b"\xff" * 8 + digest("c") + bytes(24), bytes(64)]
    assert sum(int.from_bytes(s[:8], "big") for s in sigs[:3]) >> 64
    yield "assemble 4 " + pairs(sigs, range(3))
    cert = trial.certificate([(i, sigs[i]) for i in range(3)])
    yield f"accepts-certificate 4 1 {d.hex()} {cert.hex()}"


def epochs():
    """Which epochs are taken, and what is wrong with others."""
    low, high = "00" * 31 + "05", "01" + "00" * 31
    yield "epoch-set 5 me=none"
    yield "epoch-set 5 me=none k1"
    yield "epoch-set 5 me=none " + keys(17)
    yield "epoch-set 5 me=9 " + keys(17)
    yield "epoch-set 5 me=2 k1 k2"
    yield f"epoch-set 5 me={MASK} k1 k2"
    yield "epoch-set 5 me=7 k2 k1"
    yield "epoch-set 5 me=none k1 k2 k2 k1"
    yield "epoch-set 5 me=none k1 k3 k2 k2"
    yield f"epoch-set 5 me=none {high} {low}"
    yield f"epoch-set 5 me=none {low} k5"
    yield f"sign 5 1 {digest('x').hex()}"
    yield f"epoch-set 5 me=1 {low} {high.upper()}"
    yield f"sign 5 1 {digest('x').hex()}"
    for epoch in (5, 4, 0):
        yield f"epoch-set {epoch} me=none k1"
    yield f"epoch-set {MASK} me=0 k0 k255"
    yield f"epoch-set {MASK} me=0 k0 k255"
    yield f"epoch-set 18446744073709551614 me=0 k0 k255"
    yield f"sign {MASK} 1 {digest('x').hex()}"
    yield f"sign 4 1 {digest('x').hex()}"


def words():
    """Lines whose words are wrong; what was held stays."""
    d, s = digest("x").hex(), bytes(64).hex()
    big = "18446744073709551616"
    yield from ("provider", "provider other", "provider Listed", "provider listed listed", "provider pooled now")
    yield from ("epoch-set", "epoch-set x", f"epoch-set {big}", "epoch-set 900", "epoch-set 900 none", "epoch-set 900 me", "epoch-set 900 me=",
                "epoch-set 900 me=x", f"epoch-set 900 me={big}", "epoch-set 900 me=none k1 k", "epoch-set 900 me=none k256 k2", "epoch-set 900 me=none k-1",
                "epoch-set 900 me=none kk", "epoch-set 900 me=none K1", "epoch-set 900 me=none k1 " + "00" * 31, "epoch-set 900 me=none k1 - k2", "epoch-set x me=y z",
                "epoch-set 900 me=None k300")
    for name, right in (("sign", ["7", "1", d]), ("accepts", ["7", "1", "1", d, s]), ("accepts-certificate", ["7", "1", d, "0003"])):
        for count in range(len(right)):
            yield " ".join([name] + right[:count])
        yield " ".join([name] + right + ["0"])
        for place in range(len(right)):
            for other in ("x", "-1", "-", "0x1", big, "abc", "00" * 31, "00" * 33, "zz" * 32):
                yield " ".join([name] + right[:place] + [other] + right[place + 1:])
    yield f"sign 007 0001 {d.upper()}"
    yield "accepts 7 x y z"
    yield from ("assemble", "assemble x", "assemble 99", "assemble 7", f"assemble 7 {s}", f"assemble 7 0:{s} 1", f"assemble 7 x:{s}", f"assemble 7 :{s}",
                f"assemble 7 {big}:{s}", f"assemble 7 0:{s[:-2]}", f"assemble 7 0:{s}00", "assemble 7 0:", "assemble 7 0:-", f"assemble 7 0:0:{s}",
                f"assemble 99 0:{s} 1:zz", f"assemble 99 0:{s}")
    yield f"accepts-certificate 99 1 {d} 0003"
    yield f"accepts 99 0 1 {d} {s}"
    yield f"sign 7 1 {d}"


def vectors():
    d = digest("x").hex()
    yield f"sign 1 1 {d}"
    for kind in ("listed", "pooled"):
        trial = Trial(kind)
        yield f"# {kind}"
        yield f"provider {kind}"
        yield f"sign 7 1 {d}"
        yield from epochs()
        yield f"provider {kind}"
        yield f"sign 5 1 {d}"
        for n in range(2, 17):
            yield f"epoch-set {n} me={'none' if n % 3 == 0 else n - 1} {keys(n)}"
        yield f"sign 3 1 {d}"
        yield from tags()
        for n in range(2, 17):
            height, dig = (1 << 47) + n, DIGESTS[n % 4]
            sigs = [signature(i, height, dig) for i in range(17)]
            yield from assembling(n, sigs)
            yield from judging(trial, n, height, dig, sigs)
        yield from sums(trial)
        yield from words()


def main():
    if sys.argv[1:] == ["vectors"]:
        for line in vectors():
            print(line)
        return
    console, lines, refused = Console(), 0, 0
    for line in sys.stdin:
        lines += 1
        parts = line.split()
        if not parts or line.startswith("#"):
            continue
        try:
            print(console.obey(parts[0], parts[1:]))
        except Refused as why:
            refused += 1
            print(f"refused{why}")
    print(f"{lines} lines, 0 tips counted, {refused} refused, no safe tip")


if __name__ == "__main__":
    main()
