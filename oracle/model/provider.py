"""Providers: who signs in an epoch, which signatures are accepted, how certificates look."""


def faults(n):
    return (n - 1) // 3


def quorum(n):
    return n - faults(n)


def trial_tag(signer, height, digest):
    """The one signature that is accepted."""
    turned = (height << 17 | height >> 47) % 2**64
    tag = (signer + 1) ^ turned
    for at in range(0, 32, 8):
        tag ^= int.from_bytes(digest[at:at + 8], "big")
    return tag.to_bytes(8, "big") + bytes(56)


class Members:
    """The signers of an epoch: their keys in ascending order, and the own signer or None."""

    def __init__(self, listed, keys, own):
        self.listed, self.keys, self.own = listed, sorted(keys), own
        self.n = len(self.keys)
        self.quorum = quorum(self.n)

    def position(self, key):
        return self.keys.index(key) if key in self.keys else None

    def accepts(self, ack):
        return ack.signature == trial_tag(ack.signer, ack.height, ack.digest)

    def sign(self, height, digest):
        return trial_tag(self.own, height, digest)

    def assemble(self, acks):
        """The certificate of acks with ascending signers, or None."""
        signers = [ack.signer for ack in acks]
        rising = all(a < b for a, b in zip(signers, signers[1:]))
        if not rising or len(signers) < self.quorum or signers[-1] >= self.n:
            return None
        head = sum(1 << signer for signer in signers).to_bytes(2, "big")
        if self.listed:
            return head + b"".join(ack.signature for ack in acks)
        total = sum(int.from_bytes(ack.signature[:8], "big") for ack in acks)
        return head + (total % 2**64).to_bytes(8, "big")
