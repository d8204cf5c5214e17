"""Forms: how numbers, acks, messages and records are written and read."""

HEIGHT_MAX = 2**62 + 15  # in records
NUMBER_MAX = 2**64 - 1
SIGNER_MAX = 15


class Fault(Exception):
    """A decode fault: the field, and the first byte that is missing, wrong or left over."""

    def __init__(self, field, byte):
        super().__init__(field, byte)
        self.field, self.byte = field, byte


def uint(value):
    """Groups of seven bits, low group first, the top bit set while more follow."""
    groups = []
    while value > 127:
        groups.append(value % 128 + 128)
        value //= 128
    return bytes(groups + [value])


class Reader:
    def __init__(self, data):
        self.data, self.at = data, 0

    def uint(self, field, limit=NUMBER_MAX):
        """Only the shortest spelling of a number up to the limit; the fault is at the byte after
        which no number within the limit is left."""
        value, weight = 0, 1
        while True:
            if self.at == len(self.data):
                raise Fault(field, self.at)
            byte = self.data[self.at]
            more, group = divmod(byte, 128)
            value += group * weight
            least = value + weight * 128 if more else value
            if least > limit or (byte == 0 and weight > 1):
                raise Fault(field, self.at)
            self.at += 1
            weight *= 128
            if not more:
                return value

    def bytes(self, field, size):
        if len(self.data) - self.at < size:
            raise Fault(field, len(self.data))
        self.at += size
        return self.data[self.at - size:self.at]

    def rest(self):
        part, self.at = self.data[self.at:], len(self.data)
        return part

    def end(self):
        if self.at != len(self.data):
            raise Fault("end", self.at)


class Ack:
    """One signer's word for a height and a digest."""

    __slots__ = ("height", "digest", "epoch", "signer", "signature")

    def __init__(self, height, digest, epoch, signer, signature):
        self.height, self.digest, self.epoch = height, digest, epoch
        self.signer, self.signature = signer, signature

    def bytes(self):
        return (uint(self.height) + self.digest + uint(self.epoch) + uint(self.signer)
                + self.signature)


def read_ack(reader, height_max=NUMBER_MAX):
    height = reader.uint("height", height_max)
    digest = reader.bytes("digest", 32)
    epoch = reader.uint("epoch")
    signer = reader.uint("signer", SIGNER_MAX)
    return Ack(height, digest, epoch, signer, reader.bytes("signature", 64))


def read_message(data):
    """A TipAck: the sender's tip and an ack."""
    reader = Reader(data)
    tip = reader.uint("tip")
    ack = read_ack(reader)
    reader.end()
    return tip, ack


def write_message(tip, ack):
    return uint(tip) + ack.bytes()


def read_record(data):
    """An activity: ("ack", ack), ("certified", height, digest, certificate) or ("tip", height)."""
    reader = Reader(data)
    if not data or data[0] > 2:
        raise Fault("kind", 0)
    reader.at = 1
    if data[0] == 0:
        activity = ("ack", read_ack(reader, HEIGHT_MAX))
    elif data[0] == 1:
        height = reader.uint("height", HEIGHT_MAX)
        activity = ("certified", height, reader.bytes("digest", 32), reader.rest())
    else:
        activity = ("tip", reader.uint("tip", HEIGHT_MAX))
    reader.end()
    return activity


def write_record(activity):
    if activity[0] == "ack":
        return b"\x00" + activity[1].bytes()
    if activity[0] == "certified":
        _, height, digest, certificate = activity
        return b"\x01" + uint(height) + digest + certificate
    return b"\x02" + uint(activity[1])
