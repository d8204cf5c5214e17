#!/usr/bin/env python3
"""Writes the recorded runs of the two journals: the lines, and what the model answers.

Usage: generate.py LINES ANSWERS [--long]. The same files come out each time. Prints what was written, in numbers.
With --long the sequences are one act longer; that is for a comparison by hand, and not recorded.
"""
import itertools
import sys

from model import AREA, RECORD_MAX, Console

# Bodies are full of ones, so that a byte left over where an end mark is to stand reads as a record.
ACTS = ["append 1 0101", "append 2 -", "sync 1", "prune 2", "prune 3", "cut"]
FEW_BYTE_ACTS = ["append 1 01", "append 1 -", "append 2 01", "prune 2", "cut"]
FEW_SLOT_ACTS = ["append 1 aa", "append 2 -", "prune 3", "cut"]
FOLLOWERS = ["append 1 02", "append 1 -", "append 2 -", "append 3 01"]


class Writer:
    """The lines and answers so far, and what was counted."""

    def __init__(self):
        self.console = Console()
        self.lines, self.answers = [], []
        self.counts = {}
        self.cases = 0

    def title(self, text):
        self.lines.append(f"# {text}")

    def play(self, lines):
        for line in lines:
            self.lines.append(line)
            self.answers.extend(self.console.answer(line))

    def case(self, lines):
        self.cases += 1
        self.play(lines)

    def count(self, what, number):
        self.counts[what] = self.counts.get(what, 0) + number


def stores(start, acts):
    """How many stores these acts make, one after the other, without a limit to the power."""
    console = Console()
    console.answer(start)
    for act in acts:
        console.answer(act)
    return console.journal.stores


def used(start):
    """The lines that show the beginnings of all areas."""
    kind, count = start.split()[1:]
    if kind == "slots":
        return []
    return [f"bytes {AREA * i} 24" for i in range(int(count))]


def with_power(out, start, power, acts):
    """Acts with this much power, what is left then, and one more append when the power is back."""
    follower = FOLLOWERS[out.cases % len(FOLLOWERS)]
    given = [] if power is None else [f"power {power}"]
    back = [] if power is None else ["power on"]
    out.case([start, *given, *acts, "read", *used(start), *back, follower, "read"])


def sequences(out, start, acts, longest, name):
    """Every sequence of up to `longest` acts; in each the power lasts for none, some or all stores of the last act."""
    out.title(f"{start}: every sequence of up to {longest} of {', '.join(acts)}, a cut at every store of the last")
    for length in range(1, longest + 1):
        for sequence in itertools.product(acts, repeat=length):
            before, all_ = stores(start, sequence[:-1]), stores(start, sequence)
            out.count(f"{name}: sequences", 1)
            out.count(f"{name}: cuts", all_ - before)
            for power in range(before, all_ + 1):
                with_power(out, start, power, sequence)


def powers(out, start, acts, length, name):
    """Every sequence of so many acts, with every power from none to all its stores, and without limit: what comes
    after the power went is asked of a journal without power."""
    out.title(f"{start}: every sequence of {length} of {', '.join(acts)}, with every power, going on without it")
    for sequence in itertools.product(acts, repeat=length):
        all_ = stores(start, sequence)
        out.count(f"{name}: sequences", 1)
        out.count(f"{name}: cuts", all_)
        for power in [None, *range(all_ + 1)]:
            with_power(out, start, power, sequence)


def body(length, byte=1):
    return f"{byte:02x}" * length or "-"


def full_bytes(out):
    """Records that just fit, or just do not."""
    longest = f"append 1 {body(RECORD_MAX)}"
    left = AREA - 9 - 3 * (3 + RECORD_MAX) - 3 - 1
    out.title(f"byte journal: an area with three records of {RECORD_MAX} bytes has room for one of {left}, and no more")
    out.case(["journal bytes 1", longest, longest, longest, f"append 1 {body(left + 1)}", f"bytes {AREA - 8} 8"])
    out.play([f"append 1 {body(left)}", f"bytes {AREA - 8} 8", "append 1 -", "append 2 -", "read"])
    for short in range(1, 6):
        out.case(["journal bytes 1", longest, longest, longest, f"append 1 {body(left - short)}"])
        out.play(["append 1 01", "append 1 -", "append 1 -", f"bytes {AREA - 8} 8"])
    out.title("byte journal: a cut at the last stores of a record that fills its area")
    for last in range(3):
        power = 10 + 3 * (4 + RECORD_MAX) + left + 4 - last
        out.case(["journal bytes 1", f"power {power}", longest, longest, longest, f"append 1 {body(left)}"])
        out.play([f"bytes {AREA - 876} 4", f"bytes {AREA - 8} 8", "power on", "append 1 -", f"bytes {AREA - 876} 8"])
    out.title("byte journal: the longest record, and one byte more, which takes no area")
    out.case(["journal bytes 1", f"append 7 {body(RECORD_MAX + 1)}", "bytes 0 12", "read", "append 8 01", "read"])
    out.case(["journal bytes 1", longest, f"append 1 {body(RECORD_MAX + 1)}", "read", "bytes 0 13"])
    out.title("byte journal: no free area, and a pruned one used again")
    out.case(["journal bytes 2", "append 5 010101", "append 9 01", "append 7 01", "append 5 01", "append 9 -", "read"])
    out.play(["prune 7", "append 5 -", "append 7 -", "read", *used("journal bytes 2")])
    out.play(["append 8 01", "prune 8", "append 8 0101", "read", *used("journal bytes 2")])
    out.play(["prune 10", "read", "append 9 01", f"append 9 {body(RECORD_MAX + 1)}", "append 10 -", "append 11 01"])
    out.play(["append 12 -", "read", "cut", "append 1 -", "prune 11", "append 1 01", "append 11 01", "read"])
    out.play(used("journal bytes 2"))
    out.title("byte journal: the numbers at both ends, and in eight different bytes")
    for section in [0, 1, 255, 256, 72623859790382856, 2**63, 2**64 - 1]:
        out.case(["journal bytes 2", f"append {section} 01", "append 65536 -", f"append {section} 0203", "read"])
        out.play([*used("journal bytes 2"), f"prune {section}", f"append {section} 04", "read", f"prune {2**64 - 1}"])
        out.play(["read", "append 65536 -", f"append {2**64 - 1} -", "read"])
    out.title("byte journal: lengths of two bytes, with cuts")
    for length in [1, 255, 256, 258, 513]:
        record = f"append 3 {body(length)}"
        out.case(["journal bytes 1", record, record, "append 3 -", "read", "bytes 0 13"])
        ends = {0, 1, 8, 9, 10, 11, 12, 13, length + 11, length + 12, length + 13, length + 14}
        for power in sorted(ends):
            out.case(["journal bytes 1", f"power {power}", record, "read", "bytes 0 13"])
            out.play(["power on", "append 3 -", "read"])


def full_slots(out):
    out.title("slot journal: no free slot, and pruned ones used again")
    for count in [1, 2, 3]:
        lines = [f"journal slots {count}"]
        for section in [4, 2, 9, 2]:
            lines += [f"append {section} {body(section)}", "read"]
        out.case(lines)
        out.play(["prune 3", "append 2 01", "append 4 02", "append 9 -", "append 3 01", "read"])
        out.play(["prune 10", "append 9 01", "append 10 -", "append 11 01", "append 10 02", "append 10 03", "read"])
        out.play(["cut", "append 0 01", "read"])
    out.title("slot journal: the longest record, and one byte more")
    out.case(["journal slots 2", f"append 7 {body(RECORD_MAX + 1)}", "read", f"append 7 {body(RECORD_MAX)}", "read"])
    out.play(["prune 8", f"append 7 {body(RECORD_MAX + 1)}", f"append 8 {body(RECORD_MAX)}", "read"])
    out.title("slot journal: the numbers at both ends")
    for section in [0, 2**64 - 1]:
        out.case(["journal slots 2", f"append {section} 01", "append 65536 -", "read", f"prune {section}", "read"])
        out.play([f"prune {2**64 - 1}", "read", "append 65536 -", f"append {2**64 - 1} -", "read"])
    out.title("slot journal: a prune that is cut at each of its stores")
    held = [f"append {section} {body(1, i)}" for i, section in enumerate([1, 2, 1, 3, 2, 1])]
    for below in [2, 3, 4]:
        for power in range(stores("journal slots 6", [*held, f"prune {below}"]) - len(held) + 1):
            out.case(["journal slots 6", *held, f"power {power}", f"prune {below}", "read", "power on"])
            out.play(["append 1 07", "append 2 08", "read", f"prune {below}", "append 3 09", "append 4 0a", "read"])


def nothing(out):
    out.title("journals of no area and no slot")
    for start in ["journal bytes 0", "journal slots 0"]:
        out.case([start, "read", "append 0 -", "append 1 01", "sync 1", "sync-all", "prune 2", "append 1 01", "cut"])
        out.play(["power 0", "append 1 01", "prune 2", "read"])
    out.title("what needs no store needs no power")
    for start in ["journal bytes 2", "journal slots 2"]:
        out.case([start, "power 0", "read", "sync 1", "sync-all", "prune 2"])
        out.play(["append 1 01", "append 2 01", "append 1 01"])
        out.play(["power on", "append 2 01", "append 1 -", "power 0", "prune 1", "read", "append 0 01", "prune 2"])
        out.play(["append 1 01", "append 3 01", "cut", "sync 1", "prune 0", "prune 3", "read"])
        out.play(["power on", "prune 3", "read"])


def values(old):
    return sorted({0, 1, 2, 3, 255, (old + 1) % 256, (old - 1) % 256} - {old})


def every_byte(out, start, acts, span, after):
    """Each of these bytes turned to each interesting value, alone."""
    console = Console()
    for line in [start, *acts]:
        console.answer(line)
    medium = bytes(console.journal.medium)
    for place in span:
        for value in values(medium[place]):
            out.count("damaged bytes", 1)
            out.case([start, *acts, f"damage {place} {value}", "read", *after, "read"])


def damaged(out):
    out.title("damage: one area with two records, every byte of its used part")
    every_byte(out, "journal bytes 1", ["append 258 0101", "append 258 01"], range(19), ["append 258 01"])
    out.title("damage: two areas, every byte of the used part of both")
    after = ["append 1 02", "append 2 -"]
    places = [*range(14), *range(AREA, AREA + 14)]
    every_byte(out, "journal bytes 2", ["append 1 01", "append 2 02"], places, after)
    out.title("damage: a free area's bytes, which nobody reads until it is taken")
    every_byte(out, "journal bytes 2", ["append 1 01"], range(AREA, AREA + 15), ["append 2 -", "append 1 -"])
    lengths(out)
    ends(out)
    second_areas(out)
    two_faults(out)
    bounds(out)


def write(place, data):
    return [f"damage {place + i} {byte}" for i, byte in enumerate(data)]


def lengths(out):
    out.title("damage: a length up to, at and past the longest record")
    for length in [1, 3, 255, 256, 1024, RECORD_MAX - 1, RECORD_MAX, RECORD_MAX + 1, 1279, 4084, 4085, 65535]:
        out.count("damaged lengths and ends", 1)
        out.case(["journal bytes 1", "append 1 01", *write(10, length.to_bytes(2, "big"))])
        out.play(["read", "append 1 -", "bytes 0 16"])


def chain(last):
    """Three records of the longest length and one of this, by their marks and lengths alone."""
    lines = write(0, [1])
    for i, length in enumerate([RECORD_MAX] * 3 + [last]):
        lines += write(9 + i * (3 + RECORD_MAX), b"\1" + length.to_bytes(2, "big"))
    return lines


def ends(out):
    out.title("damage: a record that just reaches the end of its area, and one past it; marks in the last three bytes")
    reach = AREA - 9 - 3 * (3 + RECORD_MAX) - 3
    cases = [(reach, b""), (reach + 1, b"")]
    cases += [(reach - 1, mark) for mark in (b"\1", b"\2")]
    cases += [(reach - 2, mark) for mark in (b"\1\0", b"\1\1", b"\3\0")]
    cases += [(reach - 3, mark) for mark in (b"\1\0\0", b"\1\0\1", b"\1\1\0", b"\xff\0\0", b"\0\1\1")]
    for last, mark in cases:
        out.count("damaged lengths and ends", 1)
        out.case(["journal bytes 1", *chain(last), *write(AREA - len(mark), mark)])
        out.play(["read", "append 0 -", "append 1 -", f"bytes {AREA - 3} 3"])


def second_areas(out):
    out.title("damage: a section's second area")
    firsts = [["append 1 01"], ["append 1 01", "append 1 -"], ["power 10", "append 1 01", "power on"]]
    seconds = [["append 2 02"], ["append 2 02", "append 2 03"], ["power 10", "append 2 02", "power on"]]
    faults = [[], ["damage 0 2"], ["damage 9 2"], ["damage 10 5"], [f"damage {AREA} 2"], [f"damage {AREA + 9} 3"]]
    for first, second, fault in itertools.product(firsts, seconds, faults):
        out.count("second areas", 1)
        turned = [f"damage {AREA + 8} 1", *fault]
        out.case(["journal bytes 3", *first, *second, "append 5 05", *turned, "read", "append 1 06", "append 3 07"])
        out.play(["read", "power 1", "prune 2", "read", "power on", "append 1 08", "read"])
    out.title("damage: three areas of one section, pruned from the last to the first")
    for power in range(4):
        out.count("second areas", 1)
        out.case(["journal bytes 3", "append 1 01", "append 2 02", "append 3 03", f"damage {AREA + 8} 1"])
        out.play([f"damage {2 * AREA + 8} 1", "read", f"power {power}", "prune 2", "read", "bytes 0 1"])
        out.play([f"bytes {AREA} 1", f"bytes {2 * AREA} 1", "power on", "append 1 04", "append 0 05", "read"])


def two_faults(out):
    out.title("damage: two areas with a fault each; the lower section's is told")
    faults = [(0, 2), (9, 2), (10, 5), (13, 3)]
    for low, high in [(1, 2), (2, 1)]:
        for first, second in itertools.product(faults, repeat=2):
            out.count("two faults", 1)
            out.case(["journal bytes 3", f"append {low} 01", f"append {high} 02", "append 0 03"])
            out.play([f"damage {first[0]} {first[1]}", f"damage {AREA + second[0]} {second[1]}", "read", "append 1 04"])
            out.play(["append 2 05", "append 0 06", "read", "prune 2", "append 2 07", "append 3 08", "read"])


def bounds(out):
    out.title("damage: areas with another mark, pruned; areas that come to lie below the bound")
    for mark in [2, 255]:
        out.count("damage beside a bound", 2)
        out.case(["journal bytes 2", "append 1 01", "append 2 02", f"damage 0 {mark}", "read"])
        out.play(["append 1 -", "append 3 -"])
        out.play(["prune 1", "read", "prune 2", "bytes 0 10", "read", "append 1 -", "append 3 -", "read", "bytes 0 13"])
        out.case(["journal bytes 2", "append 1 01", "append 2 02", f"damage {AREA} {mark}", "read"])
        out.play(["power 1", "prune 3", "read", "power on", "prune 3", "read", f"bytes {AREA} 10"])
    for below in [2, 3, 5, 6]:
        out.count("damage beside a bound", 1)
        out.case(["journal bytes 2", "prune 5", "append 5 01", "append 7 02", "damage 8 3", "read", "append 3 01"])
        out.play(["append 5 -", f"prune {below}", "read", "append 5 -", "cut", "append 3 02", "read"])
        out.play(used("journal bytes 2"))


def everything(out, more):
    sequences(out, "journal bytes 2", ACTS, 3 + more, "bytes, 2 areas")
    powers(out, "journal bytes 1", FEW_BYTE_ACTS, 2 + more, "bytes, 1 area")
    sequences(out, "journal slots 3", ACTS, 3 + more, "slots, 3")
    powers(out, "journal slots 2", FEW_SLOT_ACTS, 3 + more, "slots, 2")
    full_bytes(out)
    full_slots(out)
    nothing(out)
    damaged(out)


def summary(out):
    """The line that the console prints at the end of its input."""
    refused = sum(answer.startswith("refused") for answer in out.answers)
    return f"{len(out.lines)} lines, 0 tips counted, {refused} refused, no safe tip"


def main():
    paths = [word for word in sys.argv[1:] if word != "--long"]
    if len(paths) != 2:
        sys.exit(__doc__)
    out = Writer()
    everything(out, int("--long" in sys.argv))
    out.answers.append(summary(out))
    for path, lines in zip(paths, (out.lines, out.answers)):
        with open(path, "w") as file:
            file.write("".join(line + "\n" for line in lines))
    for what, number in out.counts.items():
        print(f"{what}: {number:,}")
    print(f"times the power went: {out.console.offs:,}")
    print(f"cases: {out.cases:,}; lines in {len(out.lines):,}, out {len(out.answers):,}")
    size = sum(len(line) + 1 for line in out.lines + out.answers)
    print(f"bytes, both files: {size:,}")


if __name__ == "__main__":
    main()
