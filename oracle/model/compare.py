#!/usr/bin/env python3
"""Compares the model of the rules with the published engine on random scripts.

Usage: compare.py ORACLE EVENTS [FIRST_SEED]
Runs scripts until EVENTS calls have been compared, states included, and prints the counts.
The first difference that is not one by design ends it, with the script in a file.
"""
import subprocess
import sys
import time
from collections import Counter

from scripts import Script

BATCH = 100

# What the published code answers where the rules refuse: the model's refusal, and how the
# published code's result begins.
BY_DESIGN = {
    "too high": ("refused 13 TooHigh", ("ok", "refused", "halted", "died (height overflow")),
    "epoch back": ("refused 10 EpochBack", ("died (assertion failed: epoch >= self.epoch",)),
    "epoch unknown": ("refused 5 UnknownEpoch", ("died (current epoch scheme must exist",)),
    "set size": ("refused 11 SetSize", ("died (Validator set size mismatch",)),
    "slips out": ("refused 26 SlipsOut", ("ok",)),
    "open unknown": ("refused 5 UnknownEpoch", ("died (current epoch scheme must exist",)),
    "open record": ("refused 6 JournalRecord", ("died (replay failed", "ok")),
    "open height": ("refused 7 JournalHeight", ("ok",)),
    "crowded": ("refused 8 Crowded", ("ok",)),
}
RESULTS = ("ok ", "refused ", "refused: ", "halted ", "cut ", "died ")


def length(seed):
    """Most scripts are short; every twentieth goes on for longer."""
    return 400 if seed % 20 == 0 else 60


def blocks(lines):
    """Answers apart: each ends with its result."""
    block, out = [], []
    for line in lines:
        block.append(line)
        if line.startswith(RESULTS):
            out.append(block)
            block = []
    return out + ([block] if block else [])


def run_oracle(oracle, scripts):
    text = "".join("\n".join(script.lines) + "\n" for script in scripts)
    done = subprocess.run([oracle, "--counts"], input=text, capture_output=True, text=True)
    if done.returncode:
        sys.exit(f"the oracle ended with {done.returncode}: {done.stderr[:2000]}")
    logs = Counter()
    for line in done.stderr.splitlines():
        count, _, log = line.partition(" ")
        logs[log] += int(count)
    return blocks(done.stdout.splitlines()), logs


def differs(script, answers):
    """The place of the first difference that is not by design, or None."""
    for at, (line, ours) in enumerate(zip(script.lines, script.answers)):
        theirs = answers[at] if at < len(answers) else ["(nothing)"]
        if at == len(script.lines) - 1 and script.last:
            refusal, begins = BY_DESIGN[script.last]
            if ours[-1].startswith(refusal) and theirs[-1].startswith(begins):
                return None
        if ours != theirs:
            return at
    return None


def show(script, answers, at):
    with open("/tmp/difference.script", "w") as out:
        out.write("\n".join(script.lines[:at + 1]) + "\n")
    for name, lines in (("model", script.answers[at]), ("oracle", answers[at])):
        print(f"--- {name}")
        other = answers[at] if name == "model" else script.answers[at]
        for line in lines:
            print(("  " if line in other else "! ") + line[:200])
    print(f"at line {at + 1}: {script.lines[at]}\nthe script is /tmp/difference.script")


def main():
    if len(sys.argv) < 3:
        sys.exit(__doc__)
    oracle, events = sys.argv[1], int(sys.argv[2])
    seed = int(sys.argv[3]) if len(sys.argv) > 3 else 1
    calls = scripts = lines = 0
    seen, logs, last = Counter(), Counter(), Counter()
    begun = time.time()
    while calls < events:
        batch = [Script(s, length=length(s)) for s in range(seed, seed + BATCH)]
        answers, said = run_oracle(oracle, batch)
        logs += said
        start = 0
        for script in batch:
            theirs = answers[start:start + len(script.lines)]
            at = differs(script, theirs)
            if at is not None:
                print(f"seed {seed + batch.index(script)}")
                show(script, theirs, at)
                sys.exit(1)
            start += len(script.lines)
            calls += script.calls
            lines += len(script.lines)
            seen += script.seen
            last[script.last] += 1
        seed += BATCH
        scripts += BATCH
    report(calls, scripts, lines, seen, logs, last, time.time() - begun)


def report(calls, scripts, lines, seen, logs, last, seconds):
    print(f"{scripts} scripts, {calls} events, {lines} lines, {seconds:.0f} s: "
          "no difference but those by design")
    print("\nhow scripts end where the two part by design:")
    for name, count in sorted((str(k), v) for k, v in last.items() if k):
        print(f"  {count:8} {name}")
    print("\nthe rules' ways, counted by the model:")
    for name, count in sorted(seen.items()):
        print(f"  {count:8} {name}")
    print("\nthe published code's logs:")
    for name, count in sorted(logs.items()):
        print(f"  {count:8} {name}")


if __name__ == "__main__":
    main()
