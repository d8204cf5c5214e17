#!/usr/bin/env python3
"""Makes the recorded runs anew: scripts chosen for what they reach, and the oracle's answers.

Usage: record.py ORACLE FOLDER
`small` and `large` are answered by the published engine; `rules`, which uses what only the rules
have, by the model. Candidates are made with fixed seeds; each time the one is taken that reaches most of what has
been reached least. They use only what a real journal can do: cuts before an operation or after
its last store, no loose records, byte and slot journals.
"""
import subprocess
import sys
from collections import Counter

from rules_scripts import RulesScript, crowded
from scripts import Script

CANDIDATES = 1500
ENOUGH = 12


def worth(script, reached):
    """How much a script adds to what was reached too seldom, for its length."""
    gain = sum(min(count, ENOUGH - reached[way]) / (1 + reached[way])
               for way, count in script.seen.items() if reached[way] < ENOUGH)
    return gain / (20 + len(script.lines))


def choose(candidates, events):
    reached, chosen, calls = Counter(), [], 0
    left = list(candidates)
    while calls < events:
        best = max(left, key=lambda script: worth(script, reached))
        if worth(best, reached) == 0:
            best = left[0]
        left.remove(best)
        chosen.append(best)
        reached += best.seen
        calls += best.calls
    return chosen, reached, calls


def write(oracle, folder, name, chosen):
    """Records the oracle's answers, or the model's where no oracle is given."""
    lines = []
    for script in chosen:
        lines += [f"# seed {script.seed}: {script.n} signers"] + script.lines + [""]
    text = "\n".join(lines)
    answers = "\n".join("\n".join(a) for s in chosen for a in s.answers) + "\n"
    if oracle:
        done = subprocess.run([oracle], input=text, capture_output=True, text=True, check=True)
        if done.stdout != answers:
            sys.exit("the model answers otherwise: run compare.py")
    for ending, content in (("stdin", text), ("stdout", answers)):
        with open(f"{folder}/{name}.{ending}", "w") as out:
            out.write(content)
    most = max(int(a[-1].split()[-1]) for s in chosen for a in s.answers)
    print(f"{name}: {len(chosen)} scripts, {len(text)} bytes in, {len(answers)} bytes out, "
          f"most output of one call {most} bytes")


def candidates(kind, first):
    made = []
    for seed in range(first, first + CANDIDATES):
        script = kind(seed, length=45, hard=True, states=0.12, last="")
        script.seed = seed
        made.append(script)
    return made


def main():
    if len(sys.argv) != 3:
        sys.exit(__doc__)
    oracle, folder = sys.argv[1:]
    common, rules = candidates(Script, 100_001), candidates(RulesScript, 200_001)
    for name, judge, among, events in (("small", oracle, common, 400),
                                       ("large", oracle, common, 4000),
                                       ("rules", None, rules, 2000)):
        chosen, reached, calls = choose(among, events)
        if name == "rules":
            chosen.append(crowded())
        write(judge, folder, name, chosen)
        print(f"  {calls} events")
        for way, count in sorted(reached.items()):
            print(f"  {count:6} {way}")


if __name__ == "__main__":
    main()
