#!/usr/bin/env python3
"""The safe tip by its definition: sort the recorded tips, take the (f + 1)-th largest.

Reads console lines from standard input and prints the console's answers, refusals left out
(but for a change of size). A second witness beside the published code.
"""
import re
import sys


def main():
    tips, lines, counted, refused = None, 0, 0, 0

    def safe():
        return sorted(tips.values(), reverse=True)[(len(tips) - 1) // 3]

    for line in sys.stdin:
        lines += 1
        words = [] if line.startswith("#") else re.findall(r"[^ \t\n]+", line)
        if not words:
            continue
        if words[0] == "signers":
            keys = [int(w) for w in words[1:]]
            n, f = len(keys), (len(keys) - 1) // 3
            if tips is not None and n != len(tips):
                refused += 1
                print(f"refused 11 SetSize: the set has {len(tips)} signers, not {n}")
                continue
            tips = {key: (tips or {}).get(key, 0) for key in keys}
            print(f"signers {n} faults {f} quorum {n - f} safe tip {safe()}")
        else:
            key, height = int(words[1]), int(words[2])
            if key in tips and tips[key] < height:
                old, tips[key] = tips[key], height
                counted += 1
                print(f"counted, was {old}, safe tip {safe()}")
            else:
                print(f"not counted, safe tip {safe()}")
    end = "no safe tip" if tips is None else f"safe tip {safe()}"
    print(f"{lines} lines, {counted} tips counted, {refused} refused, {end}")


if __name__ == "__main__":
    main()
