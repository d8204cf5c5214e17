#!/usr/bin/env python3
"""Finds in crates/*/src the places that docs/DESIGN-PASS.md counts: python3 tools/forms.py [-v] [FOLDER]

FOLDER is a checkout, this one by default; -v prints each place and not only how many there are.
"""
import collections
import glob
import os
import re
import sys

POINTS = [
    ("1a", "an Option gone through by hand", r"^\s*None => (return )?(None|false),?$"),
    ("1b", "a fault in an Option", r"-> Option<(Fault|ListFault|Rejection|Defect|Overrun)>"),
    ("1c", "a bool that says whether a change was made", r"fn .*&mut .*-> bool"),
    ("1d", "an enum of its own", r"^(pub )?enum "),
    ("1e", "a number of a refusal", r"fn number\(.*self"),
    ("1f", "a law that answers a number", r"^pub fn \w+\(\) -> u8"),
    ("3", "a loop", r"^\s*(for|while|loop)\b"),
    ("4a", "equality, order, copying or printing by hand", r"fn (same\w*|before|copy\w*|eq|cmp|clone|fmt)\b"),
    ("4b", "a number taken out to be printed", r"^\s*let (\w+) = (self\.)?\w+\.(0|\1);$"),
    ("6", "an array or a count in a struct", r"^\s+(pub )?\w+: (\[.*; .*\]|usize),$"),
    ("7", "a bool that selects", r"\b\w+: bool\b"),
]


def sources(folder):
    for path in sorted(glob.glob(os.path.join(folder, "crates/*/src/**/*.rt"), recursive=True)):
        yield os.path.relpath(path, os.path.join(folder, "crates")), open(path).read()


def headers(text):
    """Each function's name, parameters and clauses."""
    for m in re.finditer(r"\bfn (\w+)(?:<[^(]*>)?\(([^)]*)\)", text):
        yield m.group(1), [p for p in m.group(2).split(",") if p.strip()], text[: m.start()].count("\n") + 1


def main():
    args = [a for a in sys.argv[1:] if a != "-v"]
    verbose = "-v" in sys.argv
    folder = args[0] if args else os.path.join(os.path.dirname(__file__), "..")
    found = collections.OrderedDict()
    for key, what, pattern in POINTS:
        found[key] = (what, [])
    found["2"] = ("a function's name that stands in two places or more", [])
    found["5a"] = ("five parameters or more", [])
    found["5b"] = ("a precondition that stands in three functions or more", [])
    names = collections.defaultdict(list)
    asked = collections.defaultdict(list)
    for path, text in sources(folder):
        for number, line in enumerate(text.split("\n"), 1):
            if line.lstrip().startswith("//"):
                continue
            for key, _, pattern in POINTS:
                if re.search(pattern, line):
                    found[key][1].append(f"{path}:{number}: {line.strip()}")
            m = re.match(r"\s*requires(?: \w+)? \{(.*)\}$", line)
            if m:
                asked[m.group(1).strip()].append(f"{path}:{number}")
        for name, parameters, number in headers(text):
            names[name].append(f"{path}:{number}")
            if len(parameters) >= 5:
                found["5a"][1].append(f"{path}:{number}: fn {name}, {len(parameters)}")
    for name, places in sorted(names.items()):
        if len(places) > 1:
            found["2"][1].append(f"{name}: {', '.join(places)}")
    for clause, places in asked.items():
        if len(places) > 2:
            found["5b"][1].append(f"{clause}: {', '.join(places)}")
    for key in sorted(found):
        what, places = found[key]
        print(f"{key:3} {len(places):4}  {what}")
        if verbose:
            for place in places:
                print("        " + place)
    lemmas = sum(text.count("\n") for path in glob.glob(os.path.join(folder, "crates/*/proofs/**/*.antt"), recursive=True) for text in [open(path).read()])
    answers = len(glob.glob(os.path.join(folder, "crates/*/proofs/**/Answers.antt"), recursive=True))
    print(f"8   {answers:4}  files of answers; {lemmas} lines of proofs")


main()
