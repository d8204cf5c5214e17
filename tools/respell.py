#!/usr/bin/env python3
"""Respells the repository's own definitions and lemmas as today's Rattle spells names.

usage: tools/respell.py [ROOT]     once, at the top, right after the kit's port.py; rewrites files below ROOT in place

Definitions, fields and constructors are in snake case, facts and types in camel case. A lemma's dash stays where it
joins two names that are defined (`rank-put`); elsewhere it becomes an underscore (`past_here`). Names that Rattle
makes (goals, steps of a proof) and names of src/ keep their spelling. It stops, with nothing written, where two names
of one file would fall together.
"""
import os
import re
import sys

WORDS = """length take drop set map filter append sum all any get_or reverse head last min max push insert remove slice_index
slice_get slice_set slice_range is_some is_none concat replicate zip fold count position mod div pow sub add mul le lt eq
All Contains IsSome IsTrue Some None Ok Err nil cons""".split()
# a lemma of one crate whose name another crate gives a definition
APART = {"text": {"number-of": "number_of_lem"}}
TOKEN = re.compile(r"[^\s(){}\[\].,;\"λ:⌜⌝|`]+")
DEFINED = re.compile(r"^[ \t]*(?:(?:abbrev|unfoldable|pub) )*([^\s:(){}.,;\"=]+) :(?=\s)(.*)$", re.M)
TYPED = re.compile(r"^[ \t]*(?:(?:pub) )*(?:data|record|ruleset) ([^\s:(){}.,;\"=]+)", re.M)
FIELD = re.compile(r"^[ \t]+(?:pub )?([^\s:(){}.,;\"=]+) : ", re.M)
PATH = re.compile(r"^use Rattle\.[^\n{]*\.(?:Goals|Given|Needs|Choices)\b", re.M)
PLAIN = re.compile(r"^[A-Za-z][A-Za-z0-9_'ℕℤ]*(?:-[A-Za-z0-9_'ℕℤ]+)*$")


def files(root, ends):
    for top in ("crates", "wip"):
        for folder, dirs, names in os.walk(os.path.join(root, top)):
            dirs[:] = sorted(d for d in dirs if d not in ("out", ".git"))
            for n in sorted(names):
                if n.endswith(ends):
                    yield os.path.join(folder, n)


def text(path):
    with open(path, encoding="utf-8") as f:
        return f.read()


def snake(name):
    return re.sub(r"(?<=[a-z0-9])([A-Z])", lambda m: "_" + m.group(1).lower(), name).replace("-", "_")


def camel(name):
    return "".join(p[:1].upper() + p[1:] for p in name.split("-"))


def collect(root):
    specs, lemmas, fields = set(), set(), set()
    for p in files(root, (".antt",)):
        t = re.sub(r"--[^\n]*", "", text(p))
        for m in TYPED.finditer(t):
            (specs if "/specs/" in p else lemmas).add(m.group(1))
        for m in DEFINED.finditer(t):
            if re.match(r"\s*(?:goal|need)s?\.", m.group(2)):
                continue
            (specs if "/specs/" in p else lemmas).add(m.group(1))
        fields |= {m.group(1) for m in FIELD.finditer(t)}
    return specs, lemmas, fields


def lemma(name, known):
    parts = [snake(p) for p in name.split("-")]
    out = parts[0]
    for i in range(1, len(parts)):
        left = any("_".join(parts[j:i]) in known for j in range(i))
        right = any("_".join(parts[i:j]) in known for j in range(i + 1, len(parts) + 1))
        out += ("-" if left and right else "_") + parts[i]
    return out


def table(root):
    specs, lemmas, fields = collect(root)
    new = {}
    for n in specs:
        if PLAIN.match(n):
            new[n] = (camel(n) if "-" in n else n) if n[0].isupper() else snake(n)
    known = set(new.values()) | set(WORDS)
    for n in lemmas - specs:
        if PLAIN.match(n):
            if n[0].isupper():
                new[n] = camel(n) if "-" in n else n
            else:
                new[n] = lemma(n, known)
                if new[n] in known - set(WORDS):
                    new[n] += "_lem"  # it would have its function's name
    return {a: b for a, b in new.items() if a != b}, fields


def pieces(t, rust):
    """Cuts a text into (is it code, piece): strings and comments are none."""
    comment = r"//[^\n]*" if rust else r"--(?=\s)[^\n]*"
    at = 0
    for m in re.finditer(r'"(?:\\.|[^"\\])*"|' + comment, t):
        yield True, t[at:m.start()]
        yield False, m.group(0)
        at = m.end()
    yield True, t[at:]


def respell(t, new, fields, rust, made):
    def word(m):
        w = m.group(0)
        if w not in new:
            return w
        if made and m.start() and m.string[m.start() - 1] == "." and w not in fields:
            return w
        return new[w]

    out = []
    for code, piece in pieces(t, rust):
        if code:
            out.append(TOKEN.sub(word, piece))
        elif not piece.startswith('"'):
            out.append(re.sub(r"`[^`\n]*`", lambda m: TOKEN.sub(lambda k: new.get(k.group(0), k.group(0)), m.group(0)), piece))
        else:
            out.append(piece)
    return "".join(out)


def tokens(t, rust):
    return {m.group(0) for code, piece in pieces(t, rust) if code for m in TOKEN.finditer(piece)}


def main(root):
    every, fields = table(root)
    written, clashes = {}, []
    for p in files(root, (".antt", ".rt")):
        t, rust = text(p), p.endswith(".rt")
        new = every | APART.get(os.path.relpath(p, root).split(os.sep)[1], {})
        made = os.path.basename(p) in ("Answers.antt", "Invariants.antt", "Proof.antt", "Choices.antt")
        seen = set() if rust else tokens(PATH.sub("", t), rust)
        by = {}
        for w in seen:
            by.setdefault(new.get(w, w), set()).add(w)
        clashes += [f"{p}: {sorted(ws)} would all be {n}" for n, ws in by.items() if len(ws) > 1]
        out = respell(t, new, fields, rust, made)
        if out != t:
            written[p] = out
    for p in files(root, (".edit",)):
        out = []
        for line in text(p).splitlines(keepends=True):
            if line.startswith(("old: ", "new: ")):
                line = line[:5] + respell(line[5:], every, fields, True, False)
            out.append(line)
        if "".join(out) != text(p):
            written[p] = "".join(out)
    if clashes:
        print("\n".join(clashes))
        print("nothing written")
        return 1
    for p, t in written.items():
        with open(p, "w", encoding="utf-8") as f:
            f.write(t)
    for a, b in sorted(every.items()):
        print(f"{a} {b}")
    return 0


if __name__ == "__main__":
    raise SystemExit(main(sys.argv[1] if len(sys.argv) > 1 else "."))
