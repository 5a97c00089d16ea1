#!/usr/bin/env python3
"""Brings the names of this repository's definitions and lemmas to today's spelling: snake case.

usage: python3 tools/snake_names.py LANDED      at the top, once, right after the kit's port.py

LANDED is the commit before port.py ran. It tells apart a definition and a lemma that were spelled one in camel case and the other with
dashes, as `rowIn` and `row-in`: the lemma gets `_lem`. Names of src/, strings, inputs and outputs stay.
It writes .antt and .rt files and must-fail edits, and prints what it left to do by hand.
"""

import collections
import glob
import re
import subprocess
import sys

LANDED = sys.argv[1]
TOKEN = re.compile(r"""[^\s(){}\[\].,;λ∥⌜⌝"@]+""")
DECLARED = re.compile(r"^(?:\s*)(?:(?:pub|abbrev|unfoldable)\s+)*(?:record\s+|data\s+)?([^\s:(){}=]+)\s*(?:[({].*)?:\s")
# By hand: a fact is spelled as a type; the tactic `first_of` keeps its word.
ODD = {"someOpen": "SomeOpen", "firstOf": "first_numbers", "first-of": "first_of_lem"}


def snake(name):
    name = name.replace("′", "'").replace("-", "_").replace("·", "_")
    if name[:1].islower():
        name = re.sub(r"(?<=[a-z0-9])([A-Z])", lambda m: "_" + m.group(1).lower(), name)
    return name


def old_text(path):
    ran = subprocess.run(["git", "show", f"{LANDED}:{path}"], capture_output=True, text=True)
    return ran.stdout if ran.returncode == 0 else None


def bare(text):
    """The text without its comments."""
    return re.sub(r"(?m)(^|\s)--.*$", "", text)


def declared(text):
    lines = [l for l in text.split("\n") if not l.lstrip().startswith("--") and not l.startswith("use ")]
    return {m.group(1) for m in map(DECLARED.match, lines) if m}


def main():
    paths = sorted(glob.glob("crates/*/specs/**/*.antt", recursive=True) + glob.glob("crates/*/proofs/**/*.antt", recursive=True))
    sources = sorted(glob.glob("crates/*/src/**/*.rt", recursive=True))
    edits = sorted(glob.glob("crates/*/must-fail/*.edit"))
    old = {p: old_text(p) or "" for p in paths + sources}
    # What the repository declares, but for the goals that stand in proofs/F/.
    own = set()
    for p in paths:
        if p.count("/") == 3:
            own |= declared(old[p])
    own = {n for n in own if re.match(r"^[^\W\d_]|^[⊕&]", n)}
    twins = collections.defaultdict(set)
    for n in own:
        twins[snake(n)].add(n)
    new = {}
    for n in own:
        both = twins[snake(n)]
        new[n] = ODD.get(n) or (snake(n) + "_lem" if "-" in n and len(both) > 1 else snake(n))
    falls = collections.defaultdict(set)
    for n in own:
        falls[new[n]].add(n)
    for k, v in falls.items():
        if len(v) > 1:
            print("left: names fall together:", k, sorted(v))

    # A spelling after port.py, and the spellings that it may stand for.
    after = collections.defaultdict(set)
    for n in own:
        after[n.replace("′", "'")].add(n)
        after[snake(n)].add(n)

    def turned(path, text):
        imported = set()
        for m in re.finditer(r"(?m)^(?:ghost )?use ((?:lib|mathlib|Prim|native|borrow|rust)\.[^{]*|Rattle\.(?:std|core|libc|os|io)[^{]*)\.\{([^}]*)\}", text):
            imported |= {t.strip().split(" ")[0] for t in m.group(2).split(",")}
        was = collections.defaultdict(list)
        for t in TOKEN.findall(bare(old.get(path, ""))):
            if t in own:
                was[snake(t)].append(t)
        came = collections.defaultdict(int)
        for t in TOKEN.findall(bare(text)):
            if t in after:
                came[snake(t)] += 1
        at = collections.defaultdict(int)

        def one(m, comment=False):
            t = m.group(0)
            if t not in after or t in imported:
                return t
            k = snake(t)
            if len(twins[k]) == 1:
                return new[next(iter(twins[k]))]
            if comment or path not in old:
                return new[t] if t in new else t
            if len(set(was[k])) == 1:
                return new[was[k][0]]
            if came[k] != len(was[k]):
                if at[k] == 0:
                    print("left:", path, t, came[k], was[k])
                at[k] += 1
                return t
            at[k] += 1
            return new[was[k][at[k] - 1]]

        out = []
        for line in text.split("\n"):
            m = re.match(r"^(.*?(?:^|\s))((?:--|//).*)$", line)
            code, note = (m.group(1), m.group(2)) if m else (line, "")
            code = TOKEN.sub(one, code)
            note = re.sub(r"^((?:--|//) {3})([^\s(){}\[\].,;]+)(?=  )", lambda m: m.group(1) + TOKEN.sub(lambda x: one(x, True), m.group(2)), note)
            note = re.sub(r"`([^`]*)`", lambda m: "`" + TOKEN.sub(lambda x: one(x, True), m.group(1)) + "`", note)
            note = re.sub(r"\b[a-z]+[A-Z]\w*\b", lambda m: one(m, True), note)
            out.append(code + note)
        return "\n".join(out)

    for path in paths + sources + edits:
        with open(path) as f:
            text = f.read()
        if path in edits:
            now = "\n".join(turned("", l) if re.match(r"(old|new): ", l) else l for l in text.split("\n")).replace("′", "'")
        else:
            now = turned(path, text)
        if now != text:
            with open(path, "w") as f:
                f.write(now)


main()
