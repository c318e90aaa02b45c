#!/usr/bin/env python3
"""Brings the repository's own definitions and lemmas to the spelling of this Rattle, after the kit's port.py has run.

usage: python3 tools/spell.py [--list]      at the top of the repository, once, right after port.py

Words are in snake case, types in upper camel case, and a dash stays only between two names of functions.
Only names that specs/ and proofs/ declare are turned, as whole words, in .antt files and in the ghost text of .rt files.
Functions, types and fields of src/, strings, and the names that Rattle makes of the code keep their spelling.
With --list nothing is written, and each old name stands beside its new one; names that fall together are always printed.
"""

import os
import re
import subprocess
import sys

# A word of std that a lemma of ours joins by a dash.
STD = set("length append map take drop set sum cond reverse concat replicate".split())
# Names with a dot in the middle were spelled so because the plain word was taken.
DOTTED = {
    "yes·": "yes_form", "no·": "no_form", "open·": "open_word", "u·": "u_word", "true·": "true_word",
    "false·": "false_word", "rule·": "the_rule", "needs·": "needs_more",
}
# Where the plain turn would give a name that is taken.
TAKEN = {
    "is_right": "is_right_lem", "left-turn": "left_turn_lem", "struck-text": "struck_text_lem", "tree-of": "tree_of_lem",
    "labelBelow": "has_label_below",
}
WORD = r"[^\s(){};,.:λ⌜⌝|]+"


def files(ending):
    for folder, dirs, names in os.walk("crates"):
        dirs[:] = sorted(d for d in dirs if d != "out")
        for n in sorted(names):
            if n.endswith(ending):
                yield os.path.join(folder, n)


def declared():
    """Each name that specs/ and proofs/ declare, with its kind: type, function, part (a field or constructor) or lemma."""
    found = {}
    for path in files(".antt"):
        block = None
        for line in open(path, encoding="utf-8"):
            if line.strip().startswith("--") or line.startswith("use "):
                continue
            head = re.match(rf"^(\s*)((?:abbrev |unfoldable |pub )*)(data|record) (?:pub )?({WORD})", line)
            if head:
                found.setdefault(head.group(4), "type")
                block = len(head.group(1))
                continue
            sig = re.match(rf"^(\s*)((?:abbrev |unfoldable |pub )*)({WORD}(?: {WORD})*) : (.*)$", line)
            if not sig:
                if line.strip() and not line.startswith(" "):
                    block = None
                continue
            depth, marks, names, result = len(sig.group(1)), sig.group(2), sig.group(3).split(), sig.group(4)
            if names[0] in ("let", "use", "module") or result.startswith("goal."):
                continue
            if depth == 0:
                block = None
            if block is not None and depth > block:
                kind = "part"
            elif re.search(r"Type 0$", result.strip()):
                kind = "type"
            elif "abbrev" in marks or "unfoldable" in marks:
                kind = "function"
            else:
                kind = "lemma"
            for n in names:
                if kind == "part" or n not in found:
                    found[n] = kind
    return found


def snake(name):
    return re.sub(r"(?<=[a-z0-9])([A-Z])", lambda m: "_" + m.group(1).lower(), name)


def turned(name, kind, functions):
    if name in TAKEN:
        return TAKEN[name]
    if name in DOTTED:
        return DOTTED[name]
    if name[0].isupper():
        if kind == "type":
            return "".join(p[:1].upper() + p[1:] for p in name.split("-"))
        return name
    new = snake(name).replace("′", "'")
    if "-" in new:
        parts = new.split("-")
        if kind != "lemma" or not all(p in functions for p in parts):
            new = "_".join(parts)
    return new


def table():
    names = declared()
    functions = {snake(n) for n, k in names.items() if k == "function"} | STD
    return {n: turned(n, k, functions) for n, k in names.items()}, names


def fallen(new, names):
    """Old names that come to one name, with each other or with a name that the sources use."""
    by = {}
    for old, to in new.items():
        by.setdefault(to, set()).add(old)
    bad = {to: olds for to, olds in by.items() if len(olds) > 1}
    source = set()
    for path in files(".rt"):
        text = re.sub(r"(?m)^ghost use .*$", "", open(path, encoding="utf-8").read())
        source |= set(re.findall(r"\b(?:fn|let mut|let|const|ghost) ([a-z_A-Z0-9]+)", text))
        source |= set(re.findall(r"\b([a-z_0-9]+): ", text))
    std = set()
    for path in files(".antt"):
        for line in open(path, encoding="utf-8"):
            m = re.match(r"use Rattle\.std\.[^{]*\{(.*)\}", line)
            if m:
                std |= set(m.group(1).replace(" as ", ", ").split(", "))
    taken = {to: old for old, to in new.items() if old != to and (to in source or to in std or old in std)}
    return bad, taken


def turn(text, new, names):
    std = set()
    for m in re.finditer(r"use Rattle\.std\.[^{]*\{(.*)\}", text):
        std |= set(m.group(1).split(", "))

    def word(m):
        w = m.group(0)
        if w not in new or new[w] == w or w in std:
            return w
        before = text[max(0, m.start() - 80):m.start()]
        if before.endswith("."):
            stem = re.search(r"[^\s(){};,:λ]*$", before).group(0)
            if re.match(r"(?:goal|Goals|c|w)\.", stem) and names[w] != "part":
                return w
        return new[w]

    return re.sub(WORD, word, text)


def turn_rt(text, new, names):
    """The ghost text of a source: ghost use lines, clauses and ghost items."""
    out = []
    for line in text.split("\n"):
        if re.match(r"\s*(pub )?(ghost |requires|ensures|invariant)", line):
            line = turn(line, new, names)
        out.append(line)
    return "\n".join(out)


def main(argv):
    if not os.path.isdir("crates"):
        raise SystemExit("spell: run it at the top of the repository")
    new, names = table()
    bad, taken = fallen(new, names)
    for to, olds in sorted(bad.items()):
        print("falls together:", to, "<-", ", ".join(f"{o} ({names[o]})" for o in sorted(olds)))
    for to, old in sorted(taken.items()):
        print("is taken:", to, "<-", old, f"({names[old]})")
    if "--list" in argv:
        for old in sorted(new):
            if new[old] != old:
                print(f"{old} -> {new[old]} ({names[old]})")
        return 0
    for path in list(files(".antt")) + list(files(".rt")):
        text = open(path, encoding="utf-8").read()
        to = turn(text, new, names) if path.endswith(".antt") else turn_rt(text, new, names)
        if to != text:
            open(path, "w", encoding="utf-8").write(to)
    for crate in sorted(os.listdir("crates")):
        subprocess.run(["rt", "fmt"], cwd=os.path.join("crates", crate), stdout=subprocess.DEVNULL, stderr=subprocess.DEVNULL)
    return 0


if __name__ == "__main__":
    raise SystemExit(main(sys.argv[1:]))
