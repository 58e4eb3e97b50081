#!/usr/bin/env python3
"""Spells the names of this repository's definitions and lemmas in snake case: pointInLoop is point_in_loop, loop-more is loop_more.

usage: own-names.py [--list] [FOLDER]

FOLDER has crates/, and is this folder if none is given. The names are those that specs/*.antt and proofs/*.antt declare, those of a
function's own proof among them. A dash stays between two names of definitions, as in ones-put. Names of src/, exported C names and
strings stay. It rewrites .rt, .antt, .edit and .md files; --list only prints the names. A name that would meet another one is printed
and stays.
"""

import glob
import os
import re
import sys

WORD = re.compile(r"[^\s(){}.;,@\"«»\[\]\\`:⌜⌝]+")
HEAD = re.compile(r"^ *(?:(?:pub|abbrev|unfoldable) )*(?!use |mod |module |record |data |open |where |--)([^\s(){}.;,:\"]+)(?: \{[^{}\n]*\})* :(?: |$)", re.M)
USE = re.compile(r"\buse ([^\s;{]+)\.\{([^}]*)\}")


def snake(word):
    word = re.sub(r"(?<=[a-z0-9₀-₉'])[A-Z](?=[a-z0-9])", lambda m: "_" + m[0].lower(), word)
    return re.sub(r"(?<=[a-z0-9])([A-Z])(?![a-z0-9])", lambda m: "_" + m[0].lower(), word)


def is_camel(word):
    return bool(re.match(r"[a-z]", word)) and bool(re.search(r"[a-z0-9][A-Z]", word))


def lemma(name, known):
    parts = [snake(p) if re.match(r"[a-z]", p) else p for p in name.split("-")]
    made = parts[0]
    for part in parts[1:]:
        left = made.split("-")[-1]
        made += ("-" if left in known and part in known else "_") + part
    return made


def main():
    words = [w for w in sys.argv[1:] if w != "--list"]
    root = words[0] if words else "."
    crates = sorted(os.listdir(os.path.join(root, "crates")))
    antt, rest = [], []
    for c in crates:
        at = os.path.join(root, "crates", c)
        for part in ("specs", "proofs"):
            antt += sorted(glob.glob(f"{at}/{part}/**/*.antt", recursive=True))
        rest += sorted(glob.glob(f"{at}/src/**/*.rt", recursive=True)) + sorted(glob.glob(f"{at}/must-fail/*.edit"))
    pages = sorted(glob.glob(f"{root}/*.md") + glob.glob(f"{root}/docs/*.md"))
    text = {p: open(p, encoding="utf-8").read() for p in antt + rest + pages}
    own = re.compile(r"Rattle\.(" + "|".join(map(re.escape, crates)) + r")\b")

    spec, lemmas, tokens, lent = set(), set(), set(), set()
    for p in antt:
        for m in HEAD.finditer(text[p]):
            (spec if "/specs/" in p else lemmas).add(m[1])
    for p in antt + rest:
        tokens.update(WORD.findall(text[p]))
        for module, names in USE.findall(text[p]):
            if not own.match(module):
                lent.update(n.split(" as ")[0].strip() for n in names.split(","))
    own_proof = set()
    for p in antt:
        if p.endswith("/Proof.antt"):
            own_proof.update(m[1] for m in HEAD.finditer(text[p]))
    shared = set()
    for p in antt:
        if not p.endswith("/Proof.antt"):
            shared.update(m[1] for m in HEAD.finditer(text[p]))

    known = {snake(n) for n in spec if re.match(r"[a-z]", n) and "-" not in n} | {"length", "take", "drop", "set", "get_or", "append"}
    turned, met = {}, []
    for n in sorted(shared):
        new = n
        if "-" in n[1:] and re.match(r"[A-Za-z]", n):
            new = lemma(n, known)
        elif is_camel(n):
            new = snake(n)
        if new == n or n in lent and not is_camel(n):
            if new != n:
                met.append((n, new, "a library has this name"))
            continue
        turned[n] = new
    back = {}
    for n, new in turned.items():
        back.setdefault(new, []).append(n)
    for new, olds in back.items():
        if len(olds) > 1 or new in tokens:
            for n in olds:
                met.append((n, new, "met " + ", ".join(o for o in olds if o != n) + (" a name that is there" if new in tokens else "")))
    for n, new, why in met:
        print(f"look: {n} -> {new}: {why}")
    # A definition that mirrors a function of src/ has its name. Of a definition and a lemma that meet, the lemma gets _lem.
    antt_tokens = set()
    for p in antt:
        antt_tokens.update(WORD.findall(text[p]))
    for new, olds in sorted(back.items()):
        there = new in antt_tokens and (new in spec or new in shared or new in lent)
        if len(olds) == 1 and not there:
            continue
        of_spec = [n for n in olds if is_camel(n)]
        others = [n for n in olds if not is_camel(n)]
        moves = {}
        if len(of_spec) > 1 or new in lent and of_spec:
            moves = {n: None for n in olds}
        else:
            if there and of_spec and new not in lent:
                others.insert(0, new)
            for k, n in enumerate(others):
                moves[n] = f"{new}_lem" + "'" * k
        for n, to in moves.items():
            if to is None or to in tokens or to in back:
                print(f"left: {n}: {new} is taken")
                turned.pop(n, None)
            else:
                print(f"look: {n} -> {to}: {new} is a definition")
                turned[n] = to
    if "--list" in sys.argv:
        for n, new in turned.items():
            print(n, new)
        return

    def word(m):
        return turned.get(m[0], m[0])

    # A name that is in snake case already may be a function's of src/, which keeps it.
    def source_word(m):
        return turned.get(m[0], m[0]) if "-" in m[0] or is_camel(m[0]) else m[0]

    for p in antt + rest + pages:
        t = text[p]
        if p.endswith(".rt"):
            cut = re.split(r"(b?\"(?:[^\"\\]|\\.)*\")", t)
            new = "".join(s if i % 2 else WORD.sub(source_word, s) for i, s in enumerate(cut))
        elif p.endswith(".edit"):
            new = WORD.sub(source_word, t)
        elif p.endswith(".md"):
            new = re.sub(r"`[^`\n]*`", lambda m: WORD.sub(word, m[0]), t)
        else:
            new = WORD.sub(word, t)
        if new != t:
            with open(p, "w", encoding="utf-8") as f:
                f.write(new)
    print(f"{len(turned)} names")


main()
