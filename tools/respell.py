#!/usr/bin/env python3
"""Spells the repository's own definitions and lemmas in snake case, and its own types and facts in camel case.

usage: python3 tools/respell.py [FOLDER]      once, after the kit's own scripts, at the top of the repository

A name is the repository's own if a file of specs/ or a lemma file of proofs/ declares it. Of these, a name with a dash is spelled anew wherever it stands as a
whole word in an .antt file, or in a .rt file outside of strings and comments: capital first, its words are joined in camel case (Commit-atomic is
CommitAtomic), otherwise by underscores (page-at is page_at). Names that the check makes (goals, steps) keep their dashes: they are declared by no such file, or stand behind c., l., w. or goal. in a function's own files.
It stops, with nothing changed, where two names would fall together or one would meet a word that stands already in a file that has it.
"""

import os
import re
import sys

NAME = r'[^\s(){}.;,@"«»]+'
DECLARED = re.compile(rf"^( *)((?:(?:abbrev|unfoldable|opaque|pub|record|data) +)*)({NAME})((?: +[\({{].*?)?) *:(?: |$)")
WORD = re.compile(NAME)
# Names that would meet another word if only their dashes went.
OTHERWISE = {"title-len": "title_length", "body-len": "body_length"}


def texts(root):
    for folder, dirs, files in os.walk(os.path.join(root, "crates")):
        dirs[:] = sorted(d for d in dirs if d not in ("out", "target", ".git"))
        for f in sorted(files):
            if f.endswith((".rt", ".antt")):
                yield os.path.join(folder, f)


def is_lemma_file(root, path):
    steps = os.path.relpath(path, root).split(os.sep)
    return path.endswith(".antt") and (steps[2] == "specs" or steps[2] == "proofs" and len(steps) == 4)


def respelled(name):
    if name in OTHERWISE:
        return OTHERWISE[name]
    words = name.split("-")
    if name[0].isupper():
        return words[0] + "".join(w[:1].upper() + w[1:] for w in words[1:])
    return "_".join(words)


def main():
    root = sys.argv[1] if len(sys.argv) > 1 else "."
    read = {}
    for p in texts(root):
        with open(p, encoding="utf-8") as f:
            read[p] = f.read()
    # A clause names no Rust function, so a definition may have the name of the function that it is the meaning of.
    functions = {m[1] for p, text in read.items() if p.endswith(".rt") for m in re.finditer(r"\bfn (\w+)", text)}
    own = set()
    for p, text in read.items():
        if is_lemma_file(root, p):
            for line in text.split("\n"):
                m = DECLARED.match(line)
                if m and "-" in m[3] and re.search(r"[^\W\d]", m[3]) and m[3][0] not in "-◌":
                    own.add(m[3])
    turn = {n: respelled(n) for n in own}
    met = {}
    for n, to in turn.items():
        met.setdefault(to, []).append(n)
    bad = [f"{', '.join(ns)} would all be {to}" for to, ns in met.items() if len(ns) > 1]
    for p, text in read.items():
        words = set(WORD.findall(text))
        bad += [f"{p}: {n} would meet {turn[n]}" for n in sorted(words & own) if turn[n] in words - functions]
    if bad:
        print("\n".join(bad), file=sys.stderr)
        print(f"respell: {len(bad)} names would fall together; nothing was changed", file=sys.stderr)
        raise SystemExit(1)
    places = 0
    for p, text in read.items():
        made = 0

        def one(m):
            nonlocal made
            to = turn.get(m[0])
            if to is None:
                return m[0]
            made += 1
            return to

        if p.endswith(".antt") and not is_lemma_file(root, p):
            # In a function's own proof files the first name behind a head, as c. or goal., is a step's or a goal's.
            new = re.sub(rf"(?<![^\s(){{}},;.@])(?:c|l|w|goal|a|b)\.{NAME}|" + NAME, lambda m: m[0] if "." in m[0] else one(m), text)
        elif p.endswith(".antt"):
            new = WORD.sub(one, text)
        else:
            # A string and a line's comment stay as they are.
            new = re.sub(r'"(?:[^"\\]|\\.)*"|//[^\n]*|' + NAME, lambda m: m[0] if m[0][:1] == '"' or m[0][:2] == "//" else one(m), text)
        places += made
        if new != text:
            with open(p, "w", encoding="utf-8") as f:
                f.write(new)
    print(f"respell: {len(turn)} names, {places} places")


main()
