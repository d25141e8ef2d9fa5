#!/usr/bin/env python3
"""Lists where the sources may have an older form in place of today's, for each of the points of docs/DESIGN-PASS.md.

    python3 tools/places.py [COMMIT]     the work tree, or the files of a commit

A line that it prints is a candidate and no more: the page says which of them are places. Points 2 and 5 are found by comparing functions: for 2, bodies
that are equal but for names, types and numbers; for 5, facts that stand in three or more contracts, and parameters that three or more functions of a
crate share.
"""
import re
import subprocess
import sys
from collections import defaultdict

LINES = {
    "1 a function that writes and answers a bool": r"fn [^{]*&mut [^{]*-> bool",
    "1 an enum, to be looked at for the shape of Option or Result": r"\benum (\w+)",
    "1 a flag beside a value, or handed in": r"\b\w+: bool\b",
    "1 a number for a kind or a refusal": r"\b(kind|field|tag): u(8|64)\b|Result<u64, u64>|refusing\(\d|const [A-Z_]+: u64 = \d;|-> \(u8, |page: 2\b|Refused\(u64\)",
    "1 a theorem that answers a number": r"\(\) -> u8\s+ensures \{ [A-Z][\w ]* \}",
    "3 a loop over a range": r"\bfor \w+ in [^{;]*\.\.",
    "3 a loop with while": r"\bwhile\b[^{;]*\{",
    "4 a trait's impl": r"\bimpl(<[^{]*>)? (fmt::)?(Display|From|TryFrom|PartialEq|Eq|PartialOrd|Ord|Clone|Default)\b",
    "4 an error turned into another by a match": r"Err\(_\) =>",
    "4 a comparison, copy or conversion under a name of its own": r"\bfn (compare\w*|is_better|smaller_of|copy|of|number|number_row|number_bytes|made_small|is_equal)\b",
    "6 a length beside a buffer": r"\blen: usize\b|\bcount: u(64|size),\s*(most: u64)?",
    "6 a buffer of fixed size": r": \[u(8|64); \w+\]",
    "7 a match on a kind": r"\bmatch (kind|self|event|told|registers\.phase|which|request|plain)\b",
}


def files(commit):
    """The sources: name and text."""
    if commit is None:
        listed = subprocess.run(["git", "ls-files", "crates/*/src/*.rt"], capture_output=True, text=True, check=True)
        return [(name, open(name, encoding="utf-8").read()) for name in listed.stdout.split()]
    listed = subprocess.run(["git", "ls-tree", "-r", "--name-only", commit, "crates"], capture_output=True, text=True, check=True)
    names = [n for n in listed.stdout.split() if "/src/" in n and n.endswith(".rt")]
    return [(n, subprocess.run(["git", "show", f"{commit}:{n}"], capture_output=True, text=True, check=True).stdout) for n in names]


def without_comments(text):
    """The text with its comments blanked, so that lines keep their numbers."""
    return re.sub(r"//[^\n]*", "", text)


def functions(text):
    """Each function: line, name, signature with clauses, body."""
    for match in re.finditer(r"^( *)(pub(?:\(crate\))? )?fn (\w+)", text, re.M):
        if re.match(r"[^{]*\(\)\s+ensures [^\n]*\n *\{\}\n", text[match.start():]):
            continue
        end = text.find("\n" + match.group(1) + "}\n", match.start())
        whole = text[match.start():end]
        brace = re.search(r"\n" + match.group(1) + r"\{\n|\{\n", whole)
        if brace is None:
            continue
        yield text.count("\n", 0, match.start()) + 1, match.group(3), whole[:brace.start()], whole[brace.end():]


def shape(body):
    """A body with its names, types and numbers taken out."""
    body = re.sub(r"\b(if|else|for|while|let|mut|match|return|in|true|false|as|some|none)\b", r"@\1", body)
    body = re.sub(r"(?<!@)\b\w+\b", "x", body)
    return re.sub(r"\s+", " ", body).strip()


def by_lines(sources):
    for what, pattern in LINES.items():
        hits = [(n, t.count("\n", 0, m.start()) + 1, re.sub(r"\s+", " ", m.group(0))) for n, t in sources for m in re.finditer(pattern, t)]
        yield what, hits


def twins(sources):
    groups = defaultdict(list)
    for name, text in sources:
        for line, function, _, body in functions(text):
            form = shape(body)
            if len(form) > 12:
                groups[form].append((name, line, function))
    return [group for group in groups.values() if len(group) > 1]


def repeated(sources):
    facts, shared = defaultdict(set), defaultdict(set)
    for name, text in sources:
        crate = name.split("/")[1]
        for line, function, head, _ in functions(text):
            for fact in re.findall(r"(?:requires|ensures)(?: \w+)? \{ (.*) \}", head):
                facts[(crate, re.sub(r"\b\d+\b", "N", fact))].add(f"{name}:{line} {function}")
            args = re.findall(r"(\w+): (&(?:'a )?(?:mut )?[\w\[\]; ]+|\w+)", head[head.find("("):head.find(")")])
            for i, a in enumerate(args):
                for b in args[i + 1:]:
                    if "heap" not in (a[0], b[0]):
                        shared[(crate, a[0], b[0])].add(f"{name}:{line} {function}")
    return [(k, v) for k, v in list(facts.items()) + list(shared.items()) if len(v) > 2]


def main():
    sources = [(n, without_comments(t)) for n, t in files(sys.argv[1] if len(sys.argv) > 1 else None)]
    for what, hits in by_lines(sources):
        print(f"== {what}: {len(hits)}")
        for name, line, text in hits:
            print(f"   {name}:{line}: {text}")
    groups = twins(sources)
    print(f"== 2 bodies that are equal but for names, types and numbers: {len(groups)} groups, {sum(map(len, groups))} functions")
    for group in groups:
        print("   " + ", ".join(f"{n}:{line} {f}" for n, line, f in group))
    found = repeated(sources)
    print(f"== 5 facts and parameters that three or more functions share: {len(found)}")
    for key, where in sorted(found, key=str):
        print(f"   {key}: {len(where)}: " + ", ".join(sorted(where)))


main()
