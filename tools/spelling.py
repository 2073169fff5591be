#!/usr/bin/env python3
"""Spells the names of this repository's definitions and lemmas in snake case, in every text that has them.

usage: python3 tools/spelling.py [--check]    at the top of the repository

A name is the repository's own where a file of specs/ or proofs/ declares it: an item, a field, a variable. `groupStart` becomes `group_start` and
`group-next` becomes `group_next`. A lemma that would have the name of a definition ends in `_lem`. What stays: names of types and facts, constants in
capitals, names from libraries, and the labels that the prover makes. Texts: .antt, .rt, .edit, code spans of .md. --check writes nothing.
It tells names that fall together in a file, and ends with 1 then. A second run changes nothing.
"""

import collections
import os
import re
import sys

NAME = r'[^\s(){}.;,@"«»]+'
WORD = re.compile(NAME)
COMMENT = re.compile(r'(?<![^\s(){}.;,@"«»])--[^\n]*')
RUST_COMMENT = re.compile(r"//[^\n]*")
MARKS = r"(?:(?:pattern|unfoldable|abbrev|pub|opaque|instance|record|data)\s+)*"
ITEM = re.compile(rf"(?m)^ *{MARKS}({NAME})(?=[^\n=]*\s:(?:\s|$))")
LET = re.compile(rf"\blet\s+({NAME})\s*(?=[:=])")
BINDER = re.compile(rf"[({{]\s*((?:{NAME}\s+)+):(?=\s)")
LAMBDA = re.compile(rf"λ\s+((?:{NAME}\s+)*{NAME})\.")
ALIAS = re.compile(rf"\bas\s+«?({NAME})")
USE = re.compile(r"\buse\s+([^\s;{]+)(\{[^;]*?\})?(?=;|[ \t]*$)", re.M)
LABEL = re.compile(rf"(?m)^ *{MARKS}({NAME})\s*:\s*goal\.")
SPAN = re.compile(r"`[^`\n]+`")
KEYWORDS = set("use mod open module let in where unfolding elim record data pub as λ → : = | ↦ _".split())
# Where the prover's labels stand.
ANSWERS = ("Answers.antt", "Invariants.antt", "Proof.antt")
# A law that would meet a library's in its file.
TABLE = {"bit-and": "bit_of_and"}


def texts(root, endings):
    for top in ("crates", "docs", "README.md"):
        start = os.path.join(root, top)
        if os.path.isfile(start):
            if start.endswith(endings):
                yield start
            continue
        for folder, dirs, names in os.walk(start):
            dirs[:] = sorted(d for d in dirs if d not in ("out", ".git"))
            for n in sorted(names):
                if n.endswith(endings):
                    yield os.path.join(folder, n)


def read(path):
    with open(path, encoding="utf-8") as f:
        return f.read()


def spelled(name):
    if name in TABLE:
        return TABLE[name]
    if not re.match(r"[a-z◌]", name):
        return name
    # The library calls this word anew.
    name = re.sub(r"^getD(?=[-_])", "get_or", name)
    words = re.sub(r"(?<=[a-z0-9'])[A-Z](?![A-Z])", lambda m: "_" + m[0].lower(), name)
    return re.sub(r"(?<=[\w'])-(?=\w)", "_", words)


def is_own(path, crates):
    steps = path.split(".")
    return steps[0] in ("package", "goal") or (steps[0] == "Rattle" and len(steps) > 1 and steps[1].split("·")[0] in crates)


def foreign(code, crates):
    """The names that a text brings in from libraries."""
    out = set()
    for m in USE.finditer(code):
        if is_own(m[1].removeprefix("ghost "), crates):
            continue
        for item in (m[2] or "{" + m[1].split(".")[-1] + "}").strip("{}").split(","):
            out.update(item.split(" as ")[0].split())
    return out


def binders(code):
    for pattern in (BINDER, LAMBDA):
        for m in pattern.finditer(code):
            yield from m[1].split()


def main(argv):
    root, check = ".", "--check" in argv
    crates = set(os.listdir(os.path.join(root, "crates")))
    antt = {p: COMMENT.sub("", read(p)) for p in texts(root, ".antt")}
    words, declared, lemmas = set(), collections.defaultdict(set), collections.defaultdict(set)
    labels = {}
    for path, code in antt.items():
        walked = os.path.basename(path) in ANSWERS
        labels[path] = set(LABEL.findall(code))
        names = [m[1] for m in ITEM.finditer(code)] + LET.findall(code) + ALIAS.findall(code) + list(binders(code))
        for n in names:
            if n in KEYWORDS or n in labels[path] or n in foreign(code, crates):
                continue
            if walked and n.startswith(("ghost-", "loop-", "returns-", "bounds-", "overflow_")):
                continue
            declared[n].add(path)
        for n in ITEM.findall(code):
            if "/specs/" in path or re.search(r"[a-z0-9][A-Z]", n):
                words.add(spelled(n))
            else:
                lemmas[n].add(path)
    for p in texts(root, ".rt"):
        for m in re.finditer(r"ghost\s+use\b[^;]*;", read(p)):
            for n in ALIAS.findall(m[0]):
                declared[n].add(p)
    table = {}
    for n in declared:
        new = spelled(n)
        if n in lemmas and new in words and not re.search(r"[a-z0-9][A-Z]", n) and not any("/specs/" in p for p in declared[n]):
            new += "_lem"
        if new != n:
            table[n] = new
    for p, code in antt.items():
        for n in WORD.findall(code):
            if re.fullmatch(r"[a-z]+(?:[A-Z][a-z0-9]*)+'*", n) and n not in table and n not in foreign(code, crates):
                table[n] = spelled(n)
    together = 0
    for path in texts(root, (".antt", ".rt", ".edit", ".md")):
        old = read(path)
        new, met = turned(path, old, table, labels.get(path, set()), crates)
        for k, v in sorted(met.items()):
            # A word may have the name of the Rust function that it is the meaning of, but not that of a variable.
            if len(v) > 1 and not (path.endswith(".rt") and not re.search(rf"\b{k}\s*:(?!:)|\blet (?:mut )?{k}\b", new)):
                print(f"{path}: {k} would stand for {' and '.join(sorted(v))}")
                together += 1
        if new != old and not check:
            with open(path, "w", encoding="utf-8") as f:
                f.write(new)
    print(f"{len(table)} names; {together} that fall together in a file")
    return 1 if together else 0


def turned(path, text, table, labels, crates):
    """The text in the new spelling, and for each word of its code what it was."""
    met = collections.defaultdict(set)
    code = COMMENT.sub("", text) if path.endswith(".antt") else RUST_COMMENT.sub("", text)
    kept = labels | foreign(code, crates)
    answers = os.path.basename(path) in ANSWERS
    imported = {w for m in USE.finditer(code) if is_own(m[1].removeprefix("ghost "), crates) for w in WORD.findall(m[2] or "")} | {m[1] for m in ITEM.finditer(code)}

    def word(m):
        n = m[0]
        behind = text_of[: m.start()]
        new = table.get(n, n)
        if n in kept or (answers and re.search(r"(?:^|[\s(])(?:goal|c)\.$", behind[-6:])):
            new = n
        # A lemma in snake case already: a Rust function may have its name.
        elif new == n + "_lem" and n not in imported:
            new = n
        if not behind.endswith(".") and not re.match(r"\s*=\s", text_of[m.end() :]):
            met[new].add(n)
        return new

    def walk(part):
        nonlocal text_of
        text_of = part
        return WORD.sub(word, part)

    def prose(part):
        # In a comment a dash may be English, so there only words with capitals turn, and what stands in backquotes.
        part = re.sub(r"(?<![\w`'-])[a-z]+(?:[A-Z][a-z0-9]*)+\b(?!-)", lambda m: table.get(m[0], m[0]), part)
        return SPAN.sub(lambda m: "`" + walk(m[0][1:-1]) + "`", part)

    text_of = ""
    if path.endswith(".md"):
        return SPAN.sub(lambda m: "`" + walk(m[0][1:-1]) + "`", text), {}
    pattern = COMMENT if path.endswith(".antt") else RUST_COMMENT
    out, at = [], 0
    for m in pattern.finditer(text):
        out += [walk(text[at : m.start()]), prose(m[0])]
        at = m.end()
    out.append(walk(text[at:]))
    return "".join(out), met


if __name__ == "__main__":
    sys.exit(main(sys.argv[1:]))
