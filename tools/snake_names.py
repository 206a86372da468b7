#!/usr/bin/env python3
"""Spells the repository's own definitions, lemmas and record fields with `_` in place of `-`.

usage: python3 tools/snake_names.py [--dry]     at the top of a checkout, after port.py

Ghost fields of structs, which were in camel case, go to snake case as well. Names that Rattle makes (goals, steps of a function) and names of the library keep their spelling: only what a file of
specs/ or proofs/ declares is renamed, there, in every file that cites it and in the clauses of src/. Comments, strings,
must-fail edits and pages are left alone.
"""
import collections
import os
import re
import sys

WORD = r"[A-Za-z\u0370-\u03ff_][A-Za-z0-9_'\u0370-\u03ff≢≡→×ᵘ]*(?:-[A-Za-z0-9_'\u0370-\u03ff≢≡→×]+)*"
NAME = re.compile(WORD)
DECLARES = re.compile(r"^(\s*)((?:abbrev|unfoldable|pub|opaque|data|record|ruleset)\s+)*(" + WORD + r")((?:\s+\([^()]*\))*)\s*:(?!:)")
GHOST = re.compile(r"^\s*ghost ([a-z]+(?:[A-Z][a-z]*)+)\s*[:=]", re.M)
GOAL = re.compile(r":\s*(?:goal|need|rules)\.")
# a name whose spelling with `_` is taken by something else where it is used
OTHERWISE = {}


def files(ending):
    for folder, dirs, names in os.walk("crates"):
        dirs[:] = sorted(d for d in dirs if d != "out")
        for name in sorted(names):
            if name.endswith(ending):
                yield os.path.join(folder, name)


def read(path):
    with open(path, encoding="utf-8") as f:
        return f.read()


def declared(text, path):
    """The names that a file declares, and the fields of its records."""
    names, fields = set(), set()
    answers = os.path.basename(path) in ("Answers.antt", "Invariants.antt", "Proof.antt")
    inside = None
    for line in text.split("\n"):
        indent = len(line) - len(line.lstrip())
        if inside is not None and line.strip() and indent <= inside:
            inside = None
        if re.match(r"\s*(pub\s+)?record\s", line) and line.rstrip().endswith("where"):
            inside = indent
            continue
        m = DECLARES.match(line)
        if m and not (answers and GOAL.search(line)):
            (fields if inside is not None else names).add(m.group(3))
    return names, fields


def code_parts(text, rust):
    """Cuts a text into (is_code, part): comments and strings are no code."""
    pattern = r'//[^\n]*|"(?:[^"\\]|\\.)*"|\'(?:[^\'\\]|\\.)\'' if rust else r'(?<![^\s(){}])--[^\n]*|"(?:[^"\\]|\\.)*"'
    at = 0
    for m in re.finditer(pattern, text):
        yield True, text[at:m.start()]
        yield False, m.group(0)
        at = m.end()
    yield True, text[at:]


def snake(word):
    return OTHERWISE.get(word, re.sub(r"(?<=[a-z])([A-Z])", lambda m: "_" + m.group(1).lower(), word) if "-" not in word else word.replace("-", "_"))


def renamed(text, rust, names, fields, ghosts):
    def turn(m):
        word = m.group(0)
        if word in ghosts:
            return snake(word)
        if "-" not in word:
            return word
        before = m.string[m.start() - 1] if m.start() else " "
        if before == ".":
            path = re.search(r"[\w.]*$", m.string[:m.start() - 1]).group(0)
            own_module = re.match(r"(Rattle\.|specs\.|proofs\.)", path) is not None
            ok = word in fields or (own_module and word in names)
        else:
            ok = word in names or word in fields
        return snake(word) if ok else word

    return "".join(NAME.sub(turn, part) if code else part for code, part in code_parts(text, rust))


def main():
    dry = "--dry" in sys.argv
    names, fields = set(), set()
    for path in files(".antt"):
        n, f = declared(read(path), path)
        names |= {x for x in n if "-" in x}
        fields |= {x for x in f if "-" in x}
    ghosts = {g for path in files(".rt") for g in GHOST.findall(read(path))}
    changed = 0
    for ending in (".antt", ".rt"):
        for path in files(ending):
            old = read(path)
            new = renamed(old, ending == ".rt", names, fields, ghosts)
            if dry:
                words_old = set(NAME.findall(old))
                for word in sorted(words_old & (names | fields | ghosts)):
                    to = snake(word)
                    if to in words_old:
                        print(f"{path}: {word} falls together with {to}")
            elif new != old:
                with open(path, "w", encoding="utf-8") as f:
                    f.write(new)
                changed += 1
    print(f"{len(names)} names, {len(fields)} fields, {len(ghosts)} ghost fields; {changed} files changed")


main()
