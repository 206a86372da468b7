#!/usr/bin/env python3
"""Lists the places that docs/DESIGN-PASS.md counts, at a commit: python3 tools/places.py COMMIT [POINT]"""
import collections
import itertools
import re
import subprocess
import sys

# (point, title, pattern, whether only inside a struct or an enum)
PATTERNS = [
    (1, "flags beside a value", r"^ +(pub(\(crate\))? )?[a-z_]+: bool,$", True),
    (1, "enums of the shape of a result", r"^    Refused\(", True),
    (1, "numbers for kinds", r"^ +(pub )?(kind|class|channel|code|format|loop_kind): u(8|32),$", True),
    (3, "loops over an index", r"for [a-z]+ in 0\.\.|while [a-z]+ <|in [a-z]+\.iter\(\)\.enumerate", False),
    (3, "elements named one by one", r"^(?!.*assert)(?!.*\] = ).*(\b[a-z]+\[[0-9]\]|\[first\]|first \+ [0-9])", False),
    (3, "arrays taken apart or made by place", r"let \[[a-z], b|^    let \[$|array::from_fn", False),
    (4, "equality by number", r"\.number\(\) == |^\s+matches!\([a-z.()]+, [A-Z]\w+::\w+\)|match \(self, other\)", False),
    (4, "kinds from numbers", r" == [A-Za-z]+::[A-Za-z0-9]+ as u32|fn with_letter|fn [a-z_]+_of\(number", False),
    (4, "fields of a call checked by hand", r"pub fn checked\(", False),
    (4, "numbers and letters of kinds", r"fn (number|letter)\(self\)", False),
    (4, "options taken apart", r"^\s+None => (None|0|1|[a-z_]+loop),|Err\(_\) => (None|unreachable)", False),
    (4, "text by hand", r"fn [a-z_]*(text|words|name|marked)\(.*(String|str)|fn transcript", False),
    (4, "casts", r"\bas (u8|u16|u32|u64|i16|i32|i64|i8|usize)\b", False),
    (6, "room asked for and filled by hand", r"with_capacity|push_reserved", False),
    (6, "arrays side by side", r"fn \w+\(.*\[\w+; 8\].*\[\w+; 8\]", False),
    (7, "tables of functions, dyn", r"\bdyn |: fn\(|Box<", False),
]


def git(*words):
    return subprocess.run(["git", *words], capture_output=True, text=True, check=True).stdout


def files(commit, folder, ending):
    for path in git("ls-tree", "-r", "--name-only", commit, "crates").split():
        if f"/{folder}/" in path and path.endswith(ending):
            yield path.removeprefix("crates/"), git("show", f"{commit}:{path}")


def by_pattern(texts):
    for point, title, pattern, in_type in PATTERNS:
        for path, text in texts:
            inside = False
            for number, line in enumerate(text.splitlines(), 1):
                if re.match(r"(pub(\(crate\))? )?(struct|enum) ", line):
                    inside = line.endswith("{")
                if re.search(pattern, line) and (inside or not in_type):
                    yield point, title, f"{path}:{number}: {line.strip()}"
                if line == "}":
                    inside = False


def twins(texts):
    """Groups of functions, types or impls that are alike but for names, types and numbers."""
    shapes = collections.defaultdict(list)
    for path, text in texts:
        if "_tests/" in path:
            continue
        text = re.sub(r"//.*|^ *ghost use .*", "", text, flags=re.M)
        for found in re.finditer(r"^( *)(?:pub(?:\(crate\))? )?(?:fn|struct|enum|impl)\b.*?^\1\}$", text, re.M | re.S):
            body = re.sub(r"(requires|ensures)[^\n]*", "", found[0])
            shape = re.sub(r"\s+", "", re.sub(r"\b(?!(?:fn|struct|enum|impl|let|match|if|else|for|in|return)\b)\w+", "x", body))
            if len(shape) > 45:
                name = re.search(r"(?:fn|struct|enum|impl)[^({]*", found[0])[0].strip()
                shapes[shape].append(f"{path}: {name}")
    for names in shapes.values():
        if len(names) > 1:
            yield 2, "alike but for names, types and numbers", " | ".join(names)


def repeated(texts):
    """Facts that three functions of a crate or more require, and pairs of parameters of three functions or more."""
    facts, pairs = collections.defaultdict(set), collections.defaultdict(set)
    for path, text in texts:
        crate = path.split("/")[0]
        for name, inside in re.findall(r"\bfn (\w+)[^(]*\(([^)]*)\)", text):
            names = [p.split(":")[0].replace("mut ", "").strip() for p in inside.replace("\n", " ").split(",") if ":" in p]
            for pair in itertools.combinations(names, 2):
                pairs[crate, *pair].add(name)
        name = None
        for line in text.splitlines():
            name = (re.search(r"\bfn (\w+)", line) or [None, name])[1]
            fact = re.match(r"\s*requires\s*(?:\w+ )?\{ (.*) \}$", line)
            if fact:
                facts[crate, re.sub(r"\.(old|now|entry|new)", "", fact[1])].add(name)
    for key, names in sorted(facts.items()):
        if len(names) >= 3:
            yield 5, "facts required three times", f"{key[0]}: {key[1]}: {', '.join(sorted(names))}"
    for key, names in sorted(pairs.items()):
        if len(names) >= 3:
            yield 5, "parameters that travel together", f"{key[0]}: {key[1]}, {key[2]}: {', '.join(sorted(names))}"


def proofs(commit):
    for path, text in files(commit, "proofs", ".antt"):
        for name in re.findall(r"^pub ([\w-]+) : goal\.", text, re.M):
            yield 8, "answers written by hand", f"{path}: {name}"
        for line in text.splitlines():
            yield 8, "lines of proofs", f"{path}: {line}"


def main():
    commit = sys.argv[1]
    wanted = int(sys.argv[2]) if len(sys.argv) > 2 else None
    texts = list(files(commit, "src", ".rt"))
    found = [*by_pattern(texts), *twins(texts), *repeated(texts), *proofs(commit)]
    counts = collections.Counter((point, title) for point, title, _ in found)
    for (point, title), count in sorted(counts.items()):
        if wanted in (None, point):
            print(f"{point} {title}: {count}")
            if wanted and title != "lines of proofs":
                print("".join(f"    {place}\n" for p, t, place in found if (p, t) == (point, title)), end="")


if __name__ == "__main__":
    main()
