#!/usr/bin/env python3
"""Respells the repository's own definitions, lemmas and fields: words in snake case, facts and types in camel case.

usage: python3 tools/respell.py [--list]      at the top of the repository, once, after port.py

Turned are the names with a dash that specs/ and proofs/ declare; what Rattle or its library names keeps its spelling:
the goals, invariants and measures of a function, and each name that a file imports from Rattle's own library.
Clauses and must-fail edits follow, and so do the names between backticks in README.md and docs/.
Functions of src/, strings, inputs and outputs have no dash in their names and stay as they are.
--list writes each old and new name, and changes nothing.
"""
import glob
import re
import subprocess
import sys

STOPS = r"\s(){};,.«»⟦⟧⌜⌝`"
GENERATED = re.compile(
    r"(returns|loop|invariant|decreases|bounds|slice_bounds|overflow_\w+|nonzero_\w+|prove|invariant_of|ghosts?|then|else|in_ok|in_err|if|match)(-.*)?$"
    r"|.*-(requires|ensures|preserved|init|smaller)(-.*)?$"
)


def read(path):
    with open(path, encoding="utf-8") as f:
        return f.read()


def sources(*patterns):
    return sorted(p for pattern in patterns for p in glob.glob(pattern, recursive=True) if "/out/" not in p)


def respelled(name):
    """snake case, or camel case where the name is a fact's or a type's"""
    words = name.split("-")
    if name[0].isupper():
        return "".join(w[:1].upper() + w[1:] for w in words)
    return "_".join(words).lower()


def declared(paths):
    """the names with a dash that a line of these files declares"""
    word = rf"[^{STOPS}λ:=]+"
    line_of = re.compile(rf"^\s*(?:abbrev |unfoldable )?(?:pub )?(?:abbrev |unfoldable )?(?:record |data |ruleset )?({word}(?: {word})*?)\s*(?::|\(|\{{|=)")
    of_goal = re.compile(r"goal\.(\S+)")
    names = set()
    for path in paths:
        for line in read(path).splitlines():
            m = line_of.match(line)
            if m is None or line.lstrip().startswith("--"):
                continue
            goals = set(of_goal.findall(line))
            for name in m.group(1).split():
                if "-" in name.strip("-") and name not in goals and not GENERATED.match(name):
                    names.add(name)
    return names


def of_library(text):
    """the names that a file has from Rattle's library or from what Rattle makes of a function"""
    names = set()
    for m in re.finditer(r"use Rattle\.(std\.[^{;\n]*|\w+\.proofs\.[^{;\n]*\.(?:Goals|Given|Tie)[^{;\n]*)\.\{([^}]*)\}", text):
        names |= {n.split(" as ")[-1].strip() for n in m.group(2).split(",")} | {n.split(" as ")[0].strip() for n in m.group(2).split(",")}
    return names


def aliases(paths):
    """the names with a dash that a file gives to what it imports"""
    names = set()
    for path in paths:
        names |= {n for n in re.findall(rf" as ([^{STOPS}]+)", read(path)) if "-" in n}
    return names


def bound(paths):
    """the names with a dash that a lemma binds"""
    names = set()
    for path in paths:
        for line in read(path).splitlines():
            if line.lstrip().startswith("--"):
                continue
            for m in re.finditer(rf"(?:λ |[({{]|let )((?:[^{STOPS}:=]+ )*[^{STOPS}:=]+)(?: :|\.| =)", line):
                names |= {n for n in m.group(1).split() if re.fullmatch(r"[a-zA-Z]\w*(-\w+)+", n) and not GENERATED.match(n)}
    return names


def turned(text, names, kept):
    def one(m):
        return names.get(m.group(0), m.group(0)) if m.group(0) not in kept else m.group(0)
    return re.sub(rf"(?<![^{STOPS}])[^{STOPS}]+-[^{STOPS}]+", one, text)


def outside_comments(text, mark, names, kept):
    lines = []
    for line in text.split("\n"):
        at = line.find(mark)
        code, rest = (line, "") if at < 0 else (line[:at], line[at:])
        rest = re.sub(r"`[^`]*`", lambda m: turned(m.group(0), names, set()), rest)
        lines.append(turned(code, names, kept) + rest)
    return "\n".join(lines)


def main():
    antt = sources("crates/*/specs/**/*.antt", "crates/*/proofs/**/*.antt")
    rt = sources("crates/*/src/**/*.rt")
    edits = sources("crates/*/must-fail/*.edit")
    pages = [p for p in sources("README.md", "docs/*.md") if not p.endswith(("docs/PORT.md", "docs/PORT-OTHER.md"))]
    own = declared(antt) | aliases(antt + rt) | bound(antt)
    names = {n: respelled(n) for n in own}
    pages_names = dict(names)

    # what port.py turned already: pages still have the old spelling
    for path in antt:
        for n in re.findall(rf"(?<![^{STOPS}])[A-Za-z]\w*_\w+", read(path)):
            pages_names.setdefault(n.replace("_", "-"), n)

    # names that fall together
    old = {}
    for n, new in sorted(names.items()):
        old.setdefault(new, []).append(n)
    for path in antt:
        words = set(re.findall(rf"(?<![^{STOPS}])[^{STOPS}]+", "\n".join(l.split("--")[0] if not l.startswith("--") else "" for l in read(path).splitlines())))
        for n in sorted(words & set(names)):
            if names[n] in words:
                print(f"falls together: {path}: {n} and {names[n]}", file=sys.stderr)
    for new, ns in old.items():
        if len(ns) > 1:
            print(f"falls together: {ns} as {new}", file=sys.stderr)
    if "--list" in sys.argv:
        for n in sorted(names):
            print(n, names[n])
        return

    for path in antt + rt + edits + pages:
        text = read(path)
        if path.endswith(".antt"):
            new = outside_comments(text, "--", names, of_library(text))
        elif path.endswith(".rt"):
            new = outside_comments(text, "//", names, of_library(text))
        elif path.endswith(".edit"):
            new = turned(text, names, set())
        else:
            new = re.sub(r"`[^`\n]+`", lambda m: turned(m.group(0), pages_names, set()), text)
        if new != text:
            with open(path, "w", encoding="utf-8") as f:
                f.write(new)


if __name__ == "__main__":
    main()
