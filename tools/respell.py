#!/usr/bin/env python3
"""Brings this repository's own definitions and lemmas to snake case, and types to camel case: `track-at` becomes `track_at`.

usage: python3 tools/respell.py [--dry]     at the top of the repository, once, after the kit's port.py

A name is own if a file of specs/ or a lemma file of proofs/ declares it (files of goals, Answers.antt and Invariants.antt, declare names
that the kit makes, which stay). It is respelled in every .antt file, in the clauses of .rt files, in edits that must fail, and in what
Markdown files put between backticks. A name that would fall together with another, of the library or
our own, gets `_lem` after it and is reported.
"""
import glob
import re
import sys

WORD = r"[^\s(){}\[\],;.:«»\"`]+"
DECLARED = re.compile(r"^\s*(?:(?:abbrev|unfoldable|pub|data|record|private)\s+)*(" + WORD + r"(?:\s+" + WORD + r")*)\s+:\s")
KEYWORDS = {"abbrev", "unfoldable", "pub", "data", "record", "private", "use", "let", "in", "where", "module", "elim", "λ"}
GOALS = re.compile(r"/(Answers|Choices|Invariants|Proof)\.antt$")


def read(path):
    with open(path, encoding="utf-8") as f:
        return f.read()


def found(pattern):
    return sorted(p for p in glob.glob(pattern, recursive=True) if "/out/" not in p)


def declared(text):
    for line in text.split("\n"):
        m = DECLARED.match(line)
        if m and not line.lstrip().startswith("--"):
            for name in m.group(1).split():
                if name not in KEYWORDS:
                    yield name


def from_library(text):
    """The names that a file takes from elsewhere than this repository's crates."""
    for path, names in re.findall(r"use\s+([\w.·+'-]+)\.\{([^}]*)\}", text):
        own = re.match(r"Rattle\.(\w+)\.", path)
        if not (own and own.group(1) in CRATES):
            for one in names.split(","):
                yield one.strip().split(" as ")[0].strip()


CRATES = {p.split("/")[1] for p in glob.glob("crates/*/src")}


def main():
    dry = "--dry" in sys.argv
    antt = [p for p in found("crates/**/*.antt") if "/specs/" in p or "/proofs/" in p]
    rust = found("crates/*/src/**/*.rt")
    names, taken = set(), set()
    every = set()
    for path in antt + rust:
        text = read(path)
        taken |= set(from_library(text))
        if path.endswith(".antt"):
            every |= set(re.findall(WORD, text))
            if not GOALS.search(path):
                names |= {n for n in declared(text)}
            else:
                # helper lemmas beside answers: what is not typed by a goal
                for line in text.split("\n"):
                    m = re.match(r"^(?:(?:abbrev|unfoldable|pub)\s+)*(" + WORD + r")\s+:\s+(?!goal\.)", line)
                    if m and not line.startswith(" "):
                        names.add(m.group(1))
    old = sorted(n for n in names if "-" in n.strip("-") and not n.startswith("-"))
    turned = {}
    for n in old:
        new = n.replace("-", "_") if not n[0].isupper() else "".join(part[0].upper() + part[1:] for part in n.split("-"))
        if n in taken:
            print(f"stays, the library has it: {n}")
        elif new in taken or new in names:
            print(f"falls together: {n}: {new} is there already, so it becomes {new}_lem")
            turned[n] = new + "_lem"
        else:
            turned[n] = new
    back = {}
    for n, new in turned.items():
        if new in back:
            print(f"falls together: {n} and {back[new]}")
        back[new] = n
    print(f"{len(turned)} names")

    def token(m):
        word = m.group(0)
        return turned.get(word, word)

    def turn(text):
        return re.sub(WORD, token, text)

    def turn_code(text):
        """Clauses of a source: all but comments and string literals."""
        out = []
        for line in text.split("\n"):
            cut = re.match(r"^(.*?)(//.*)$", line) if not re.search(r'"[^"]*//', line) else None
            code, rest = (cut.group(1), cut.group(2)) if cut else (line, "")
            parts = re.split(r'(b?"(?:[^"\\]|\\.)*")', code)
            out.append("".join(p if k % 2 else turn(p) for k, p in enumerate(parts)) + rest)
        return "\n".join(out)

    def turn_antt(text):
        out = []
        for line in text.split("\n"):
            out.append(line if line.lstrip().startswith("--") else turn(line))
        return "\n".join(out)

    def turn_page(text):
        return re.sub(r"`[^`\n]+`", lambda m: turn(m.group(0)), text)

    jobs = [(p, turn_antt) for p in antt] + [(p, turn_code) for p in rust + found("crates/*/must-fail/*.edit")]
    jobs += [(p, turn_page) for p in ["README.md"] + found("docs/*.md")]
    changed = 0
    for path, how in jobs:
        text = read(path)
        new = how(text)
        if new != text:
            changed += 1
            if not dry:
                with open(path, "w", encoding="utf-8") as f:
                    f.write(new)
    print(f"{changed} files")


main()
