#!/usr/bin/env python3
"""Respells the repository's own definitions and lemmas as today's Rattle spells names: after port.py, once.

usage: tools/respell.py [--list]

Functions, lemmas and constructors become snake case (ageOf: age_of); what gives a type becomes camel case (byRole: ByRole). A name is turned wherever it stands as a
whole word: in specs/ and proofs/, in clauses and comments of src/, in edits and in pages. Names of Rust items, exported C names and strings have no such form and stay.
'result' is a word of clauses today, so crate number's result is operation_result. --list writes nothing and prints the names with what they become.
"""
import glob
import os
import re
import sys

ROOT = os.getcwd()
TOKEN = re.compile(r"[\w'′]+(?:[-·][\w'′]+)*")
# lemmas that would have their function's name
LEMMAS = {"same_word": "same_word_lem", "own_name": "own_name_lem", "front_of": "front_of_lem"}
# definitions that give a type
TYPES = {"aliveBy": "AliveBy", "byRole": "ByRole"}


def files(*patterns):
    for pattern in patterns:
        for path in sorted(glob.glob(os.path.join(ROOT, pattern), recursive=True)):
            if "/out/" not in path and "/target/" not in path:
                yield path


def read(path):
    with open(path, encoding="utf-8") as f:
        return f.read()


def snake(name):
    return re.sub(r"([a-z0-9])([A-Z])", r"\1_\2", name).lower()


def words(name):
    return [p for p in re.split(r"[-·]", name)]


def humped(part):
    return bool(re.search(r"[a-z0-9][A-Z]", part)) and part[0].islower()


def renamed():
    """The humped words of declared names, with what they become."""
    found = dict(TYPES)
    for path in files("crates/*/specs/**/*.antt", "crates/*/proofs/**/*.antt"):
        for m in re.finditer(r"(?m)^[^\n]*?(?:^|[\s({;])([a-z][\w'′-]*(?: [a-z][\w'′-]*)*)\s*:(?=\s)", read(path)):
            for name in m.group(1).split():
                for part in words(name):
                    if humped(part):
                        found.setdefault(part, snake(part))
        for m in re.finditer(r"(?m)^\s*([a-z][\w'′-]*)(?= [^:\n]*=)", read(path)):
            for part in words(m.group(1)):
                if humped(part):
                    found.setdefault(part, snake(part))
    return found


def turned(text, names):
    def of(m):
        token = m.group(0)
        return re.sub(r"[\w'′]+", lambda p: names.get(p.group(0), p.group(0)), token)

    return TOKEN.sub(of, text)


RESULT = re.compile(r"(?<![\w.'-])result(?![\w'-])")


def own_result(path, text):
    """Crate number's result, where a file is it or imports it."""
    if path.endswith(".antt"):
        if not (path.endswith("number/specs/Number.antt") or re.search(r"Number\.\{[^}]*\bresult\b", text)):
            return text
        lines = text.split("\n")
        for i, line in enumerate(lines):
            code, dash, comment = line.partition("--")
            lines[i] = RESULT.sub("operation_result", code) + dash + comment
        return "\n".join(lines)
    if path.endswith(".rt"):
        if not re.search(r"Number\.\{[^}]*\bresult\b", text):
            return text
        text = re.sub(r"(Number\.\{[^}]*)\bresult\b", r"\1operation_result", text)
        return re.sub(r"(?<![\w.'-])result(?= \(operatorOf)", "operation_result", text)
    if path.endswith(".edit"):
        target = re.search(r"(?m)^file: *(\S+)", text)
        if not target:
            return text
        crate = os.path.join(ROOT, "crates", os.path.basename(os.path.dirname(path))) if "/tests/wrong/" in path else os.path.dirname(os.path.dirname(path))
        at = os.path.join(crate, target.group(1))
        if not os.path.exists(at) or not at.endswith(".antt"):
            return text
        if not (at.endswith("number/specs/Number.antt") or re.search(r"Number\.\{[^}]*\b(result|operation_result)\b", read(at))):
            return text
        lines = text.split("\n")
        for i, line in enumerate(lines):
            if line.startswith(("old:", "new:")):
                lines[i] = RESULT.sub("operation_result", line)
        return "\n".join(lines)
    return text


def own_lemmas(path, text):
    """The lemmas of LEMMAS, where no function of the source is meant."""
    if not path.endswith(".antt"):
        return text
    return re.sub(r"(?<![\w.'-])(" + "|".join(LEMMAS) + r")(?![\w.'-])", lambda m: LEMMAS[m.group(1)], text)


def main():
    names = renamed()
    if "--list" in sys.argv:
        for old, new in sorted(names.items()):
            print(old, new)
        return
    # edits first: they look at the files as they stand
    for path in files("crates/*/must-fail/*.edit", "tests/wrong/**/*.edit", "crates/*/specs/**/*.antt", "crates/*/proofs/**/*.antt", "crates/*/src/**/*.rt", "crates/*/README.md", "docs/**/*.md", "README.md"):
        old = read(path)
        new = turned(own_lemmas(path, own_result(path, old)), names)
        if new != old:
            with open(path, "w", encoding="utf-8") as f:
                f.write(new)


main()
