#!/usr/bin/env python3
"""Brings this repository's own definitions and lemmas to snake case: a dash or a prime in a name of its own goes.

usage: tools/respell.py [--list]     at the top of the repository, after port.py

Names are those that specs/ and proofs/ declare (definitions, lemmas, record fields, constructors). Names that Rattle makes for
goals, and names of the library, keep their dashes. Comments and strings are left alone. Names that would fall together with another
are given the spelling in FALLS.
"""

import os
import re
import sys

WORD = re.compile(r"[A-Za-zμΑ-Ωα-ω_][A-Za-z0-9_'′μΑ-Ωα-ω₀-₉]*(?:-[A-Za-z0-9_'′μΑ-Ωα-ω₀-₉*+≡≤<]+)*")
HEAD = re.compile(r"^(\s*)(?:abbrev |unfoldable )?(?:pub )?(?:abbrev |unfoldable )?(?P<names>[^\s:(){}=]+(?: [^\s:(){}=]+)*) : ")
LIBRARY = re.compile(r"use (?:Rattle\.std|Rattle\.core|Prim|borrow|mathlib|logic|native|lib|denote)\b[^{]*(?:\.\{([^}]*)\})?")
MADE = {"Answers.antt", "Invariants.antt", "Proof.antt", "Choices.antt"}

# old name: new name, where changing the dash alone would make two names one
FALLS = {"steps-done": "steps_done_of"}


def files(root, endings):
    for folder, dirs, names in os.walk(os.path.join(root, "crates")):
        dirs[:] = sorted(d for d in dirs if d not in ("out", ".git"))
        for n in sorted(names):
            if n.endswith(endings):
                yield os.path.join(folder, n)


def code_parts(line, comment):
    """The line as parts (text, whether it is code): comments and strings are not."""
    parts, at, i, quoted = [], 0, 0, False
    while i < len(line):
        if line[i] == '"':
            parts.append((line[at:i], not quoted))
            at, quoted = i, not quoted
        elif not quoted and line.startswith(comment, i) and (comment == "//" or i == 0 or line[i - 1] in " \t"):
            parts.append((line[at:i], True))
            parts.append((line[i:], False))
            return parts
        i += 1
    parts.append((line[at:], not quoted))
    return parts


def declared(root):
    own, library, made = set(), set(), set()
    for p in files(root, (".antt", ".rt")):
        name = os.path.basename(p)
        with open(p, encoding="utf-8") as f:
            text = f.read()
        for line in text.split("\n"):
            if re.match(r"\s*(ghost )?use ", line):
                own.update(n for n in re.findall(r" as ([^\s,};]+)", line) if "-" in n or "′" in n)
        if p.endswith(".rt"):
            continue
        for m in LIBRARY.finditer(text):
            for n in (m.group(1) or "").split(","):
                library.add(n.strip().split(" as ")[0])
        for line in text.split("\n"):
            line = "".join(t for t, code in code_parts(line, "--") if code)
            m = HEAD.match(line)
            if not m:
                continue
            for n in m.group("names").split():
                if "-" not in n and "′" not in n:
                    continue
                if name in MADE and re.search(r": (goal|given|need)\.", line):
                    made.add(n)
                elif WORD.fullmatch(n):
                    own.add(n)
    return own, library, made


def new_name(n):
    return FALLS.get(n, n.replace("-", "_").replace("′", "'"))


def rust_names(root):
    found = {}
    for p in files(root, ".rt"):
        with open(p, encoding="utf-8") as f:
            for line in f:
                code = line.split("//")[0]
                if re.match(r"\s*(ghost|requires|ensures)\b", code):
                    continue
                for n in re.findall(r"[A-Za-z_][A-Za-z0-9_]*", code):
                    found.setdefault(n, set()).add(os.path.relpath(p, root))
    return found


def main(argv):
    root = os.getcwd()
    own, library, made = declared(root)
    for n in sorted(own & library):
        print(f"also the library's: {n}")
    for n in sorted(own & made):
        print(f"also made by Rattle: {n}")
    turn = {n: new_name(n) for n in own - library - made}
    # names that are there already
    there = set()
    for p in files(root, ".antt"):
        with open(p, encoding="utf-8") as f:
            for line in f:
                for t, code in code_parts(line, "--"):
                    if code:
                        there.update(WORD.findall(t))
    for old, new in sorted(turn.items()):
        if new in there:
            print(f"falls together: {old} with {new}")
    rust = rust_names(root)
    for old, new in sorted(turn.items()):
        if new in rust:
            print(f"a name of src/ too: {old}: {' '.join(sorted(rust[new]))[:200]}")
    values = {}
    for old, new in turn.items():
        values.setdefault(new, []).append(old)
    for new, olds in sorted(values.items()):
        if len(olds) > 1:
            print(f"fall together: {olds} as {new}")
    if "--list" in argv:
        return 0
    changed = 0
    for p in files(root, (".antt", ".rt")):
        comment = "--" if p.endswith(".antt") else "//"
        with open(p, encoding="utf-8") as f:
            text = f.read()
        out = []
        for line in text.split("\n"):
            out.append("".join(WORD.sub(lambda m: turn.get(m.group(0), m.group(0)), t) if code else t for t, code in code_parts(line, comment)))
        new = "\n".join(out)
        if new != text:
            changed += 1
            with open(p, "w", encoding="utf-8") as f:
                f.write(new)
    print(f"{len(turn)} names, {changed} files")
    return 0


if __name__ == "__main__":
    sys.exit(main(sys.argv[1:]))
