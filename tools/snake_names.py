#!/usr/bin/env python3
"""Spells the repository's own definitions and lemmas as PORTING.md, part 3, asks: words in snake case, types and modules in camel case.

usage: python3 tools/snake_names.py [--dry]      at the top of the repository, once, right after port.py

A name that would fall together with a definition's gets `_lem` (the lemma, never the definition), and the two constructors of
`Form` are words with the type's name in them, since `sheet` and `table` are variables almost everywhere. An alias with a middle dot
in a clause becomes the definition's own name. Functions, exported names, strings, inputs and outputs are left alone: in a .rt file
only `ghost use` lines and clauses are read.
"""

import os
import re
import sys

# What a name is made of in antt: everything but spaces, brackets and punctuation. A projection's dot ends a name.
NAME = re.compile(r"[^\s(){}\[\],;.:=λ]+")
TOP = re.compile(r"^(?:(?:abbrev|unfoldable|pub)\s+)*([^\s:(){}=,]+)(?:\s*\{[^}]*\})?\s*:(?!:)")
FIELD = re.compile(r"^\s+(?:(?:abbrev|unfoldable|pub)\s+)*([^\s:(){}=,]+)\s*:(?!:)")
CAPITAL = {"Sheet": "sheet_form", "Table": "table_form", "on-bytes": "bytes_laws"}
# port.py spelled these two lemmas before their definitions, which keep the plain name.
SPELLED = {"node_at": "node_at_lem", "step_count": "step_count_lem"}
SPELLED_IN = os.path.join("crates", "demands", "proofs", "OneAnswer.antt")


def files(ending):
    for folder, dirs, names in os.walk("crates"):
        dirs[:] = sorted(d for d in dirs if d != "out")
        for name in sorted(names):
            if name.endswith(ending):
                yield os.path.join(folder, name)


def snake(name):
    name = name.replace("-", "_")
    return re.sub(r"([a-z0-9])([A-Z]+)", lambda m: m[1] + "_" + m[2].lower(), name)


def odd(name):
    return not name[0].isupper() and ("-" in name or re.search(r"[a-z0-9][A-Z]", name)) and "◌" not in name


def defined():
    """Each name that a file of specs/ or proofs/ defines, with whether specs/ has it; goals of generated modules are no names of ours."""
    found = {}
    for path in files(".antt"):
        inside = False
        for line in open(path, encoding="utf-8"):
            line = re.sub(r"--.*", "", line.rstrip())
            if re.match(r"^\s*(pub\s+)?(record|data|module)\s", line):
                inside = True
                continue
            if line and not line[0].isspace():
                inside = False
            if re.match(r"^(use|pub use)\b", line):
                for alias in re.findall(r" as ([^\s,}]+)", line):
                    found.setdefault(alias, set()).add("proofs")
            if re.match(r"^(use|pub use|mod|pub mod|open|unfolding)\b", line):
                continue
            match = FIELD.match(line) if inside else TOP.match(line)
            if not match or re.search(r"\b(tie|goal)\.|\bstatement\b", line):
                continue
            found.setdefault(match[1], set()).add("specs" if "/specs/" in path else "proofs")
    return found


def names():
    found = defined()
    taken = {snake(n) for n, where in found.items() if "specs" in where and not n[0].isupper()}
    turned = {}
    for name in sorted(found, key=lambda n: ("specs" not in found[n], "-" in n, n)):
        if not odd(name):
            continue
        new = snake(name)
        lemma = "specs" not in found[name]
        if (lemma and new in taken) or (new in found and new not in SPELLED) or new in turned.values():
            new += "_lem"
        turned[name] = new
    turned.update(CAPITAL)
    return turned


def turn(text, turned):
    def one(match):
        word = match[0]
        return turned.get(word, word)

    out = []
    for line in text.split("\n"):
        code, dash, comment = line.partition("-- ") if not line.startswith("--") else ("", "", line)
        code = NAME.sub(one, code)
        # In a comment only names that cannot be English words.
        comment = NAME.sub(lambda m: turned.get(m[0], m[0]) if re.search(r"[a-z][A-Z]", m[0]) else m[0], comment)
        comment = re.sub(r"`([^`]+)`", lambda m: "`" + NAME.sub(one, m[1]) + "`", comment)
        out.append(code + dash + comment)
    return "\n".join(out)


def turn_rt(text, turned):
    """Only `ghost use` lines and clauses."""
    text = re.sub(r"ghost use [^;]*;", lambda m: turn(re.sub(r"([\w]+) as \w+·\1\b", r"\1", m[0]), turned), text)
    out, at = [], 0
    for match in re.finditer(r"^[ \t]+(?:requires|ensures)\b[^{\n]*\{", text, re.M):
        if match.start() < at:
            continue
        depth, end = 1, match.end()
        while depth:
            depth += {"{": 1, "}": -1}.get(text[end], 0)
            end += 1
        clause = re.sub(r"\b\w+·(\w+)", r"\1", text[match.end():end])
        out += [text[at:match.end()], turn(clause, turned)]
        at = end
    return "".join(out) + text[at:]


def main():
    dry = "--dry" in sys.argv
    turned = names()
    if dry:
        for old, new in sorted(turned.items()):
            print(old, new)
    lines = 0
    for path in [*files(".antt"), *files(".rt")]:
        text = open(path, encoding="utf-8").read()
        mine = turned | SPELLED if path == SPELLED_IN and "nodeAt" in text else turned
        new = (turn if path.endswith(".antt") else turn_rt)(text, mine)
        # A name of another library under one of ours, or two names of one file that fall together.
        for use in re.finditer(r"^(?:pub )?use (?!Rattle\.(?!std\b))([^{\n]*)\{([^}]*)\}", text, re.M):
            hit = [n.strip() for n in use[2].split(",") if n.strip() in turned]
            if hit:
                print(f"look: {path}: {hit} of {use[1]}")
        words = set(NAME.findall(text))
        for word in words & set(turned):
            if turned[word] in words:
                print(f"look: {path}: {word} and {turned[word]} fall together")
        if new != text:
            lines += sum(a != b for a, b in zip(text.split("\n"), new.split("\n")))
            if not dry:
                open(path, "w", encoding="utf-8").write(new)
    print(f"{len(turned)} names, {lines} lines")


main()
