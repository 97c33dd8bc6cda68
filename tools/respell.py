#!/usr/bin/env python3
"""Brings the names of this repository's own definitions and lemmas to one spelling.

usage: python3 tools/respell.py [--list]     at the top of the repository; --list only prints old and new names

Facts, theorems, types and modules are in camel case (TheLineHasNoOtherVerdict), everything else in snake case
(length_parts). What is defined in the folders specs/ and proofs/ of the crates is renamed, wherever it is cited: there,
in the clauses of src/, in the must-fail edits and, for names in camel case or of theorems, in the pages. Names that the
prover makes (of goals, and of what a contract reads of the code) and names of the standard library stay.
"""

import os
import re
import sys

# A name: antt's letters, with dashes, primes and underscores.
NAME = re.compile(r"[A-Za-z_][A-Za-z0-9_'′]*(?:-[A-Za-z0-9_'′]+)*")
SIGNATURE = re.compile(r"^\s*(?:abbrev |unfoldable )?(?:pub )?(?:abbrev |unfoldable )?(?:record |data )?(" + NAME.pattern + r")(?=[\s:({])[^=]*?:\s+(.*)")
LOCAL = re.compile(r"\blet (" + NAME.pattern + r")\b")
BOUND = re.compile(r"\(((?:" + NAME.pattern + r"\s+)*" + NAME.pattern + r")\s+:")
FIELD = re.compile(r"^\s*pub (" + NAME.pattern + r") :")
WORDS = {"use", "open", "module", "mutual", "in", "let"}
# Names that would fall together with another.
APART = {"no-rig": "no_rig_past", "turns-waited": "turns_are_excess"}


def files(root, folders, endings):
    for folder, dirs, names in os.walk(root):
        dirs[:] = sorted(d for d in dirs if d not in ("out", ".git"))
        for name in sorted(names):
            path = os.path.join(folder, name)
            if name.endswith(endings) and (not folders or any(f in path.split(os.sep) for f in folders)):
                yield path


def read(path):
    with open(path, encoding="utf-8") as f:
        return f.read()


def spelled(name):
    """The name in its new spelling."""
    if name in APART:
        return APART[name]
    if name[0].isupper():
        return "".join(part[0].upper() + part[1:] for part in name.split("-"))
    name = re.sub(r"(?<=[a-z0-9])([A-Z])(?=[a-z])", lambda m: "_" + m.group(1).lower(), name)
    return name.replace("-", "_")


def own_names(root):
    """The names that the repository defines, but for answers, which the prover names."""
    found = set()
    for path in files(os.path.join(root, "crates"), ("specs", "proofs"), ".antt"):
        for line in read(path).splitlines():
            line = line.split("--")[0] if line.lstrip().startswith("--") else line
            m = SIGNATURE.match(line)
            if m and m.group(1) not in WORDS and not m.group(2).startswith("goal."):
                found.add(m.group(1))
            m = FIELD.match(line)
            if m and "goal." not in line:
                found.add(m.group(1))
            found.update(LOCAL.findall(line))
            for group in BOUND.findall(line):
                found.update(group.split())
    return found


def table(root):
    old = own_names(root)
    answers = set()
    for path in files(os.path.join(root, "crates"), ("proofs",), ".antt"):
        answers.update(re.findall(r"goal\.(" + NAME.pattern + ")", read(path)))
    imported = set()
    for path in files(os.path.join(root, "crates"), ("specs", "proofs", "src"), (".antt", ".rt")):
        for line in re.findall(r"use Rattle\.std\.[\w.]*\.\{([^}]*)\}", read(path)):
            imported.update(part.split(" as ")[0].strip() for part in line.split(","))
    return {n: spelled(n) for n in old if spelled(n) != n and n not in answers and n not in imported}


def late(text, own):
    """Names in a text that still have an old spelling, though the definitions have the new one already."""
    return {n: spelled(n) for n in NAME.findall(text) if n not in own and spelled(n) != n and spelled(n) in own}


def respell(text, names):
    return NAME.sub(lambda m: names.get(m.group(0), m.group(0)), text)


def respell_source(text, names, mark):
    """Comments keep their words: there only theorems, which no sentence would spell so, are renamed."""
    lines = []
    for line in text.split("\n"):
        code, comment = line, ""
        m = re.match(r"^(.*?)(" + mark + r".*)$", line)
        if m and m.group(1).count('"') % 2 == 0:
            code, comment = m.group(1), m.group(2)
        lines.append(respell(code, names) + respell(comment, shown(names)))
    return "\n".join(lines)


def shown(names):
    """Names that a page or a comment can only mean as names."""
    return {n: s for n, s in names.items() if n[0].isupper() or re.search("[a-z][A-Z]", n)}


def main(argv):
    root = "."
    names = table(root)
    if "--list" in argv:
        for n in sorted(names):
            print(n, names[n])
        return 0
    together = {}
    for n, s in names.items():
        together.setdefault(s, []).append(n)
    taken = own_names(root)
    for s, group in sorted(together.items()):
        if len(group) > 1 or s in taken:
            print("falls together:", s, *sorted(group), "(taken)" if s in taken else "")
    for path in files(root, (), (".antt", ".rt", ".edit", ".md")):
        text = read(path)
        if path.endswith(".antt"):
            new = respell_source(text, names, "--(?=[ ]|$)")
        elif path.endswith(".rt"):
            new = respell_source(text, names, "//")
        elif path.endswith(".edit"):
            new = respell(text, late(text, taken) | names)
        else:
            new = respell(text, shown(late(text, taken) | names))
        if new != text:
            with open(path, "w", encoding="utf-8") as f:
                f.write(new)
    return 0


if __name__ == "__main__":
    raise SystemExit(main(sys.argv[1:]))
