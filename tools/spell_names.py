#!/usr/bin/env python3
"""Brings the repository's own names in specs/ and proofs/ to today's spelling: words in snake case.

usage: tools/spell_names.py [--list] at the top of the repository, once, after port.py (docs/PORT.md names the commit)

Each name that a file of specs/ or proofs/ declares (definition, lemma, field, constructor) and that has a dash or a capital
inside is written in snake case, wherever it stands as a whole word: in specs/, proofs/, the contracts of src/, the texts of
must-fail edits, and between backquotes in the pages. Types and modules keep their names. So do labels of goals and steps of the code, which
Rattle makes: in a function's own proof, words after a dot are left alone unless they are fields that we declare.
--list prints the old and new names, and those that would fall together, and writes nothing.
"""
import collections
import glob
import re
import sys

WORD = r"[^\s(){}\[\];,.«»`\\:|@\"]+"
DECLARED = re.compile(r"^(\s*)(?:(?:abbrev|unfoldable|pub)\s+)*(" + WORD + r")(?:\s+\{[^}]*\})?\s+:\s")
TYPE = re.compile(r"^\s*(?:pub\s+)?(?:data|record)\s+(" + WORD + ")")


# Lemmas that would get the name of the definition that they are about.
APART = ["cost-line", "cost-word", "field_is", "is-empty", "kit-of", "kit-word", "load_word", "result-of", "sheet-of", "size_word", "swap-word", "table-of"]
# The same where a file keeps the lemma to itself.
OWN = {"crates/sheet/proofs/Blocks.antt": ["swap_line"]}
# Names of ours that the library has too, spelled with a dash, so that it is told by the file whose they are.
OURS = {"crates/laws/specs/Fill.antt": ["append-nil"], "crates/sheet/proofs/Blocks.antt": ["take-add"], "crates/records/proofs/Stores.antt": ["map-append"]}


def snake(name):
    """The name in snake case; one that begins with a type's name stays."""
    if name[0].isupper():
        return re.sub(r"-([a-z])", lambda m: m[1].upper(), name)
    if name in APART:
        return name.replace("-", "_") + "_lem"
    name = re.sub(r"(?<=[a-z0-9])(?=[A-Z])", "_", name).replace("-", "_").replace("′", "'")
    return name.lower() if name.isascii() else re.sub("[A-Z]", lambda m: m.group().lower(), name)


def antt():
    return sorted(glob.glob("crates/*/specs/**/*.antt", recursive=True) + glob.glob("crates/*/proofs/**/*.antt", recursive=True))


def declared():
    """The names declared, with the files; and those of them that are fields or constructors."""
    names, inner = collections.defaultdict(set), set()
    for path in antt():
        for line in open(path, encoding="utf-8"):
            m = DECLARED.match(line)
            if m and m[2] in OWN.get(path, []) + OURS.get(path, []):
                continue
            if m:
                names[m[2]].add(path)
                if m[1]:
                    inner.add(m[2])
            m = TYPE.match(line)
            if m:
                names[m[1]].add(path)
    return names, inner


def respell(text, table, walk, inner):
    def one(m):
        word = m[0]
        if word not in table:
            return word
        if walk and m.start() and text[m.start() - 1] == "." and word not in inner:
            return word
        return table[word]

    return re.sub(WORD, one, text)


def page(text, table):
    return re.sub(r"`[^`\n]+`", lambda m: respell(m[0], table, False, set()), text)


def main():
    if glob.glob("crates/*/proofs/*/Answers.antt"):
        raise SystemExit("the proofs have answers, whose labels this would respell: it ran once, before there were any (docs/PORT.md)")
    names, inner = declared()
    table = {n: snake(n) for n in names if snake(n) != n and not n.startswith("◌")}
    fall = collections.defaultdict(set)
    for n in names:
        fall[snake(n)].add(n)
    if "--list" in sys.argv:
        for n in sorted(table):
            print(n, "->", table[n])
        for new, olds in sorted(fall.items()):
            if len(olds) > 1:
                print("TOGETHER", new, ":", *(f"{o} ({', '.join(sorted(names[o]))[:200]})" for o in sorted(olds)))
        return
    together = [n for n, olds in fall.items() if len(olds) > 1]
    if together:
        raise SystemExit("these would fall together: " + ", ".join(sorted(together)))
    for path in antt() + sorted(glob.glob("crates/*/src/**/*.rt", recursive=True) + glob.glob("crates/*/must-fail/*.edit")):
        text = open(path, encoding="utf-8").read()
        text = respell(text, {n: n + "_lem" for n in OWN.get(path, [])} | {n: snake(n) for n in OURS.get(path, [])}, False, inner)
        new = respell(text, table, "/proofs/" in path and path.endswith("Proof.antt"), inner)
        if new != text:
            open(path, "w", encoding="utf-8").write(new)
    for path in sorted(glob.glob("*.md") + glob.glob("docs/*.md")):
        text = open(path, encoding="utf-8").read()
        new = page(text, table)
        if new != text:
            open(path, "w", encoding="utf-8").write(new)


main()
