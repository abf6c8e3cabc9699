#!/usr/bin/env python3
"""Respells the repository's own definitions, fields, constructors and lemmas as today's Rattle spells words: in snake case.

usage: tools/snake_names.py [FOLDER]    rewrites crates/**/*.rt, *.antt and *.edit under FOLDER (the checkout), in place
       tools/snake_names.py --table     prints the table that the text at hand asks for, and says which names fall together

The names stand in tools/snake_names.tsv, old and new. A name is a part between dashes of an identifier, so `getD-set-x` has three. Text in
quotation marks is left alone: it is what is printed. A lemma that would get its definition's name is made `.._lem` first, in LEMMAS.
"""
import glob
import os
import re
import sys

HERE = os.path.dirname(os.path.realpath(__file__))
TABLE = os.path.join(HERE, "snake_names.tsv")
CAMEL = re.compile(r"[a-z][a-z0-9_]*[A-Z][A-Za-z0-9_]*")
WORD = re.compile(r"[^\W\d][\w']*", re.UNICODE)
# Lemmas that a respelled definition would meet: files below crates/, by the beginnings of their paths, and the lemma.
LEMMAS = [
    (("row_plan_model/proofs/PlanLines.antt",), "down_lines"),
    (("row_program_model/proofs/", "row_program/proofs/", "tree_program_model/proofs/", "tree_program/proofs/"), "too_long"),
]
QUOTED = re.compile(r'"(?:[^"\\]|\\.)*"')


def snake(name):
    name = re.sub(r"([a-z0-9])([A-Z])", r"\1_\2", name)
    name = re.sub(r"([A-Z]+)([A-Z][a-z])", r"\1_\2", name)
    return re.sub(r"_to([0-9])", r"_to_\1", name.lower())


def files(top):
    for kind in ("rt", "antt", "edit"):
        for path in sorted(glob.glob(os.path.join(top, "crates", "*", "**", "*." + kind), recursive=True)):
            if os.sep + "out" + os.sep not in path:
                yield path


def outside_quotes(text, turn):
    """The text with what stands outside quotation marks turned."""
    done, at = [], 0
    for quoted in QUOTED.finditer(text):
        if "\n" in quoted.group(0):
            continue
        done += [turn(text[at : quoted.start()]), quoted.group(0)]
        at = quoted.end()
    return "".join(done) + turn(text[at:])


def words(text):
    found = []
    outside_quotes(text, lambda part: found.extend(WORD.findall(part)) or part)
    return found


def table(top):
    seen, where = set(), {}
    for path in files(top):
        with open(path, encoding="utf-8") as it:
            here = set(words(it.read()))
        for word in here:
            where.setdefault(word, set()).add(path)
            if CAMEL.fullmatch(word):
                seen.add(word)
    rows = {word: snake(word) for word in sorted(seen)}
    for old, new in rows.items():
        print(f"{old}\t{new}")
    made = {}
    for old, new in rows.items():
        both = where[old] & where.get(new, set())
        if both:
            print(f"{old} and {new} stand together in {sorted(both)}", file=sys.stderr)
        if new in made:
            print(f"{old} and {made[new]} both become {new}", file=sys.stderr)
        made[new] = old


def turned(top):
    with open(TABLE, encoding="utf-8") as it:
        rows = dict(line.rstrip("\n").split("\t") for line in it)
    turn = lambda part: WORD.sub(lambda m: rows.get(m.group(0), m.group(0)), part)
    for path in files(top):
        with open(path, encoding="utf-8", newline="") as it:
            text = it.read()
        below = os.path.relpath(path, os.path.join(top, "crates"))
        new = text
        for begins, lemma in LEMMAS:
            if below.startswith(begins):
                new = re.sub(rf"(?<![\w'-]){lemma}(?![\w'-])", lemma + "_lem", new)
        new = outside_quotes(new, turn)
        if new != text:
            with open(path, "w", encoding="utf-8", newline="") as it:
                it.write(new)


if __name__ == "__main__":
    if sys.argv[1:] == ["--table"]:
        table(".")
    else:
        turned(sys.argv[1] if len(sys.argv) > 1 else os.path.dirname(HERE))
