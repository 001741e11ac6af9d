#!/usr/bin/env python3
"""Brings the names of this repository's own definitions and lemmas to the spelling of today's Rattle.

usage: python3 tools/respell.py [--list]      at the top of the repository, once; --list shows the names and changes nothing

Words are in snake case: `toldCode` becomes `told_code`. A dash joins two names, and stays only in a lemma behind the name of a
definition, as in `padding-size`; every other dash becomes `_`. A lemma that would have its definition's name gets `_lem`. Types, modules, names from src/, names that Rattle makes for goals, names of the library
and strings stay as they are. Two names that would fall together, or a new name that the repository has already, are told and refused.
"""
import glob
import os
import re
import sys

MADE = ("Answers.antt", "Invariants.antt", "Proof.antt")
# Names that src/ has too, or that fall together with another.
ALIAS = {
    "foundText": "text_of_found",
    "isNameChar": "is_char_of_name",
    "packetText": "text_of_packet",
    "refusalText": "text_of_refusal",
    "same-name": "equal_names",
    "surveyText": "text_of_survey",
    "yesOrNo": "yes_no",
}
WORD = re.compile(r"[^\s.,;(){}\[\]λ«»\"]+")
SIGNATURE = re.compile(r"^\s*(?:abbrev |unfoldable )?(?:pub )?((?:[a-z][\w'-]*)(?: [a-z][\w'-]*)*) : ")


def files():
    found = []
    for kind in ("specs", "proofs"):
        found += glob.glob(f"crates/*/{kind}/**/*.antt", recursive=True)
    return sorted(found)


def signatures(path):
    """The names that a file declares, each with its kind: a definition, a member of a record or of a data type, or a lemma."""
    names, within = {}, None
    for line in open(path, encoding="utf-8"):
        indent = len(line) - len(line.lstrip())
        if within is not None and line.strip() and indent <= within:
            within = None
        if re.match(r"\s*(pub )?(record|data) .*where\s*$", line):
            within = indent
        m = SIGNATURE.match(line)
        if m and "let " not in line.split(" : ")[0]:
            defined = re.match(r"\s*(abbrev|unfoldable) ", line)
            kind = "member" if within is not None else "definition" if defined else "lemma"
            names.update((n, kind) for n in m.group(1).split() if n not in ("pub", "abbrev", "unfoldable"))
    return names


def borrowed(paths):
    """The names that files import from elsewhere than the repository."""
    names = set()
    for p in paths:
        for line in open(p, encoding="utf-8"):
            m = re.match(r"\s*(?:ghost )?use ([\w.]+)\.\{(.*)\}", line)
            if m and not (m.group(1).startswith("Rattle.") and m.group(1).split(".")[1] in OWN):
                names.update(re.split(r"[,\s]+| as ", m.group(2)))
    return names


def snake(name):
    return re.sub(r"(?<=[a-z0-9])([A-Z])(?=[a-z]|$)", lambda m: "_" + m.group(1).lower(), name)


def turned(name, kind, definitions):
    parts = snake(name).split("-")
    for i in range(len(parts) - 1, 0, -1) if kind == "lemma" else ():
        front = "_".join(parts[:i])
        if front in definitions:
            return front + "-" + "_".join(parts[i:])
    whole = "_".join(parts)
    return whole + "_lem" if kind == "lemma" and whole in definitions else whole


def respell(text, names, kept, rust):
    """The text with the names turned, but for strings, comments and the names that stand in `kept`."""
    out = []
    for line in text.split("\n"):
        parts = re.split(r"(\"(?:[^\"\\]|\\.)*\")", line)
        for i in range(0, len(parts), 2):
            head, mark, tail = parts[i].partition("//" if rust else "-- ")
            head = WORD.sub(lambda m: names[m.group()] if m.group() in names and m.group() not in kept else m.group(), head)
            tail = WORD.sub(lambda m: names[m.group()] if m.group() in names and re.search("[A-Z]", m.group()) else m.group(), tail)
            parts[i] = head + mark + tail
        out.append("".join(parts))
    return "\n".join(out)


OWN = {os.path.basename(p) for p in glob.glob("crates/*")}


def main():
    paths = files()
    rust = sorted(glob.glob("crates/*/src/**/*.rt", recursive=True))
    names, definitions, made = {}, set(), {}
    for p in paths:
        found = signatures(p)
        if os.path.basename(p) in MADE:
            made[p] = set(found)
            continue
        for n, kind in found.items():
            names[n] = kind if names.get(n, kind) == kind else "member"
        definitions.update(snake(n) for n, kind in found.items() if kind == "definition" and "-" not in n)
    taken = set(names) | borrowed(paths + rust)
    todo = {n for n in names if "-" in n or snake(n) != n} - borrowed(paths + rust)
    table = {n: ALIAS.get(n) or turned(n, names[n], definitions) for n in sorted(todo)}
    table = {n: t for n, t in table.items() if n != t}
    bad = [(n, t) for n, t in table.items() if t in taken or list(table.values()).count(t) > 1]
    if "--list" in sys.argv:
        for n, t in table.items():
            print(n, "->", t)
    for n, t in bad:
        print(f"falls together: {n} as {t}")
    if bad or "--list" in sys.argv:
        return 1
    for p in paths + rust:
        text = open(p, encoding="utf-8").read()
        new = respell(text, table, made.get(p, ()), p.endswith(".rt"))
        if new != text:
            open(p, "w", encoding="utf-8").write(new)
    print(f"{len(table)} names turned")
    return 0


sys.exit(main())
