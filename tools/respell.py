#!/usr/bin/env python3
"""Brings this repository's own definitions, lemmas and fields to snake case, and its facts and modules to camel case.

usage: python3 tools/respell.py [--list] [FOLDER ..]     run once, at the top, after the kit's port.py

A name is the repository's own where a file of specs/ or proofs/ declares it and the kit does not. Names of src/ are in snake case already and stay.
--list prints old and new names, and changes nothing. With FOLDERs only their files are respelled, by the names that crates/ declares.
"""
import os
import re
import subprocess
import sys

KIT = os.path.join(os.path.dirname(subprocess.run(["rt", "doc"], capture_output=True, text=True, check=True).stdout.strip()), "rattle")
TOKEN = re.compile(r"[^\s(){}\[\];,.«»⌜⌝@\"`:|!?&<>*+=/\\]+")
MARKS = r"(?:(?:pub|abbrev|unfoldable|pattern|axiom)\s+)*"
DECLARED = re.compile(rf"\s*{MARKS}([^\s:(){{}}]+(?:\s+[^\s:(){{}}]+)*)\s*:(?:\s|$)")
NAMED = re.compile(rf"\s*{MARKS}(?:record|data|module|ruleset)\s+([^\s:(){{}}]+)")
LET = re.compile(r"\blet\s+([^\s:(){}]+)\s*[:=]")
BOUND = re.compile(r"[({]([^\s:(){}]+(?:\s+[^\s:(){}]+)*)\s*:(?:\s|$)")
LAMBDA = re.compile(r"λ\s+([^.()]*)\.")
ALIAS = re.compile(r"[\s{,]as\s+([^\s;,}]+)")
GOAL = re.compile(r"^\s*(?:(?:pub|abbrev)\s+)*(\S+)\s*:\s+(?:tie|goal)\.", re.M)

# What port.py turned at some places alone: the old words of std that are words of ours.
MENDED = {"at_least_lem": "at_least", "at_most_lem": "at_most", "◌at-least◌": "◌at_least◌", "◌at-most◌": "◌at_most◌", "◌is-not◌": "◌is_not◌", "at-least": "at_least", "at-most": "at_most", "is-not": "is_not"}


def files(top, endings):
    for folder, dirs, names in os.walk(top):
        dirs[:] = sorted(d for d in dirs if d not in ("out", ".git", "target"))
        for name in sorted(names):
            if name.endswith(endings):
                yield os.path.join(folder, name)


def read(path):
    with open(path, encoding="utf-8", errors="replace") as f:
        return f.read()


def declared(text, bound=False):
    names = set()
    for line in text.split("\n"):
        if line.lstrip().startswith("--"):
            continue
        for form in (DECLARED, NAMED):
            m = form.match(line)
            if m:
                names.update(m.group(1).split())
        names.update(LET.findall(line))
        if bound:
            for m in BOUND.findall(line) + LAMBDA.findall(line):
                names.update(m.split())
            names.update(ALIAS.findall(line))
    return names


def snake(word):
    if re.fullmatch(r"[A-Z0-9_]+s?|[0-9A-F]+h", word):
        return word.lower()
    word = word.replace("NodeID", "NodeId")
    return re.sub(r"([a-z0-9])([A-Z])", r"\1_\2", word).lower()


def spelled(name):
    words = name.split("-")
    if re.fullmatch(r"[A-Z][a-z]+", words[0]) and len(words) > 1:
        return "".join(w[:1].upper() + w[1:] for w in words)
    return "_".join(snake(w) for w in words)


def own_names():
    kit, own, goals = set(), set(), set()
    for path in files(KIT, ".antt"):
        kit |= declared(read(path))
    for path in files("crates", ".antt"):
        text = read(path)
        own |= declared(text, True)
        goals |= set(GOAL.findall(text))
    names = {}
    for name in own - kit - goals:
        if not re.fullmatch(r"[A-Za-z][A-Za-z0-9_'₀-₉-]*", name):
            continue
        if "-" in name or re.match(r"[a-z].*[A-Z]", name):
            names[name] = spelled(name)
    # A lemma or a field that would have the name of a definition ends in _lem.
    words = {new: old for old, new in names.items() if "-" not in old}
    for old in {n for n, new in names.items() if "-" in n and new in words} | meets(names):
        if "-" in old:
            names[old] += "_lem"
        else:
            names[names[old]] = names[old] + "_lem"
    names.update(MENDED)
    return names, own | kit


def meets(names):
    """The names that some file has beside what they would become."""
    found = set()
    for path in files("crates", (".antt", ".rt")):
        text = re.sub(r"(?m)^\s*(?:--|//).*$", "", read(path))
        text = re.sub(r"\.\w+", "", text)
        tokens = set(TOKEN.findall(text))
        # In src/ a clause sees parameters, and no function.
        there = set(re.findall(r"\b(\w+):", text)) if path.endswith(".rt") else tokens
        found |= {t for t in tokens if names.get(t) in there}
    return found


def respell(text, names):
    def one(m):
        name = m.group(0)
        # What has its spelling already may be a path's part or a field, which keep it.
        if name not in names or (text[m.start() - 1 : m.start()] == "." and "-" not in name and name == name.lower()):
            return name
        return names[name]

    return TOKEN.sub(one, text)


def respell_file(path, text, names):
    """Pages are respelled inside backticks, edits behind their words, code and lemmas outside comments."""
    if path.endswith(".md"):
        return re.sub(r"`[^`\n]+`", lambda m: respell(m.group(0), names), text)
    # What is in snake case in src/ is a function's name.
    turned = {old: new for old, new in names.items() if not (path.endswith(".rt") and old in names.values())}
    lines = []
    for line in text.split("\n"):
        bare = line.lstrip()
        if path.endswith(".edit"):
            keeps = not re.match(r"(file|old|new|refused):", bare)
        else:
            keeps = bare.startswith(("--", "//"))
        lines.append(line if keeps else respell(line, turned))
    return "\n".join(lines)


def main(args):
    names, known = own_names()
    if "--list" in args:
        back = {}
        for old, new in sorted(names.items()):
            print(old, new)
            back.setdefault(new, []).append(old)
        for new, olds in sorted(back.items()):
            if len(olds) > 1 or new in known:
                print("FALLS TOGETHER:", new, olds, "known" if new in known else "")
        return
    for top in [a for a in args if not a.startswith("-")] or ["crates"]:
        for path in files(top, (".antt", ".rt", ".edit", ".md")):
            old = read(path)
            new = respell_file(path, old, names)
            if new != old:
                with open(path, "w", encoding="utf-8") as f:
                    f.write(new)


main(sys.argv[1:])
