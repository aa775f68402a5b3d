#!/usr/bin/env python3
"""Respells this repository's own definitions and lemmas as today's Rattle does: words in snake case. Run once, at the top, after port.py.

Names are those that the files of specs/ and proofs/ declare, but for what a proof file answers (goals are named by the check). A capital at the front stays, since
it is a type's or a fact's. Must-fail edits, which port.py leaves, and the pages get the same names. Names that would fall together with another are printed.
"""
import glob
import re
import sys

TOKEN = re.compile(r"[A-Za-z0-9_'+\-◌∷][A-Za-z0-9_'+\-]*")
DECLARED = re.compile(r"^(?:(?:unfoldable|abbrev|pub|ruleset) )*([a-z][^\s:{}().]*)(?: [^:=]*)? :\s")
FIELD = re.compile(r"^ +(?:pub )?([a-z][^\s:{}().]*) :\s")
CONSTRUCTOR = re.compile(r"^ +\| ?([a-z][^\s:{}().]*)")
ANSWER = re.compile(r": (?:\{.*\} → )*(?:tie\.|goal\.|statement\b)")

# Words that would fall together with a name of the library or of this repository get another.
BY_HAND = {}


def snake(name):
    name = re.sub(r"([a-z0-9'])([A-Z])", lambda m: m[1] + "_" + m[2].lower(), name)
    name = re.sub(r"([A-Z])", lambda m: m[1].lower(), name)
    return BY_HAND.get(name, name.replace("-", "_"))


def antt():
    return sorted(glob.glob("crates/*/specs/**/*.antt", recursive=True) + glob.glob("crates/*/proofs/**/*.antt", recursive=True))


def declared():
    """Each name that some file declares, and which files."""
    names = {}
    for path in antt():
        in_record = False
        for line in open(path, encoding="utf-8"):
            if line.startswith(("--", "use ", "unfolding", "mod ", "pub mod")):
                continue
            if not line.startswith(" "):
                in_record = bool(re.match(r"(?:abbrev |pub )*(?:record|data) ", line))
            match = FIELD.match(line) if in_record and line.startswith(" ") else DECLARED.match(line)
            if match and not ANSWER.search(line):
                names.setdefault(match[1], set()).add(path)
    return names


def tokens(text):
    return set(TOKEN.findall(text))


def bare(text):
    """The names of a text, but for those behind a dot."""
    return set(re.findall(r"(?<![.A-Za-z0-9_'+\-])[A-Za-z_][A-Za-z0-9_'+\-]*", re.sub(r"--.*", "", text)))


def respelled(text, names):
    return TOKEN.sub(lambda m: names.get(m[0], m[0]), text)


CRATES = {line.split(":")[0].split()[0] for line in open("crates.txt", encoding="utf-8") if ":" in line and not line.startswith("#")}


def of_library(text):
    """What a file brings in from the library: it keeps its spelling there."""
    brought = set()
    for module, items in re.findall(r"use ([^\s{]+)\{([^}]*)\}", text):
        if module.split(".")[1:2] == ["laws"] or (module.startswith("Rattle.") and module.split(".")[1] in CRATES):
            continue
        brought |= {item.split(" as ")[-1].strip() for item in items.split(",")}
    return brought


def rewrite(path, names):
    with open(path, encoding="utf-8") as file:
        old = file.read()
    library = of_library(old)
    new = respelled(old, {name: to for name, to in names.items() if name not in library})
    if new != old:
        with open(path, "w", encoding="utf-8") as file:
            file.write(new)


def in_clauses(text, names):
    """Of a source file, the ghost imports and the clauses: functions keep their names."""
    out = []
    depth = 0
    for line in text.split("\n"):
        stripped = line.strip()
        ghost = stripped.startswith(("ghost use", "requires", "ensures", "ghost ")) or depth > 0
        if ghost and not stripped.startswith("//"):
            depth = max(0, depth + line.count("{") - line.count("}")) if not stripped.startswith("ghost use") else 0
            out.append(respelled(line, names))
        else:
            out.append(line)
    return "\n".join(out)


def respell_variables(path):
    """What one file alone names: variables, where the new name is free there."""
    lines = open(path, encoding="utf-8").read().split("\n")
    code = "\n".join(line for line in lines if not line.strip().startswith(("--", "//")))
    names = {}
    for name in set(re.findall(r"(?<![A-Za-z0-9_'\-])[a-z]+[A-Z][A-Za-z0-9]*", code)):
        if not re.search(rf"(?<![.A-Za-z0-9_'\-]){snake(name)}(?![A-Za-z0-9_'\-])", code):
            names[name] = snake(name)
    new = "\n".join(line if line.strip().startswith(("--", "//")) else respelled(line, names) for line in lines)
    if names:
        with open(path, "w", encoding="utf-8") as file:
            file.write(new)


def main():
    all_names = declared()
    names = {name: snake(name) for name in all_names if snake(name) != name and not name.startswith("+")}
    names = {old: new for old, new in names.items() if not old.endswith("-spec")}
    # A lemma that would fall together with a definition that it is about is that definition's law.
    taken = set(all_names) | {new for old, new in names.items() if "-" not in old}
    for old in [old for old in names if "-" in old and names[old] in taken]:
        names[old] += "_law"
    news = set(names.values())
    for name in [name for name in all_names if name not in names and name in news]:
        names[name] = name + "_law"
    # A variable of one file that would fall together with a definition named there.
    local = {}
    for path in antt():
        used = bare(open(path, encoding="utf-8").read())
        for old in used & set(names):
            if names[old] in used and names[old] not in names:
                local.setdefault(path, {})[names[old]] = names[old] + "_here"
                print(f"a variable gives way: {names[old]} in {path}")
    if len(set(names.values())) != len(names):
        sys.exit("two names fall together")
    print(len(all_names), "names;", len(names), "respelled")
    if "--write" not in sys.argv:
        return
    for path in antt():
        rewrite(path, {**names, **local.get(path, {})})
    for path in glob.glob("crates/*/src/**/*.rt", recursive=True):
        with open(path, encoding="utf-8") as file:
            old = file.read()
        new = in_clauses(old, names)
        if new != old:
            with open(path, "w", encoding="utf-8") as file:
                file.write(new)
    for path in antt() + glob.glob("crates/*/src/**/*.rt", recursive=True):
        respell_variables(path)
    now = set(declared())
    for path in glob.glob("crates/*/must-fail*/*.edit"):
        text = open(path, encoding="utf-8").read()
        known = {t: snake(t) for t in tokens(text) if t[0].islower() and t not in now and snake(t) != t and snake(t) in now}
        rewrite(path, known)
    for path in ["README.md", *glob.glob("docs/*.md")]:
        text = open(path, encoding="utf-8").read()
        new = re.sub(r"`[^`\n]+`", lambda m: respelled(m[0], names), text)
        if new != text:
            with open(path, "w", encoding="utf-8") as file:
                file.write(new)


main()
