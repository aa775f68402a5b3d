#!/usr/bin/env python3
"""Lists the places of src/ that may be in an older form of the language, by the points of docs/DESIGN-PASS.md: one line for each, and last how many of each point.

    tools/places.py [ROOT]

The lines are what a pattern finds; docs/DESIGN-PASS.md says which of them are places.
"""
import collections
import pathlib
import re
import sys

ROOT = pathlib.Path(sys.argv[1] if len(sys.argv) > 1 else pathlib.Path(__file__).resolve().parent.parent)

# A function's head up to its body, and the body: `rt fmt` puts both of its braces at the margin, or a method's one step in.
FUNCTION = re.compile(
    r"^( *)(?:pub(?:\(crate\))? )?(?:const )?fn (\w+)[^\n]*\n(?:(?!\1[{}])[^\n]*\n)*?(?:\1\{\n)?((?:(?!\1\}\n)[^\n]*\n)*)\1\}\n", re.M)
FLAG = re.compile(r"^\s+(?:pub(?:\(crate\))? )?(answer|good|all|written|is_some|found|ok): (?:bool|\w*Answer|TextRead|Selected),", re.M)
NUMBERED = re.compile(r"=> (?:cases::put_byte\(rt, |last_line\(refused_\w+\(|put_five\(rt, |[\[(])?\[?(?:1[0-8]|2[0-5]|30)\b|refused [23][0-9]")
COPIED = re.compile(r"^\s*let (?:mut )?(\w+) = [\w.]+\.(?:\w+);\n", re.M)
FIELDS_OF_ONE = re.compile(r"(?:^\s+(\w+): (\w+)\.\1,\n){3,}", re.M)


def places():
    for path in sorted(ROOT.glob("crates/*/src/*.rt")):
        text = path.read_text(encoding="utf-8")
        name = path.relative_to(ROOT / "crates")

        def line(at):
            return f"{name}:{text.count(chr(10), 0, at) + 1}"

        for m in re.finditer(r"^\s*(?:pub(?:\(crate\))? )?enum (\w+)", text, re.M):
            yield 1, line(m.start(1)), f"enum {m[1]}"
        for m in FLAG.finditer(text):
            yield 1, line(m.start(1)), f"flag {m[1]}"
        for m in FUNCTION.finditer(text):
            body = m[0]
            if NUMBERED.search(body):
                yield 1, line(m.start(2)), f"numbers in {m[2]}"
            for w in re.finditer(r"\b(while|loop) ", body):
                yield 3, line(m.start() + w.start()), f"{w[1]} in {m[2]}"
            copies = len(COPIED.findall(body))
            if copies:
                yield 4, line(m.start(2)), f"{copies} fields copied to locals in {m[2]}"
            if FIELDS_OF_ONE.search(body):
                yield 4, line(m.start(2)), f"a struct copied field by field in {m[2]}"
        for m in re.finditer(r"^pub struct (\w+)[^{;]*\{\n(?:[^}]*\n)?\s+pub (\w+): \[u8; [^\]]*\],\n\s+pub used: usize", text, re.M):
            yield 6, line(m.start(1)), f"a buffer with a length in {m[1]}"


def shape(body):
    """A body's tokens, with names and numbers made one."""
    words = re.findall(r"[A-Za-z_]\w*|[^\s\w]|\d\w*", re.sub(r"//[^\n]*", "", body))
    keep = {"if", "else", "while", "for", "in", "match", "return", "let", "mut", "loop", "as"}
    return tuple(w if w in keep or not re.match(r"\w", w) else "x" for w in words)


def twins():
    seen = collections.defaultdict(list)
    for path in sorted(ROOT.glob("crates/*/src/*.rt")):
        text = path.read_text(encoding="utf-8")
        for m in FUNCTION.finditer(text):
            of = shape(m[3])
            if len(of) >= 30:
                seen[of].append(f"{path.parent.parent.name}::{m[2]}")
    for names in seen.values():
        if len(names) > 1:
            yield 2, names[0], "the same shape: " + ", ".join(names)


def travellers():
    """Pairs of parameters, name and type, that stand in three signatures or more of a crate."""
    for crate in sorted(ROOT.glob("crates/*")):
        pairs = collections.defaultdict(set)
        for path in sorted(crate.glob("src/*.rt")):
            for m in re.finditer(r"^ *(?:pub(?:\(crate\))? )?fn (\w+)(?:<[^>]*>)?\(((?:[^()]|\([^()]*\))*)\)", path.read_text(encoding="utf-8"), re.M):
                names = sorted(set(re.findall(r"(\w+): (?=&?(?:mut )?[\[\w])", m[2])) - {"rt"})
                for i, one in enumerate(names):
                    for other in names[i + 1:]:
                        pairs[one, other].add(m[1])
        for (one, other), functions in sorted(pairs.items()):
            if len(functions) >= 4:
                yield 5, crate.name, f"{one}, {other} in {len(functions)} functions"


count = collections.Counter()
for point, where, what in sorted([*places(), *twins(), *travellers()], key=lambda p: p[0]):
    print(point, where, what)
    count[point] += 1
print(", ".join(f"point {point}: {count[point]}" for point in sorted(count)))
