#!/usr/bin/env python3
"""Brings the repository's own definitions and lemmas to today's spelling, once: python3 tools/respell.py, at the top, after the toolchain's own port.py.

Words are in snake case, types and facts in camel case. Only names that an .antt file of the repository declares are respelled; names of the library,
names that the check generates, functions of src/, strings and comments keep theirs. It stops, and writes nothing, where two names would fall together.
"""
import collections
import os
import re
import sys

NAME = r"[A-Za-z_][A-Za-z0-9_']*(?:-[A-Za-z0-9_']+)*"
HEAD = re.compile(r"\s*(?:(?:pub|abbrev|unfoldable|data|record|open|ruleset)\s+)*(" + NAME + r")\s+(?::|\(|\{)")
TYPED = re.compile(r"\s*(?:(?:pub|abbrev|unfoldable)\s+)*" + NAME + r"\s+:")
TOKEN = re.compile(r"(?<![A-Za-z0-9_'◌-])(" + NAME + r")(?![A-Za-z0-9_'◌-])")
OWN = re.compile(r"Rattle\.(?:algebra|blocks|cases|field|named|survey|timing|trials|worked)\.")
# one lemma would have the library's name for what it speaks of
OTHERWISE = {"bit-xor": "eqb-bit_xor"}
# steps of a function's proof, named after its calls, that a name of ours is spelled like
STEPS = {"c.has-root", "c.longest-period", "c.add-one"}


def files():
    for folder, dirs, names in os.walk("crates"):
        dirs[:] = sorted(d for d in dirs if d != "out")
        for name in sorted(names):
            if name.endswith((".antt", ".rt")):
                yield os.path.join(folder, name)


def lines_of(path, text):
    """Each line as code and comment."""
    mark = "--" if path.endswith(".antt") else "//"
    for line in text.split("\n"):
        cut = re.search(r"(?:^|\s)" + mark + r"(?:\s|$)|^\s*//[/!]", line)
        at = cut.start() if cut else len(line)
        yield line[:at], line[at:]


def declared(path, text):
    for code, _ in lines_of(path, text):
        head = HEAD.match(code)
        if head and (TYPED.match(code) or re.search(r"\b(?:record|data)\b", code)) and not re.search(r":\s+goal\.", code):
            yield head[1]


def imported(text):
    """Names that come from the library."""
    names = set()
    for use in re.finditer(r"use ([A-Za-z_.0-9+-]+)\.\{([^}]*)\}", text):
        if not OWN.match(use[1]):
            names |= {n.strip().split(" as ")[0] for n in use[2].split(",")}
    return names


def respelled(name):
    """Types and facts join their words; all else is small words with underscores."""
    if name in OTHERWISE:
        return OTHERWISE[name]
    words = name.split("-")
    if words[0][0].isupper() and len(words[0]) > 1:
        return "".join(w[0].upper() + w[1:] for w in words)
    small = "_".join(words)
    small = re.sub(r"(?<=[a-z])X(?![a-z])", "_x", small)
    return small.lower() if "-" in name or small != name else name


def main():
    texts = {p: open(p, encoding="utf-8").read() for p in files()}
    meaning = os.path.join("crates", "algebra", "specs", "Meaning.antt")
    texts[meaning] = re.sub(r"\bbit-xor\b|\bbitXor\b", "bit_xor", texts[meaning])
    names = {n for p, t in texts.items() if p.endswith(".antt") for n in declared(p, t)}
    change = {n: respelled(n) for n in names}
    change = {a: b for a, b in change.items() if a != b}
    into = collections.defaultdict(list)
    for a, b in change.items():
        into[b].append(a)
    bad = [f"{b}: {sorted(a)}" for b, a in into.items() if len(a) > 1]
    written = {}
    for path, text in texts.items():
        library = imported(text)
        body = re.sub(r"use [A-Za-z_.0-9+-]+\.", "use ", "\n".join(code for code, _ in lines_of(path, text)))
        has = {m[1] for m in TOKEN.finditer(body)}
        out = []
        for code, comment in lines_of(path, text):
            parts, at = [], 0
            for m in TOKEN.finditer(code):
                name = m[1]
                if name not in change or code.count('"', 0, m.start()) % 2:
                    continue
                before = re.search(r"[A-Za-z0-9_']+\.$", code[: m.start()])
                if before and before[0] + name in STEPS or before and before[0] == "goal.":
                    continue
                if name in library and not (before or is_own(path, text, name)):
                    continue
                parts += [code[at : m.start()], change[name]]
                at = m.end()
                if change[name] in has and path.endswith(".antt"):
                    bad.append(f"{path}: {name} and {change[name]}")
            out.append("".join(parts) + code[at:] + comment)
        written[path] = "\n".join(out)
    if "--list" in sys.argv:
        print("\n".join(f"{a} {b}" for a, b in sorted(change.items())))
    if bad:
        sys.exit("\n".join(sorted(set(bad))))
    for path, text in written.items():
        open(path, "w", encoding="utf-8").write(text)
    print(f"respell: {len(change)} names")


def is_own(path, text, name):
    """Whether this file declares the name itself."""
    return path.endswith(".antt") and name in set(declared(path, text))


main()
