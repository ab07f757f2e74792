#!/usr/bin/env python3
"""Brings the repository's own definitions and lemmas to the spelling of today's Rattle: words in snake case, and a dash in a
lemma's name only where it joins the names of two definitions.

usage: python3 tools/respell.py [--list]

Run once, at the top of the repository, right after the kit's port.py. It goes by text: .antt files, the clauses of .rt files,
.edit files, and names between backticks in README.md and docs/. Strings, Rust names, and the names of goals stay.
"""

import os
import re
import sys

# Names that would fall together with another one, and the names that they get.
OTHERWISE = {
    "around-by": "around_by_lem",
    "below_by": "below_by_lem",
    "first-fault": "fault_is_first",
    "in-turn": "run_in_turn",
    "name-length": "name_length_lem",
    "names-after": "names_after_lem",
    "no_symbol": "no_symbol_fits",
    "row-at": "row_at_lem",
    "stands_at": "stands_at_lem",
    "stands_by": "stands_by_lem",
    "tree-at": "tree_at_lem",
}
TOKEN = re.compile(r"[^\s(){};,.:\[\]`\"]+")
DEFINED = re.compile(r"^\s*(?:(?:abbrev|pub|unfoldable)\s+)*([a-z][^\s:(){};.,]*)\s*:(?!=)\s*(.*)$")


def files(*ends):
    for folder, dirs, names in os.walk("crates"):
        dirs[:] = sorted(d for d in dirs if d != "out")
        for name in sorted(names):
            if name.endswith(ends):
                yield os.path.join(folder, name)


def read(path):
    with open(path, encoding="utf-8") as f:
        return f.read()


def code(line):
    """The line without its comment."""
    return line.split("--")[0]


def defined():
    """The names that the .antt files define, but for the answers to goals."""
    found = set()
    for path in files(".antt"):
        for line in read(path).splitlines():
            m = DEFINED.match(code(line))
            if m and not re.match(r"goal\.|given\.", m.group(2)):
                found.add(m.group(1))
    return found


def snake(name):
    name = name.replace("getD", "get_or")
    return re.sub(r"(?<=[A-Za-z0-9])([A-Z])", lambda m: "_" + m.group(1).lower(), name)


def spelling(found):
    """What each name becomes, where it changes."""
    to = {}
    for name in sorted(found):
        joins = re.fullmatch(r"[a-z]+[A-Z]\w*-\w+|longer-getD", name)
        new = OTHERWISE.get(name, snake(name) if joins else snake(name).replace("-", "_"))
        if new != name:
            to[name] = new
    return to


def turn_text(text, to):
    def each(m):
        token, start = m.group(0), m.start()
        if "-" in token and re.search(r"(--|//) [^\n]*$", text[text.rfind("\n", 0, start) + 1:start]):
            return token
        if re.search(r"(?<![^\s(])c\.$", text[max(0, start - 4):start]):
            return token
        bare = token.rstrip("'")
        return to.get(token) or (to[bare] + token[len(bare):] if bare in to and token not in to else token)
    return TOKEN.sub(each, text)


def turn_rt(text, to):
    """Only names that cannot be Rust's: those with a capital inside or a dash; never in strings."""
    names = {n: t for n, t in to.items() if "-" in n or re.search(r"[a-z][A-Z]", n)}
    out = []
    for line in text.split("\n"):
        parts = re.split(r'("(?:[^"\\]|\\.)*")', line)
        out.append("".join(p if i % 2 else turn_text(p, names) for i, p in enumerate(parts)))
    return "\n".join(out)


def turn_page(text, to):
    return re.sub(r"`([^`\n]+)`", lambda m: "`" + to.get(m.group(1), m.group(1)) + "`", text)


def write(path, new, old):
    if new != old:
        with open(path, "w", encoding="utf-8") as f:
            f.write(new)
        return 1
    return 0


def main():
    found = defined()
    to = spelling(found)
    every = set()
    for path in files(".antt", ".rt"):
        every |= {t for line in read(path).splitlines() for t in TOKEN.findall(line.split("--")[0].split("//")[0])}
    for name, new in sorted(to.items()):
        if new in every and to.get(new) is None:
            print(f"falls together: {name} -> {new}")
    seen = {}
    for name, new in to.items():
        if new in seen:
            print(f"falls together: {name} and {seen[new]} -> {new}")
        seen[new] = name
    if "--list" in sys.argv:
        for name, new in sorted(to.items()):
            print(name, new)
        return
    n = 0
    for path in files(".antt"):
        old = read(path)
        n += write(path, turn_text(old, to), old)
    for path in files(".rt", ".edit"):
        old = read(path)
        n += write(path, turn_rt(old, to), old)
    pages = ["README.md"] + ["docs/" + p for p in sorted(os.listdir("docs")) if p.endswith(".md")]
    for path in pages:
        old = read(path)
        n += write(path, turn_page(old, to), old)
    print(f"{len(to)} names respelled in {n} files")


main()
