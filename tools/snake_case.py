#!/usr/bin/env python3
"""Spells this repository's own definitions, lemmas and labels in snake case, as today's Rattle does: `leAt` becomes `le_at`, `blocks-are` becomes `blocks_are`.

usage: python3 tools/snake_case.py [--pages] [FOLDER]

It goes over crates/ below FOLDER (or here), once, after port.py. A name that a file imports from the library keeps its spelling in that file, and so do the names
of goals that an answer is for. A lemma that would have a definition's name gets `_lem`. With --pages it turns the names that stand between backticks in README.md and
docs/*.md too. It prints the names that still fall together.
"""

import os
import re
import sys

WORD = r"[^\s(){}\[\],;.λ·«»`]+"
HEAD = re.compile(r"^\s*(?:(?:pattern|unfoldable|abbrev|opaque|pub)\s+)*(?:(?:record|data|ruleset)\s+)?(" + WORD + r")((?:\s+(?:[({].*[)}]))*)\s+:\s")
USE = re.compile(r"(?s)\b(?:pub |ghost |abbrev )*use\s+([^\s{;]+?)\.\{(.*?)\}")
CAPITAL = re.compile(r"(?<![\w.'-])[a-z][a-z0-9_]*(?:[A-Z][a-z0-9]*)+(?![\w'-])")
GOAL = re.compile(r"^(?:returns|bounds|overflow|slice-bounds|nonzero|loop|decreases|invariant|Inv|μ|match|if)\b|-requires(?:-\d+)?$")


def files(root, endings):
    for folder, dirs, names in os.walk(os.path.join(root, "crates")):
        dirs[:] = sorted(d for d in dirs if d not in ("out", "must-fail"))
        for n in sorted(names):
            if n.endswith(endings):
                yield os.path.join(folder, n)


def read(path):
    with open(path, encoding="utf-8") as f:
        return f.read()


def is_own(path, root):
    """Whether a module's path begins with one of the repository's crates."""
    parts = path.split(".")
    return len(parts) > 1 and parts[0] == "Rattle" and os.path.isdir(os.path.join(root, "crates", parts[1]))


def snake(name):
    name = re.sub(r"(?<=[a-z0-9])([A-Z])", lambda m: "_" + m.group(1).lower(), name) if name[:1].islower() else name
    return re.sub(r"(?<=[\w'])-(?=[\w'])", "_", name)


def declared(path, text):
    """The names that a file declares and that have another spelling: not those of goals, which belong to the proof of one function."""
    proof = os.path.basename(path) == "Proof.antt"
    for line in text.splitlines():
        m = HEAD.match(line)
        if not m or line.lstrip().startswith("--"):
            continue
        name = m.group(1)
        if "◌" in name or snake(name) == name or (proof and GOAL.search(name)):
            continue
        yield name


def imported(text, root):
    names = set()
    for path, inner in USE.findall(text):
        if not is_own(path, root):
            for it in inner.split(","):
                names.update(it.split(" as ")[-1].split())
    return names


# Fields, whose names stand in their records alone: none of them gives way to a definition of another crate.
FIELDS = ("at-end", "empty-file", "in-segment", "no-file")


def is_comment(line):
    return line.lstrip().startswith(("--", "//"))


def respelled(text, table, kept):
    def one(m):
        name = m.group(0)
        return name if name in kept else table.get(name, name)

    return re.sub(r"[\w'₀-₉]+(?:-[\w'₀-₉]+)*", one, text)


def in_backticks(text, table):
    return re.sub(r"`[^`\n]+`", lambda m: respelled(m.group(0), table, set()), text)


def turned(text, table, kept):
    """A comment's own words may have dashes: there only what stands between backticks, and what has a capital inside, is a name."""
    capital = {name: new for name, new in table.items() if "-" not in name}

    def line(it):
        return respelled(in_backticks(it, table), capital, kept) if is_comment(it) else respelled(it, table, kept)

    return "\n".join(line(it) for it in text.split("\n"))


def heads(text):
    return {m.group(1) for m in map(HEAD.match, text.splitlines()) if m}


def names_of(before, root):
    """The new spelling of each name; a lemma with a dash gives way to a definition without one. Names with a capital inside are turned wherever they stand, so that
    arguments are too."""
    old = set()
    for p, text in before.items():
        old.update(declared(p, text))
        old.update(set(CAPITAL.findall(text)) - imported(text, root))
    others = {snake(name) for name in old if "-" not in name}
    for p, text in before.items():
        others.update(name for name in heads(text) if "-" not in name)
    return {name: snake(name) + ("_lem" if "-" in name and name not in FIELDS and snake(name) in others else "") for name in old}


def gives_way(text, table):
    """What port.py spelled as a definition of the same file is now spelled."""
    new = {table[name] for name in heads(text) if name in table}
    return {name: name + "_lem" for name in heads(text) if name in new and name not in table}


def main(argv):
    pages = "--pages" in argv
    rest = [a for a in argv if a != "--pages"]
    root = rest[0] if rest else "."
    before = {p: read(p) for p in files(root, (".antt",))}
    table = names_of(before, root)
    before.update((p, read(p)) for p in files(root, (".rt",)))
    for p, text in before.items():
        after = turned(text, table | gives_way(text, table), imported(text, root))
        if after != text:
            with open(p, "w", encoding="utf-8") as f:
                f.write(after)
    for p in before:
        if p.endswith(".antt"):
            seen = {}
            for line in read(p).splitlines():
                m = HEAD.match(line)
                if m and not line.startswith(" ") and not is_comment(line):
                    seen[m.group(1)] = seen.get(m.group(1), 0) + 1
            for name, n in seen.items():
                if n > 1:
                    print(f"{p}: {name} stands {n} times")
    if pages:
        docs = [os.path.join(root, "docs", n) for n in sorted(os.listdir(os.path.join(root, "docs"))) if n.endswith(".md")]
        for p in [os.path.join(root, "README.md")] + docs:
            text = read(p)
            after = in_backticks(text, table)
            if after != text:
                with open(p, "w", encoding="utf-8") as f:
                    f.write(after)
    print(f"{len(table)} names")
    return 0


if __name__ == "__main__":
    raise SystemExit(main(sys.argv[1:]))
