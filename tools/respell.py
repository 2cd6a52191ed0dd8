#!/usr/bin/env python3
"""Spells this repository's own definitions and lemmas as the library spells its own: words in snake case.

usage: tools/respell.py [FOLDER]

FOLDER is the repository's top (default: this folder). Run it once, right after the toolchain's own script of the port.
A name that specs/ or proofs/ of a crate declares loses its capitals and its dashes (`legalLength` becomes `legal_length`,
`one-outcome` becomes `one_outcome`), in specs, proofs, clauses, must-fail edits and the pages.
Types, constructors with a capital, and everything of src/ that is no clause keep their names.
It prints what falls together, and names the places where a new name stood already.
"""

import collections
import os
import re
import sys

NAME = r'[^\s(){}.;,@"«»`]+'
TOKEN = re.compile(rf"(?<![^\s(){{}}.;,@\"«»`]){NAME}(?![^\s(){{}}.;,@\"«»`])")
DECLARED = re.compile(r"(?m)^ *(?:(?:abbrev|unfoldable|opaque|pub|ruleset) )*([^\s(){}.;,:]+)(?: \{[^{}\n]*\})* :(?= )")
INFIX = re.compile(r"(?m)^infix[lr]? \d+ (\S+)")
USE = re.compile(r"\buse ([^\s;{]+)\.\{([^}]*)\}")
# A line of a .rt file that is written in the language of the clauses, outside of clauses themselves.
CLAUSE = re.compile(r"\b(?:requires|ensures)\b[^{\n]*\{|ghost use [^;\n]*\{|ghost \w+: \{")


def snake(name):
    words = re.sub(r"(?<=[a-z0-9])[A-Z]+", lambda m: "_" + m[0].lower(), name.replace("getD", "get_or"))
    return words.replace("-", "_")


def is_word(name):
    head = name.lstrip("◌")
    return head[:1].islower() and (re.search(r"[a-z0-9][A-Z]", head) or "-" in head)


def files(top):
    for folder, folders, names in os.walk(os.path.join(top, "crates")):
        folders[:] = sorted(it for it in folders if it not in ("out", ".git"))
        for name in sorted(names):
            yield os.path.join(folder, name)


def read(path):
    with open(path, encoding="utf-8", newline="") as f:
        return f.read()


def own_crates(top):
    return sorted(os.listdir(os.path.join(top, "crates")))


def foreign(text, crates):
    """Returns the names that a file brings in from elsewhere: these keep their spelling there."""
    names = set()
    for path, items in USE.findall(text):
        steps = path.split(".")
        if steps[0] != "Rattle" or len(steps) < 2 or steps[1] not in crates:
            names.update(it.strip().split(" as ")[0] for it in items.split(","))
    return names


def table(top):
    names, crates = set(), own_crates(top)
    brought = collections.defaultdict(set)
    for path in files(top):
        if path.endswith(".antt") and re.search(r"/(specs|proofs)/", path):
            text = read(path)
            for word in set(TOKEN.findall(text)):
                brought[word] |= foreign(text, crates)
            names.update(INFIX.findall(text))
            # In a function's own proof only lemmas are ours: a goal of the toolchain's is named by it.
            for line in re.finditer(DECLARED, text):
                behind = text[line.end() :].split("\n", 1)[0]
                if not re.match(r" (tie|goal)\.", behind):
                    names.add(line[1])
    by, kept = {}, {it for it in names if not is_word(it)}
    # A name with capitals is a definition's, and has the first claim to its new spelling; a law of that name gets `_lem`.
    for old in sorted(filter(is_word, names), key=lambda it: ("-" in it, it)):
        new = snake(old)
        if new in kept and "-" not in old:
            # The law that has the definition's new name makes room.
            print(f"would meet another: {new}, now {new}_lem")
            by[new] = f"{new}_lem"
        elif new in kept or new in by.values() or new in brought[old]:
            print(f"would meet another: {old}, now {new}_lem")
            new += "_lem"
        by[old] = new
    return by


def in_code(text, by):
    """Turns the words of `text`, but those of a comment that have only a dash to lose."""
    def turned(line):
        code, dash, comment = line.partition("-- ") if not line.startswith("-- ") else ("", "-- ", line[3:])
        code = TOKEN.sub(lambda m: by.get(m[0], m[0]), code)
        comment = TOKEN.sub(lambda m: by.get(m[0], m[0]) if "-" not in m[0] else m[0], comment)
        return code + dash + comment

    return "\n".join(turned(it) for it in text.split("\n"))


def in_rust(text, by):
    """Turns clauses and `ghost use` lines; elsewhere only names with a capital in the middle, which no Rust here has."""
    capitals = {old: new for old, new in by.items() if is_word(old) and "-" not in old}
    out, at = [], 0
    for found in CLAUSE.finditer(text):
        if found.start() < at:
            continue
        depth, end = 1, found.end()
        while depth and end < len(text):
            depth += {"{": 1, "}": -1}.get(text[end], 0)
            end += 1
        out.append(TOKEN.sub(lambda m: capitals.get(m[0], m[0]), text[at : found.start()]))
        out.append(TOKEN.sub(lambda m: by.get(m[0], m[0]), text[found.start() : end]))
        at = end
    out.append(TOKEN.sub(lambda m: capitals.get(m[0], m[0]), text[at:]))
    return "".join(out)


def in_edit(text, by):
    of_rust, lines = False, []
    for line in text.split("\n"):
        if line.startswith("file: "):
            of_rust = line.endswith(".rt")
        head, colon, rest = line.partition(": ")
        if head in ("old", "new") and colon:
            capitals = {old: new for old, new in by.items() if is_word(old) and "-" not in old}
            rest = in_rust(rest, by) if of_rust else TOKEN.sub(lambda m: by.get(m[0], m[0]), rest)
            rest = TOKEN.sub(lambda m: capitals.get(m[0], m[0]), rest)
            line = head + colon + rest
        lines.append(line)
    return "\n".join(lines)


def in_page(text, by):
    """Turns what stands between back quotes."""
    parts = re.split(r"(```.*?```|`[^`\n]*`)", text, flags=re.S)
    return "".join(TOKEN.sub(lambda m: by.get(m[0], m[0]), it) if it.startswith("`") else it for it in parts)


def main():
    top = sys.argv[1] if len(sys.argv) > 1 else "."
    by, crates = table(top), own_crates(top)
    meet = collections.defaultdict(set)
    for old, new in by.items():
        meet[new].add(old)
    for new, olds in sorted(meet.items()):
        if len(olds) > 1:
            print(f"fall together: {', '.join(sorted(olds))} as {new}")
    pages = [os.path.join(top, "README.md")]
    docs = os.path.join(top, "docs")
    pages += [os.path.join(docs, it) for it in sorted(os.listdir(docs))]
    for path in [*files(top), *pages]:
        how = {".antt": in_code, ".rt": in_rust, ".edit": in_edit, ".md": in_page}.get(os.path.splitext(path)[1])
        if how is None:
            continue
        text = read(path)
        words = set(TOKEN.findall(text))
        if path.endswith((".antt", ".rt")):
            for old in sorted(words & set(by)):
                if by[old] in words and path.endswith(".antt") and f"/{by[old]}/" not in path:
                    print(f"stood already: {os.path.relpath(path, top)}: {by[old]} ({old})")
        theirs = foreign(text, crates)
        new = how(text, {old: new for old, new in by.items() if old not in theirs})
        if new != text:
            with open(path, "w", encoding="utf-8", newline="") as f:
                f.write(new)
    print(f"{len(by)} names respelled")


if __name__ == "__main__":
    main()
