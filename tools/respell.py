#!/usr/bin/env python3
"""Brings this repository's own definitions and lemmas to today's spelling: words in snake case.

usage: tools/respell.py [--list]     at the top of the repository, once, after the toolchain's own port script

Renames each name with a dash that specs/ and proofs/ declare: definitions, lemmas, fields, constructors, and the
variables of lemmas. A dash stays only where it joins two names, as in length-image (a lemma on length and image).
Functions of src/, strings, comments, module names, names of the library and names that the check makes stay.
It stops, with nothing written, where two names would fall together. --list prints the names and writes nothing.
"""

import os
import re
import sys

# lemmas named after two names
JOINED = {"length-image": "length-image", "length-high-first": "length-high_first"}

TOKEN = re.compile(r"(?<![\w'\-+.◌])[A-Za-z_][\w']*(?:-[\w']+)+(?![\w'\-+])")
ANY = re.compile(r"[A-Za-z_][\w']*")
CITED = re.compile(r"^\s*(?:pub )?(?:ghost )?use\s+([\w.+\-]+?)\.\{([^}]*)\}", re.M)


def files():
    for folder, dirs, names in os.walk("crates"):
        dirs[:] = sorted(d for d in dirs if d != "out")
        for name in sorted(names):
            if name.endswith((".rt", ".antt")):
                yield os.path.join(folder, name)


def is_made(path):
    """Whether a file answers goals of a function, so that its names are the check's."""
    return os.path.basename(path) in ("Answers.antt", "Invariants.antt", "Proof.antt")


def code(text, path):
    """The parts of a text that are code, as pairs of a start and an end: no comments and no strings."""
    comment = "//" if path.endswith(".rt") else "--"
    skip = re.compile(r'"(?:[^"\\\n]|\\.)*"|' + (r"//[^\n]*" if comment == "//" else r"(?:(?<=\s)|^)--\s[^\n]*"), re.M)
    at = 0
    for m in skip.finditer(text):
        yield at, m.start()
        at = m.end()
    yield at, len(text)


def foreign(text):
    """The names that a file takes from the library or from what the check makes."""
    out = set()
    for m in CITED.finditer(text):
        if not re.match(r"Rattle\.(?!std\b)\w+\.(?:specs|proofs)\b", m[1]) or ".Goals" in m[1] or ".Given" in m[1]:
            out |= {w.strip() for w in m[2].split(",")}
    return out


def new_name(name):
    if name in JOINED.values():
        return name
    return JOINED.get(name, name.replace("-", "_"))


def tokens(text, path):
    for a, b in code(text, path):
        yield from (m[0] for m in TOKEN.finditer(text, a, b))
        # a field, as r.write-time
        yield from (m[1] for m in re.finditer(r"\.([a-z][\w']*(?:-[\w']+)+)(?![\w'\-+])", text[a:b]))


def main(argv):
    texts = {p: open(p, encoding="utf-8").read() for p in files()}
    own = set()
    for path, text in texts.items():
        if path.endswith(".antt") and not is_made(path):
            library = foreign(text)
            fields = {m[1] for a, b in code(text, path) for m in re.finditer(r"\b(?:pub )?([a-z][\w']*(?:-[\w']+)+) :", text[a:b])}
            own |= {t for a, b in code(text, path) for t in (m[0] for m in TOKEN.finditer(text, a, b)) if t not in library} | fields
    table = {n: new_name(n) for n in sorted(own) if new_name(n) != n}
    seen = {}
    for path, text in texts.items():
        # paths of modules hold names of functions, which stay
        bare = re.sub(r"(?m)^use [\w.+\-]+", "", "".join(text[a:b] for a, b in code(text, path)))
        plain = set(ANY.findall(bare)) if path.endswith(".antt") else set()
        there = {t for t in tokens(text, path) if t in table}
        for name in there:
            if table[name] in plain:
                seen.setdefault((name, table[name]), []).append(path)
    if "--list" in argv:
        for name, to in table.items():
            print(name, "->", to)
    for (name, to), where in sorted(seen.items()):
        print(f"falls together: {name} and {to} in {' '.join(where)}")
    if seen:
        return 1
    if "--list" in argv:
        return 0
    changed = 0
    for path, text in texts.items():
        library = foreign(text)
        parts, at = [], 0

        def turn(m):
            name = m[0]
            return table[name] if name in table and name not in library else name

        def field(m):
            return "." + table.get(m[1], m[1])

        for a, b in code(text, path):
            parts.append(text[at:a])
            piece = TOKEN.sub(turn, text[a:b])
            if not is_made(path):
                piece = re.sub(r"(?<=[\w')])\.([a-z][\w']*(?:-[\w']+)+)(?![\w'\-+])", field, piece)
            parts.append(piece)
            at = b
        parts.append(text[at:])
        out = "".join(parts)
        if out != text:
            changed += 1
            with open(path, "w", encoding="utf-8") as f:
                f.write(out)
    print(f"{len(table)} names, {changed} files")
    return 0


if __name__ == "__main__":
    raise SystemExit(main(sys.argv[1:]))
