#!/usr/bin/env python3
"""Lists the lines and functions of crates/*/src that docs/DESIGN-PASS.md counts its places from.

    tools/places.py [FOLDER]     FOLDER is the top of a checkout, this one if none is given

A hit is a place to look at; which hits are places, the page says by name.
"""
import collections
import itertools
import pathlib
import re
import sys

LINES = [
    ("1, enums", r"^ *(pub(\(crate\))? )?enum \w+"),
    ("1, flags in a struct or variant", r"^ +(pub(\(crate\))? )?\w+: bool,|\{ .*\w+: bool \}"),
    ("1, numbers for kinds and refusals", r"^(pub )?const [A-Z_]+: (u8|u16|u32|usize)\b|^ +(pub(\(crate\))? )?(number|code|kind): u"),
    ("3, loops", r"^ +(for|while|loop)\b.*\{$"),
    ("4, comparisons", r"fn (is|same|eq|cmp|copy|clone)(_\w+)?\("),
    ("4, conversions", r" as u(8|16|32)|256 \*|/ 256|% 256|char::from\(|c - (48|55|87)|\(word >> \d\)"),
    ("4, printing", r"fn \w*(name|text|digit|with_octet|with_word)\w*[<(]"),
    ("6, lengths, places and arrays in a struct", r"^    (pub(\(crate\))? )?\w+: (usize|\[\w+; \d+\]),"),
    ("7, flags and functions handed over", r"\bfn .*: bool[,)]|: fn\(|\bdyn "),
]

VIEWS = r"\b(\w+_of|spelt|said|kept_by_\w+|answered|told)\b"


def sources(top):
    for path in sorted(top.glob("crates/*/src/**/*.rt")):
        yield path.relative_to(top), path.read_text().split("\n")


def is_comment(line):
    return line.lstrip().startswith("//")


def by_line(top):
    for point, pattern in LINES:
        hits = [
            (path, i + 1, line.strip())
            for path, lines in sources(top)
            for i, line in enumerate(lines)
            if re.search(pattern, line) and not is_comment(line)
            and not re.match(r"^ *(ensures|requires|ghost) ", line)
        ]
        print(f"\n== point {point}: {len(hits)}")
        for path, i, line in hits:
            print(f"{path}:{i}: {line}")


def functions(path, lines):
    """Each function with a body, by its name, its place and its body's shape: names and literals do not count."""
    text = "\n".join("" if is_comment(l) or l.strip().startswith(("ensures", "requires")) else l for l in lines)
    for found in re.finditer(r"\bfn (\w+)[<(]", text):
        start = text.find("{", found.end())
        semicolon = text.find(";", found.end())
        if start < 0 or 0 <= semicolon < start and "[" not in text[found.end():semicolon]:
            continue
        depth, end = 0, start
        while end < len(text):
            depth += {"{": 1, "}": -1}.get(text[end], 0)
            end += 1
            if depth == 0:
                break
        body = re.sub(r'b?"[^"]*"|b?\'[^\']\'|\b\d\w*', "0", text[start:end])
        words = re.findall(r"[A-Za-z_]\w*|\S", body)
        keywords = "if else match for in return let mut while loop Some None Ok Err self as fn".split()
        shape = " ".join(w if w in keywords or not re.match(r"\w", w) else "x" for w in words)
        if len(words) >= 6:
            yield found.group(1), text[: found.start()].count("\n") + 1, shape


def twins(top):
    groups = collections.defaultdict(list)
    for path, lines in sources(top):
        if path.parts[1] == "edges":
            continue
        for name, line, shape in functions(path, lines):
            groups[shape].append(f"{path}:{line}: {name}")
    same = [g for g in groups.values() if len(g) > 1]
    print(f"\n== point 2, functions of one shape: {sum(map(len, same))} in {len(same)} groups")
    for group in same:
        print("  ~ ".join(group))


def parameters(text):
    """The parameters of each signature, as `name: type`, without a receiver."""
    for found in re.finditer(r"\bfn \w+(?:<[^(]*>)?\(([^)]*)\)", text):
        yield {" ".join(p.split()) for p in found.group(1).split(",") if ":" in p}


def together(top):
    pairs = collections.Counter()
    for path, lines in sources(top):
        for names in parameters("\n".join(l for l in lines if not is_comment(l))):
            pairs.update(itertools.combinations(sorted(names), 2))
    often = [(pair, n) for pair, n in pairs.most_common() if n > 2]
    print(f"\n== point 5, pairs of parameters in three functions or more: {len(often)}")
    for (one, other), n in often:
        print(f"{one}, {other}: {n} functions")


def views(top):
    count = collections.Counter()
    for _, lines in sources(top):
        for line in lines:
            if re.match(r"^ +(ensures|requires) ", line):
                count.update(set(re.findall(VIEWS, line)))
    often = [(name, n) for name, n in count.most_common() if n > 2]
    print(f"\n== point 5, views of a value in three clauses or more: {len(often)}")
    for name, n in often:
        print(f"{name}: {n} clauses")


top = pathlib.Path(sys.argv[1] if len(sys.argv) > 1 else pathlib.Path(__file__).resolve().parent.parent)
by_line(top)
twins(top)
together(top)
views(top)
