#!/usr/bin/env python3
"""Brings this repository's own definitions and lemmas to the spelling of today's Rattle: words in snake case, types in camel case.

usage: python3 tools/respell.py      once, at the top, after the kit's port.py

It renames what specs/ and the lemma files of proofs/ define and what a 'use' line calls by another name, in specs/, proofs/,
the clauses and 'ghost use' lines of src/, README.md and docs/. Names of functions, strings, inputs and outputs stay. It stops
if two names would fall together. Where a definition's new name is that of a function or parameter in the same file of src/,
the 'ghost use' line there gets another name for it, from ALIASES.
"""

import collections
import glob
import re
import sys

WORD = re.compile(r"(?<![\w'◌])(?:[A-Za-z_][\w']*(?:-[\w']+)+|[A-Z]\w*_\w+)(?![\w'◌-])")
DEFINED = re.compile(r"\s*(?:(?:abbrev|unfoldable|pub|opaque|record|data)\s+)*([^\s:(){},;=.]+)\s*(?:[({].*)?:\s")
USE = re.compile(r"use ([\w.'-]+)\.\{([^}]*)\}")
CLAUSE = re.compile(r"^\s*(requires|ensures|ghost)\b")
STRING = re.compile(r'"(?:[^"\\]|\\.)*"')
ALIASES = {
    "width_out": "width_leaving",
    "left_over": "persons_left_over",
    "row_speed": "speed_of_row",
    "empty_source": "empty_line",
    "full_source": "full_line",
    "first_speed": "speed_at_start",
    "arrivals_at": "arrivals_of",
    "slow_row": "slowed_row",
}


def read(path):
    with open(path, encoding="utf-8") as f:
        return f.read()


def new_name(name):
    if name[0].isupper():
        return "".join(p[:1].upper() + p[1:] for p in re.split("[-_]", name))
    return name.replace("-", "_")


def imports(text):
    """Each (path, name, alias or '') that the use lines of a text bring in."""
    for m in USE.finditer(text):
        for item in m.group(2).split(","):
            name, _, alias = item.strip().partition(" as ")
            yield m.group(1), name, alias


def is_own(path, crates):
    parts = path.split(".")
    return parts[0] == "Rattle" and len(parts) > 1 and parts[1] in crates


def collect(crates):
    names = set()
    for path in glob.glob("crates/*/specs/*.antt") + glob.glob("crates/*/proofs/*.antt"):
        for line in read(path).splitlines():
            m = DEFINED.match(line)
            if m:
                names.add(m.group(1))
    for path in glob.glob("crates/**/*.antt", recursive=True) + glob.glob("crates/*/src/*.rt"):
        for where, _, alias in imports(read(path)):
            if alias and is_own(where, crates):
                names.add(alias)
    return names


def together(names, renamed):
    groups = collections.defaultdict(list)
    for old, new in renamed.items():
        groups[new].append(old)
    return [f"{new}: {olds}" for new, olds in groups.items() if len(olds) > 1 or new in names]


def respell(text, renamed, kept):
    return WORD.sub(lambda m: renamed.get(m.group(0), m.group(0)) if m.group(0) not in kept else m.group(0), text)


def code_words(text):
    """The words of the code of a file of src/, clauses, comments and ghost lines left out."""
    lines = [l.split("//")[0] for l in text.splitlines() if not l.startswith("ghost use") and not CLAUSE.match(l)]
    return set(re.findall(r"[A-Za-z_]\w*", "\n".join(lines)))


def respell_source(text, renamed, kept):
    words, out, clashing = code_words(text), [], {}
    for _, name, alias in imports(text):
        used = alias or name
        if used in renamed and renamed[used] in words and renamed[used] in ALIASES:
            clashing[used] = ALIASES[renamed[used]]
    for line in text.splitlines(keepends=True):
        if line.startswith("ghost use"):
            for old, alias in clashing.items():
                line = re.sub(rf"(?<![\w-]){re.escape(old)}(?=[,}}])", f"{renamed[old]} as {alias}", line)
            line = respell(line, renamed, kept)
        elif CLAUSE.match(line):
            line = respell(line, renamed | clashing, kept)
        out.append(line)
    return "".join(out)


def respell_page(text, renamed):
    return re.sub(r"`[^`\n]+`", lambda m: respell(m.group(0), renamed, set()), text)


def main():
    crates = {p.split("/")[1] for p in glob.glob("crates/*/src/*.rt")}
    names = collect(crates)
    renamed = {n: new_name(n) for n in names if WORD.fullmatch(n) and new_name(n) != n}
    fallen = together(names, renamed)
    if fallen:
        sys.exit("names fall together:\n" + "\n".join(fallen))
    for path in sorted(glob.glob("crates/**/*.antt", recursive=True) + glob.glob("crates/*/src/*.rt") + ["README.md"] + glob.glob("docs/*.md")):
        text = read(path)
        kept = {alias or name for where, name, alias in imports(text) if not is_own(where, crates)}
        if path.endswith(".rt"):
            new = respell_source(text, renamed, kept)
        elif path.endswith(".md"):
            new = respell_page(text, renamed)
        else:
            new = respell(text, renamed, kept)
        if new != text:
            with open(path, "w", encoding="utf-8") as f:
                f.write(new)
    print(f"respell: {len(renamed)} names")


main()
