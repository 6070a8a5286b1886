#!/usr/bin/env python3
"""Respells this repository's own definitions and lemmas: words in snake case, types, facts and records in camel case.

usage: python3 tools/respell.py        at the top, once, after the port of the library's names

A name is ours if a file of specs/, or of proofs/ outside the goals' own names, declares it. It is turned there, in
the clauses and imports of src/, and between backquotes in README.md and docs/. Code, strings, exported names, inputs
and outputs stay. It stops, with nothing written, where two names would fall together in one crate.
"""

import collections
import glob
import re
import sys

# Facts that were named like functions.
FACTS = {"given": "IsGiven", "slip-known": "IsSlipKnown", "row-known": "IsRowKnown"}

# Names that the check makes for goals: they go by the code.
GOALS = re.compile(r"^(returns|loop|invariant|invariant_of|decreases|slice-bounds|slice_bounds|overflow|nonzero|bounds|offset)\b|-requires")

WORD = r"[^\W\d][\w'-]*"
DECLARED = re.compile(rf"(?:^[ \t]*(?:(?:pub|abbrev|unfoldable|record|data)[ \t]+)*|\blet )({WORD})(?:[ \t]+[({{][^:]*:[^:]*[)}}])*[ \t]*:(?=\s)", re.M)


def texts():
    return sorted(glob.glob("crates/*/specs/*.antt") + glob.glob("crates/*/proofs/**/*.antt", recursive=True))


def camel(name):
    return "".join(w[:1].upper() + w[1:] for w in re.split("[-_]", name))


def respelled(name):
    if name in FACTS:
        return FACTS[name]
    return camel(name) if name[0].isupper() else name.replace("-", "_")


def declared(text):
    return {m.group(1) for m in DECLARED.finditer(re.sub(r"--.*", "", text))}


def names():
    """The new name of each of ours that changes, and what falls together."""
    ours, by_crate = {}, collections.defaultdict(lambda: collections.defaultdict(set))
    for path in texts():
        with open(path, encoding="utf-8") as f:
            found = declared(f.read())
        for name in found:
            if GOALS.search(name):
                continue
            new = respelled(name)
            by_crate[path.split("/")[1]][new].add(name)
            if new != name:
                ours[name] = new
    together = [(c, new, sorted(old)) for c, news in by_crate.items() for new, old in news.items() if len(old) > 1]
    return ours, together


def changed(text, ours):
    """Outside strings."""
    pattern = r"\"[^\"\n]*\"|(?<![\w'-])(" + "|".join(sorted(map(re.escape, ours), key=len, reverse=True)) + r")(?![\w'-])"
    return re.sub(pattern, lambda m: ours[m.group(1)] if m.group(1) else m.group(0), text)


def of_antt(text, ours):
    facts = {name: new for name, new in ours.items() if name[0].isupper()}
    lines = []
    for line in text.split("\n"):
        code, dash, comment = line.partition("--")
        # in a comment a word such as on-the-way may be plain English
        lines.append(changed(code, ours) + dash + (changed(comment, facts) if facts else comment))
    return "\n".join(lines)


def of_rt(text, ours):
    """Only imports, clauses and ghost fields."""
    out, at = [], 0
    for m in re.finditer(r"^[ \t]*(?:ghost use\b|(?:requires|ensures|ghost)\b\*?[^{\n;]*\{|(?:pub )?ghost\b[^{\n]*\{)", text, re.M):
        if m.start() < at:
            continue
        if "ghost use" in m.group(0):
            end = text.index(";", m.end())
        else:
            end, depth = m.end(), 1
            while depth:
                depth += {"{": 1, "}": -1}.get(text[end], 0)
                end += 1
        out += [text[at : m.start()], changed(text[m.start() : end], ours)]
        at = end
    return "".join(out) + text[at:]


def of_page(text, ours):
    ours = {name: new for name, new in ours.items() if "-" in name or "_" in name}
    return re.sub(r"`[^`\n]+`", lambda m: changed(m.group(0), ours), text) if ours else text


def main():
    ours, together = names()
    if together:
        for crate, new, old in together:
            print(f"{crate}: {', '.join(old)} would all be {new}")
        return 1
    if not ours:
        print("nothing to respell")
        return 0
    pages = ["README.md"] + sorted(glob.glob("docs/*.md"))
    for paths, turn in ((texts(), of_antt), (sorted(glob.glob("crates/*/src/*.rt")), of_rt), (pages, of_page)):
        for path in paths:
            with open(path, encoding="utf-8") as f:
                text = f.read()
            new = turn(text, ours)
            if new != text:
                with open(path, "w", encoding="utf-8") as f:
                    f.write(new)
    for name in sorted(ours):
        print(f"{name} -> {ours[name]}")
    return 0


if __name__ == "__main__":
    sys.exit(main())
