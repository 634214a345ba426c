#!/usr/bin/env python3
"""Respells the repository's own definitions and lemmas: words in snake case, types in camel case.

usage: tools/respell.py, at the top of the repository, once, after the toolchain's port.py.
It goes by whole words, in crates/*/specs, crates/*/proofs, the ghost text of crates/*/src, README.md and docs/.
"""

import collections
import glob
import re
import sys

WORD = re.compile(r"[^\s(){}.;,@\"«»`:]+")
HEAD = re.compile(
    r"\s*(?:pub )?(?:abbrev pub |abbrev |unfoldable pub |unfoldable |pub data |pub record |data |record |pub ruleset |ruleset |pub )?"
    r"([^\s(){}.;,@\"«»`:]+)(?= *(?::|\(|\{|=))"
)
# where the plain rule meets a name that stands already: a lemma beside its definition, a definition beside a field
APART = {
    "half-below": "half_below_lem",
    "piece-at": "piece_at_lem",
    "row-line": "row_line_lem",
    "freeWeight": "free_weight_of",
}
QUIET = {"--", "let", "elim", "rw", "record", "use", "module", "where", "in", "subst", "λ", "|", "abbrev", "unfolding"}


def declared():
    """Names that specs/ and the lemma files of proofs/ declare, types apart."""
    names, types = set(), set()
    for path in sorted(glob.glob("crates/*/specs/*.antt") + glob.glob("crates/*/proofs/*.antt")):
        for line in open(path, encoding="utf-8"):
            match = HEAD.match(line)
            if match and match.group(1) not in QUIET:
                name = match.group(1)
                (types if name[0].isupper() else names).add(name)
    return names, types


def borrowed():
    """Names that come from the toolchain's libraries."""
    found = set()
    for path in glob.glob("crates/**/*.antt", recursive=True) + glob.glob("crates/*/src/**/*.rt", recursive=True):
        text = open(path, encoding="utf-8").read()
        for head, items in re.findall(r"use ((?!Rattle\.(?:%s)\.)[\w.+◌·-]+)\.\{([^}]*)\}" % OWN, text):
            for item in items.split(","):
                found.add(item.strip().split(" as ")[0])
    return found


def snake(name):
    if name in APART:
        return APART[name]
    name = re.sub(r"([a-z0-9])([A-Z])", lambda m: m.group(1) + "_" + m.group(2).lower(), name)
    return name.replace("-", "_").replace("′", "'")


def camel(name):
    if name.startswith("Le-"):
        return name
    head, *rest = name.split("-")
    return head + "".join(part[:1].upper() + part[1:] for part in rest)


OWN = "|".join(sorted(path.split("/")[1] for path in glob.glob("crates/*/")))


def main():
    names, types = declared()
    taken = borrowed()
    table = {}
    for name in names - taken:
        if name != snake(name):
            table[name] = snake(name)
    for name in types - taken:
        if name != camel(name):
            table[name] = camel(name)
    met = collections.defaultdict(set)
    for name in names | types | taken:
        met[table.get(name, name)].add(name)
    for new, old in sorted(met.items()):
        if len(old) > 1:
            print("fall together:", new, sorted(old))

    def turn(match):
        return table.get(match.group(0), match.group(0))

    paths = glob.glob("crates/**/*.antt", recursive=True) + glob.glob("crates/*/src/**/*.rt", recursive=True)
    paths += ["README.md"] + glob.glob("docs/*.md")
    for path in paths:
        text = open(path, encoding="utf-8").read()
        new = WORD.sub(turn, text)
        if new != text:
            open(path, "w", encoding="utf-8").write(new)
    print(len(table), "names respelled", file=sys.stderr)
    if "--table" in sys.argv:
        for old in sorted(table):
            print(old, table[old])


if __name__ == "__main__":
    main()
