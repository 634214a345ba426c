#!/usr/bin/env python3
"""Counts the places where a form of the older language could stand; `--list` names them.

Run from the root. Each pattern takes in more than it means: what is found is read, and docs/DESIGN-PASS.md says of each
whether it was changed or why it stays.
"""
import collections
import glob
import re
import sys

SOURCES = sorted(glob.glob("crates/*/src/**/*.rt", recursive=True))
NUMBER = r"(u8|u16|u32|u64|i32|usize)"

PATTERNS = [
    ("1 own enums", r"^(pub(\(crate\))? )?enum \w+"),
    ("1 numbers for kinds and refusals",
     r"const [A-Z_]+: (u8|i32) = \d+;|Result<.*, i32>|\.number\(\) as i32|Refused\(u8\)"
     r"|match (\w+\.)?(make|shape|guessing|width)( / 2)? \{|(guessing|make % 2) == \d|^fn \w+.* -> u8 \{"),
    ("1 refusals passed on by hand", r"Err\((fault|_|number|error)\) => |let Ok\(.*else|let (Some\(.*\)|None) = S::"),
    ("2 implementations for one type or constant after another",
     r"^impl (BitArray|Symbol|Wide|UniformRange|Support|NarrowSymbol|Distribution|Inverse|Tunable|Replayed|Handed\w*|Question\w*) for|^impl<.*> (Distribution|Inverse|Replayed) for"),
    ("2 macros in the place of a generic function", r"macro_rules!"),
    ("3 loops", r"^\s*(while|loop)\b|^\s*for .* in "),
    ("3 indices counted by hand", r"\+= 1;|^\s*for \w+ in .*\.\.|\.enumerate\(\)|\[i\]"),
    ("4 equality, order and copying by hand", r"^impl.* (PartialEq|Eq|PartialOrd|Ord|Clone|Copy|Hash) for"),
    ("4 conversion by hand", r"[<>] \w+::(MAX|MIN) as|Some\(\w+ as \w+\)|_le_bytes\(\["),
    ("4 printing by hand", r"fn (show|put|push)_\w+|print(ln)?!\("),
    ("6 buffers in parallel", r"starts: (&mut \[|Vec<)"),
    ("6 lists searched by hand", r"high - low > 1|step == 1"),
    ("7 switches on a step", r"match (self\.)?(question|asked|ask|step|pace) \{|\$run:expr|: (Question|Asked)\b"),
]


def clauses(text):
    """The clauses of a file, each with the function that it stands at."""
    name = None
    for line in text.split("\n"):
        found = re.search(r"\bfn (\w+)", line)
        if found:
            name = found.group(1)
        found = re.match(r"\s*(requires|ensures)\S*( \w+)? \{(.*)\}", line)
        if found and name:
            yield name, found.group(3)


def terms(clause):
    """The applications in parentheses that read the arguments or the state."""
    stack = []
    for at, sign in enumerate(clause):
        if sign == "(":
            stack.append(at)
        if sign == ")" and stack:
            term = clause[stack.pop():at + 1]
            if len(term.split()) > 2 and ".now" in term or ".old" in term:
                yield re.sub(r"\.(now|old|new)\b", "", term)


def repeated():
    """Terms in the clauses of three functions of a file, and of more."""
    for path in SOURCES:
        at = collections.defaultdict(set)
        for name, clause in clauses(open(path).read()):
            for term in terms(clause):
                at[term].add(name)
        for term, names in at.items():
            if len(names) > 2:
                yield f"{path}: {len(names)} functions: {term}"


def long_lists():
    """Functions of six parameters and more."""
    for path in SOURCES:
        for name, given in re.findall(r"\bfn (\w+)(?:<[^(]*>)?\(([^)]*)\)", open(path).read()):
            if len([p for p in given.split(",") if p.strip()]) > 5:
                yield f"{path}: {name}"


def show(name, places):
    print(f"{name}: {len(places)}")
    if "--list" in sys.argv:
        for place in places:
            print(f"    {place}")


for name, pattern in PATTERNS:
    places = []
    for path in SOURCES:
        for number, line in enumerate(open(path).read().split("\n"), 1):
            if re.search(pattern, line) and not re.match(r"\s*//", line):
                places.append(f"{path}:{number}: {line.strip()}")
    show(name, places)
show("5 terms that three functions' clauses have", list(repeated()))
show("5 functions of six parameters and more", list(long_lists()))
proofs = sorted(glob.glob("crates/*/proofs/**/*.antt", recursive=True))
answers = [p for p in proofs if p.endswith("Answers.antt")]
lines = sum(len(open(p).read().split("\n")) for p in proofs)
print(f"8 files of answers: {len(answers)}; files of proofs: {len(proofs)}, {lines} lines")
