#!/usr/bin/env python3
"""Finds the places in src/ that docs/DESIGN-PASS.md counts.

usage: python3 tools/places.py [--list] [FOLDER]

For each kind of place it prints how many there are in FOLDER's crates/*/src/*.rt (this repository's, without FOLDER);
with --list also where each stands. A pattern finds candidates: the page says of those that are left why they stay.
"""
import re
import sys
from collections import Counter
from pathlib import Path

# point, name, pattern; each match is a place
LINES = [
    (1, "own enums (read by eye for the shape of Option or Result)", r"^ *(pub(\([a-z]+\))? )?enum \w+"),
    (1, "a flag beside a value", r"\((bool, [^)]+|[^()]+, bool)\)(?= *(\{|$|,|>))(?!.*ensures)"),
    (1, "a number where there is none: a fallback to 0 or to the length",
     r"unwrap_or\((0|alone)\)|None => 0,|^ +self\.count\(\)$|reversed, 0\), 0|bank, 0\), 0|below\.axis != 0|rig\.axis != 0"),
    (1, "numbers for kinds or refusals, told as u16", r"-> u16\b|-> Result<u16"),
    (1, "a bool that says whether a change was made", r"fn [^\n]*&mut [^\n]*-> bool"),
    (3, "while", r"^ *while "),
    (3, "for over numbers", r"^ *for \w+ in [^&{]*\.\."),
    (3, "a count made by hand", r"^ +(\w+|\*\w+) \+= 1;|^ +\w+ -= 1;|^ +self\.\w+ \+= 1;"),
    (4, "constructors without arguments", r"\bfn (new|none|free|unused)\(\)"),
    (4, "conversions and printing by hand",
     r"\bfn (word|number|code|message|code_told|message_told|refusal_words|name|wanted|named|drive_named|axis_named|"
     r"stride|share|number_of|narrow_\w+)(<[^(]*>)?\("),
    (4, "a profile of zeros written out", r"velocity: 0,$"),
    (6, "an array of fixed length in a struct", r"^ +(pub(\([a-z]+\))? )?\w+: \[[A-Za-z0-9]+; \w+\],"),
    (6, "a length beside a buffer", r"len: &mut usize|^ +(pub(\([a-z]+\))? )?(len|size|count): usize,"),
    (6, "an array filled by index in a function", r"^ +let mut \w+ = \[[^\]]*; \d+\];"),
    (7, "macros", r"macro_rules!"),
    (7, "enums of steps", r"enum (Order|Goal|Figure)\b"),
]
# point, name, what a function's parameters must all have
TOGETHER = [
    (5, "out and at together", [r"out: &mut \[u8\]", r"at: usize"]),
    (5, "a desk and a drive looked at together", [r"desk: &Desk", r"drive: &D\b"]),
    (5, "a desk and a drive changed together", [r"desk: &mut Desk", r"drive: &mut D\b"]),
    (5, "a mnemonic and its command together", [r"m: Mnemonic", r"command: &Command"]),
    (5, "slots and their length together", [r"slots: ", r"len: "]),
]
FUNCTION = re.compile(r"\bfn (\w+)(?:<[^(]*>)?\(([^{;]*?)\)\s*(?:->|where|requires|ensures|\{)", re.S)


def sources(folder):
    return {f: f.read_text() for f in sorted(folder.glob("crates/*/src/*.rt"))}


def code(line):
    return not line.lstrip().startswith("//")


def found(texts):
    for point, name, pattern in LINES:
        rule = re.compile(pattern)
        yield point, name, [(f, n, line.strip()) for f, t in texts.items() for n, line in enumerate(t.split("\n"), 1)
                            if code(line) and rule.search(line)]
    for point, name, parts in TOGETHER:
        yield point, name, [(f, t.count("\n", 0, m.start()) + 1, "fn " + m.group(1)) for f, t in texts.items()
                            for m in FUNCTION.finditer(t) if all(re.search(p, m.group(2)) for p in parts)]
    facts = Counter()
    for t in texts.values():
        facts.update(m.group(1) for m in re.finditer(r"^ *requires[^{\n]*(\{.*\}) *$", t, re.M))
    for fact, times in facts.most_common():
        if times >= 3:
            yield 5, f"requires {fact}", [(f, n, "") for f, t in texts.items() for n, line in enumerate(t.split("\n"), 1)
                                          if line.lstrip().startswith("requires") and fact in line]


def main(words):
    show = "--list" in words
    rest = [w for w in words if w != "--list"]
    folder = Path(rest[0]) if rest else Path(__file__).resolve().parent.parent
    for point, name, places in sorted(found(sources(folder)), key=lambda p: p[0]):
        print(f"{point}  {len(places):4}  {name}")
        if show:
            for f, n, line in places:
                print(f"           {f.relative_to(folder)}:{n}: {line}")


main(sys.argv[1:])
