#!/usr/bin/env python3
"""Brings the repository's own definitions and lemmas to today's spelling: words in snake case, types and facts in camel case.

usage: python3 tools/respell.py [TOP]     run once, at the top of the repository (or on the copy TOP), right after port.py

Renames what the .antt files of crates/ declare with a dash in its name: definitions, lemmas, fields, constructors.
A name that begins with a capital loses its dashes and takes capitals (Never-over: NeverOver), any other takes
underscores (ask-axis: ask_axis). Goals, whose names come from the code, are left alone, and so are the strings and
comments of Rust files. A name that would fall together with another one gets the ending _lem.
"""

import os
import re
import sys

TOKEN = re.compile(r"[A-Za-z_μ][A-Za-z_0-9'μ₀₁₂₃]*(?:-[A-Za-z_0-9'μ₀₁₂₃]+)+(?![A-Za-z_0-9'-])")
GOAL = re.compile(r"^(?:abbrev )?(?:unfoldable )?(?:pub )?(\S+) : (?:goal|given|need)\.")
DECLARED = re.compile(r"^\s*(?:(?:abbrev|unfoldable|pub|record|data|ruleset) )*([^\s(){};,.]+) *(?::|\(|\{|where|$)")
# a Rust string, a byte or character, or a comment
TEXT = re.compile(r'//[^\n]*|b?"(?:[^"\\]|\\.)*"|b?\'(?:[^\'\\\n]|\\.)\'')


def files(top, endings):
    for folder, inner, found in os.walk(os.path.join(top, "crates")):
        inner[:] = sorted(d for d in inner if d != "out")
        for name in sorted(found):
            if name.endswith(endings):
                yield os.path.join(folder, name)


def read(path):
    with open(path, encoding="utf-8") as f:
        return f.read()


def respelled(name):
    if name[0].isupper():
        return "".join(word[0].upper() + word[1:] for word in name.split("-"))
    return re.sub(r"([a-z0-9])([A-Z])", lambda m: m.group(1) + "_" + m.group(2).lower(), name).replace("-", "_")


def declared(top):
    names, goals, words = set(), set(), {}
    for path in files(top, (".antt",)):
        text = read(path)
        for word in set(re.findall(r"[A-Za-z_][A-Za-z_0-9']*", text)):
            words.setdefault(word, set()).add(path)
        for line in text.split("\n"):
            goal = GOAL.match(line)
            if goal:
                goals.add(goal.group(1))
                continue
            found = DECLARED.match(line)
            if found and TOKEN.fullmatch(found.group(1)):
                names.add(found.group(1))
    return names - goals, words


def main():
    top = sys.argv[1] if len(sys.argv) > 1 else "."
    names, _ = declared(top)
    new = {n: respelled(n) for n in names}
    # the library has in_float
    for name in ("in-float",):
        if name in new:
            new[name] = respelled(name) + "_lem"
    if len(set(new.values())) != len(new):
        sys.exit("two names fall together")
    turn = lambda text: TOKEN.sub(lambda m: new.get(m.group(0), m.group(0)), text)
    changed = 0
    for path in files(top, (".antt", ".rt", ".edit")):
        text = read(path)
        if path.endswith(".rt"):
            out, at = [], 0
            for kept in TEXT.finditer(text):
                out += [turn(text[at:kept.start()]), kept.group(0)]
                at = kept.end()
            after = "".join(out) + turn(text[at:])
        else:
            after = turn(text)
        if after != text:
            changed += 1
            with open(path, "w", encoding="utf-8") as f:
                f.write(after)
    print(f"respell: {len(new)} names, {changed} files")


main()
