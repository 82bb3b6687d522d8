#!/usr/bin/env python3
"""Brings the repository's own definitions and lemmas to today's spelling.

usage: python3 tools/respell.py [TOP]      once, right after the kit's port.py, at the top of the repository

A name that a file of specs/ or proofs/ gives, be it of a definition, a lemma, a field or a constructor, is written in snake case; a fact, which
begins with a capital word, is written in camel case; a prime is an apostrophe. Names that the kit or Rattle gives, goals among them, and names
of functions in src/ stay as they are. Comments and strings stay as they are, but for what stands in backquotes in a page of docs/ or in README.md.
"""

import glob
import os
import re
import sys

NAME = r"[A-Za-z][A-Za-z0-9_'′-]*"
GIVEN = re.compile(r"^\s*(?:(?:abbrev|unfoldable|pub|data|record)\s+)*(" + NAME + r")(?:\s+\([^)]*\)|\s+\{[^}]*\})*\s*:\s")
GOAL = re.compile(r":\s*goal\.")
TOKEN = re.compile(r"(?<![A-Za-z0-9_'′-])" + NAME)

# A lemma that would have the name of the function that it is about.
TAKEN = {"bit-and": "bit_and_lem", "bit-or": "bit_or_lem"}


def spelled(name):
    """Today's spelling of a name."""
    if name in TAKEN:
        return TAKEN[name]
    name = name.replace("′", "'")
    words = name.split("-")
    if name[0].isupper() and len(words) > 1 and len(words[0]) > 1:
        return "".join(w[0].upper() + w[1:] for w in words)
    if name[0].islower() and len(words) == 1:
        name = re.sub(r"([A-Z])", lambda m: "_" + m[1].lower(), name)
    return name.replace("-", "_")


def files(top, *patterns):
    return sorted(f for p in patterns for f in glob.glob(os.path.join(top, p), recursive=True) if os.path.isfile(f))


def read(path):
    with open(path, encoding="utf-8") as f:
        return f.read()


def given(paths):
    """The names that the files give, each with its spelling, where that is another."""
    names = {}
    for path in paths:
        for line in read(path).splitlines():
            m = GIVEN.match(line)
            if m and not line.lstrip().startswith("--") and not GOAL.search(line) and spelled(m[1]) != m[1]:
                names[m[1]] = spelled(m[1])
    return names


def turn(text, names):
    return TOKEN.sub(lambda m: names.get(m[0], m[0]), text)


def turn_antt(text, names):
    """Each line up to its comment, and without its strings."""
    out = []
    for line in text.split("\n"):
        cut = re.search(r"(^|\s)--(\s|$)", line)
        code, rest = (line[: cut.start()], line[cut.start() :]) if cut else (line, "")
        parts = re.split(r'("[^"]*")', code)
        out.append("".join(p if p.startswith('"') else turn(p, names) for p in parts) + rest)
    return "\n".join(out)


def turn_rt(text, names):
    """All but comments, strings and characters."""
    parts = re.split(r"""(//[^\n]*|b?"(?:\\.|[^"\\])*"|b?'(?:\\.|[^'\\\n])')""", text)
    return "".join(p if i % 2 else turn(p, names) for i, p in enumerate(parts))


def turn_page(text, names):
    """What stands in backquotes."""
    return re.sub(r"`[^`\n]+`", lambda m: turn(m[0], names), text)


def main(top):
    antt = files(top, "crates/*/specs/**/*.antt", "crates/*/proofs/**/*.antt")
    names = given(antt)
    kinds = [(antt, turn_antt), (files(top, "crates/*/src/**/*.rt", "crates/*/must-fail/*.edit", "crates/*/refused/*.edit"), turn_rt), (files(top, "docs/*.md", "README.md"), turn_page)]
    for paths, how in kinds:
        for path in paths:
            old = read(path)
            new = how(old, names)
            if new != old:
                with open(path, "w", encoding="utf-8") as f:
                    f.write(new)
    print(f"respell: {len(names)} names")


if __name__ == "__main__":
    main(sys.argv[1] if len(sys.argv) > 1 else ".")
