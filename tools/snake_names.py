#!/usr/bin/env python3
"""Brings the repository's own definitions and lemmas to one spelling: words in snake case, types in camel case.

usage: python3 tools/snake_names.py     at the top of the repository, once, right after the toolchain's port script

`record-of` becomes `record_of`, `Holds-current` becomes `HoldsCurrent`. A lemma about a type of the library that begins
with the type's name, as `All-class`, keeps its dash. Names of goals, of functions, of steps in a goal's facts, and names
that a file takes from the library stay as they are.
"""
import glob
import re
import sys

WORD = r"[A-Za-z0-9_'ₐ-ₜ₀-₉]"
NAME = re.compile(rf"(?<![\w'\-])([A-Za-z]{WORD}*(?:-{WORD}+)+)(?![\w'\-])")
HEAD = re.compile(r"^(?:(?:abbrev|unfoldable|pub|opaque|record|data|irrelevant)\s+)*([A-Za-z][^\s:(){}.]*)\s*(?=:|\()")
FIELD = re.compile(r"^\s+(?:pub\s+)?([A-Za-z][^\s:(){}.]*)\s+:\s")
ALIAS = re.compile(r"^use\s+(\S+)\s+as\s+(\S+)", re.M)
IMPORT = re.compile(r"^(?:ghost )?use\s+(?:pub\s+)?Rattle\.(\w+)\.\S*?\{([^}]*)\}|^(?:ghost )?use\s+([a-z]\w*)\.\S*?\{([^}]*)\}", re.M)


def files(crates):
    for kind in ("specs/**/*.antt", "proofs/**/*.antt", "src/**/*.rt"):
        yield from sorted(glob.glob(f"crates/*/{kind}", recursive=True))
    yield from sorted(glob.glob("crates/*/must-fail/*.edit"))
    yield from ["README.md", *sorted(glob.glob("docs/*.md")), *sorted(glob.glob("crates/*/must-fail/*.md"))]


# A name of the library has the new spelling already.
TAKEN = {"bit-and": "bit_of_and", "bit-or": "bit_of_or"}


def spelled(name):
    if name in TAKEN:
        return TAKEN[name]
    if name[0].isupper():
        first, *rest = name.split("-")
        return first + "".join(w[0].upper() + w[1:] for w in rest)
    return name.replace("-", "_")


def goals_of(text):
    return set(re.findall(r"^(?:(?:abbrev|pub)\s+)*(\S+)\s*:\s*(?:goal|given)\.", text, re.M))


def own_names():
    names = set()
    for path in glob.glob("crates/*/specs/**/*.antt", recursive=True) + glob.glob("crates/*/proofs/**/*.antt", recursive=True):
        text = open(path, encoding="utf-8").read()
        goals = goals_of(text)
        in_record, sections = False, []
        for line in text.split("\n"):
            indent = len(line) - len(line.lstrip())
            if line.strip():
                sections = [s for s in sections if s < indent]
            if not indent or sections and indent == sections[-1] + 2:
                if not indent and line:
                    in_record = bool(re.match(r"^(?:pub\s+)?(?:record|data)\s", line))
                found = HEAD.match(line[indent:])
                if re.match(r"module _", line[indent:]):
                    sections.append(indent)
            else:
                found = FIELD.match(line) if in_record else None
            if found and "-" in found.group(1) and found.group(1) not in goals and NAME.fullmatch(found.group(1)):
                names.add(found.group(1))
    return {n for n in names if not n.startswith("All-")}


def foreign(text, crates):
    """The names that a file takes from the library and not from a crate of this repository."""
    names = set()
    for crate, items, other, more in IMPORT.findall(text):
        if other or crate not in crates:
            names |= {i.split(" as ")[-1].strip() for i in (items or more).split(",")}
    return names


def parts(path, line):
    """The line in pieces, each with whether names in it are to be turned."""
    if path.endswith(".md"):
        for k, piece in enumerate(re.split(r"(`[^`]+`)", line)):
            yield piece, k % 2 == 1
        return
    mark = "--" if path.endswith(".antt") else "//"
    at = line.find(mark + " ") if not path.endswith(".edit") else -1
    if line.strip().startswith(mark):
        at = line.index(mark)
    code, comment = (line, "") if at < 0 else (line[:at], line[at:])
    yield code, True
    for k, piece in enumerate(re.split(r"(`[^`]*`)", comment)):
        yield piece, k % 2 == 1


def main():
    crates = {p.split("/")[1] for p in glob.glob("crates/*/src")}
    own = own_names()
    new = {}
    for name in sorted(own):
        if spelled(name) in new.values():
            sys.exit(f"{name}: its new name is another's too")
        new[name] = spelled(name)
    for path in files(crates):
        text = open(path, encoding="utf-8").read()
        keep = foreign(text, crates) | goals_of(text)
        aliases = {a for _, a in ALIAS.findall(text)}

        def turned(match):
            name = match.group(1)
            if name not in new or name in keep:
                return name
            before = match.string[: match.start()]
            chain = re.search(r"([\w'\-]+(?:\.[\w'\-+]+)*)\.$", before)
            if chain and chain.group(1).split(".")[0] in ("c", "goal", "given"):
                return name
            if chain and chain.group(1).split(".")[0] in ("l", "w", "g") and chain.group(1) not in aliases:
                return name
            return new[name]

        out = []
        for line in text.split("\n"):
            out.append("".join(NAME.sub(turned, piece) if code else piece for piece, code in parts(path, line)))
        now = "\n".join(out)
        if now != text:
            open(path, "w", encoding="utf-8").write(now)
    print(f"{len(new)} names")


main()
