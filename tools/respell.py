#!/usr/bin/env python3
"""Spells this repository's own definitions and lemmas in snake case, once, after /opt/rattle/port/port.py.

usage: tools/respell.py [--list]      at the top of the repository

A name is one that a file of specs/ or proofs/ declares: a definition, a lemma, a constructor or a field. `bigEndian` becomes `big_endian`
and `inside-in` becomes `inside_in`; a name that begins with a capital is a type's or a module's and stays, and a type that begins with a
small letter gets a capital. Where two names would fall together, the lemma's ends in `_lem`. A label of a function's own proof (proofs/F/.., of a type of `tie` or `Lts`) is one that Rattle makes, and stays.
Rust code and exported names have no such name, and are not touched.
--list prints the names that change, and writes nothing.
"""
import collections
import glob
import os
import re
import sys

DECLARED = re.compile(r"^( *)((?:pub |abbrev |unfoldable |pattern )*)(?:data |record |module )?(\S+)((?: \{[^{}]*\})*) : ?(.*)$")
TOGETHER = re.compile(r"^  ((?:[a-z]\w* )+[a-z]\w*) : ")
WORD = re.compile(r"[^\s(){}\[\].;,:@\"«»`|&!<>=+*/?]+")


def texts():
    for kind in ("src/**/*.rt", "specs/**/*.antt", "proofs/**/*.antt"):
        yield from sorted(glob.glob("crates/*/" + kind, recursive=True))


def declared(path, text):
    """The names that a file declares, but for labels of a function's proof."""
    lines = text.split("\n")
    for i, line in enumerate(lines):
        m = TOGETHER.match(line)
        for name in m[1].split() if m else ():
            yield name, False
        m = DECLARED.match(line)
        if not m or line.lstrip().startswith("--"):
            continue
        kind, j = m[5], i + 1
        while j < len(lines) and lines[j].startswith(m[1] + "    "):
            kind += " " + lines[j].strip()
            j += 1
        if re.search(r"\b(?:tie|[\w-]*lts)\.", kind) or m[3].endswith("-spec"):
            continue
        yield m[3], re.search(r"(?:^|→ )Type \d$", kind.strip())


def respelled(name):
    return re.sub(r"(?<=[a-z0-9₀-₉])[A-Z]+", lambda m: "_" + m[0].lower(), name).replace("-", "_")


def table(files):
    """The names that change, each with its new spelling."""
    where, types = collections.defaultdict(set), set()
    for path, text in files.items():
        if path.endswith(".antt"):
            for name, is_type in declared(path, text):
                where[name].add(path)
                if is_type and path.split("/")[2] == "specs":
                    types.add(name)
    words = {path: set(WORD.findall(text)) for path, text in files.items()}
    met = collections.defaultdict(set)
    for path, its in words.items():
        for n in its:
            met[n].add(path)
    said = {n: n[0].upper() + n[1:] for n in types if re.match(r"[a-z]", n)}
    # Definitions take the plain spelling first.
    camel = [n for n in sorted(where) if re.match(r"[a-z][^-]*[a-z0-9₀-₉][A-Z]", n) and "-" not in n and n not in said]
    taken = set(said.values())
    for n in camel:
        to = respelled(n)
        for path in met[n] & met[to]:
            clash = to in where if path.endswith(".antt") else re.search(rf"\b{to}:|[{{, ]{to}[,}}]", files[path])
            if path.endswith(".antt") and to not in where:
                print(f"look: {n}: {to} is met in {path}, which does not declare it")
            if path.endswith(".rt") and clash:
                print(f"look: {n}: {to} is met in {path}")
        # A lemma of that name gives way.
        if to in where and to not in said:
            said[to] = to + "_lem"
            taken.add(said[to])
        said[n] = to
        taken.add(to)
    for n in sorted(where):
        if "-" not in n or not re.match(r"[a-z]", n):
            continue
        to = respelled(n)
        if to in taken or to in where or any(to in words[path] for path in met[n]):
            to += "_lem"
        if to in taken or to in where:
            print(f"look: {n}: {to} is another's too")
        said[n] = to
        taken.add(to)
    return said


def turn(line, said):
    """A line with its names respelled. In a comment a word with a dash may be plain English, so there only names with a capital turn."""
    m = re.search(r"(?:^|\s)(?://|--)(?:\s|$)", line)
    code, comment = (line[: m.start()], line[m.start() :]) if m else (line, "")
    comment = WORD.sub(lambda m: m[0] if "-" in m[0] else said.get(m[0], m[0]), comment)
    comment = re.sub(r"`([^`]*)`", lambda m: "`" + WORD.sub(lambda w: said.get(w[0], w[0]), m[1]) + "`", comment)
    return WORD.sub(lambda m: said.get(m[0], m[0]), code) + comment


def main():
    files = {}
    for path in texts():
        with open(path, encoding="utf-8") as f:
            files[path] = f.read()
    said = table(files)
    if "--list" in sys.argv[1:]:
        for n, to in said.items():
            print(f"{n} {to}")
        return
    for path, text in files.items():
        turned = "\n".join(turn(line, said) for line in text.split("\n"))
        if turned != text:
            with open(path, "w", encoding="utf-8") as f:
                f.write(turned)
    print(f"{len(said)} names are respelled")


if __name__ == "__main__":
    main()
