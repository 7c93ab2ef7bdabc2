#!/usr/bin/env python3
"""Brings this repository's own definitions, fields and lemmas to snake case, as today's Rattle spells them.

usage: python3 tools/respell.py [--list]     at the top, once, after port.py; --list only prints old and new names

A name counts where a file of specs/ or a file of lemmas (proofs/*.antt) declares it. Types and modules keep their capitals, and
functions of src/ and what Rattle makes of them keep their names. A lemma that would have a definition's name gets _lem.
"""

import os
import re
import sys

DECLARES = re.compile(r"^\s*(?:(?:abbrev|unfoldable|pub)\s+)*([^\W\d_A-Z][\w'-]*)\s*:(?:\s|$)")
WORD = re.compile(r"(?<![\w'-])[A-Za-z_][\w'-]*")


def files():
    for folder, dirs, names in os.walk("crates"):
        dirs[:] = sorted(d for d in dirs if d != "out")
        for name in sorted(names):
            if name.endswith((".antt", ".rt", ".edit")):
                yield os.path.join(folder, name)


def snake(name):
    return re.sub(r"(?<=[a-z0-9])([A-Z])", lambda up: "_" + up[1].lower(), name).replace("-", "_")


def read():
    """Each file's path, its text and the words in it."""
    for path in files():
        with open(path, encoding="utf-8") as text:
            it = text.read()
        yield path, it, set(WORD.findall(it))


def renamed(every):
    """Old and new names. Where a file has two names that fall together, the lemma's gets _lem; a field beside a definition may fall together with it."""
    specs, lemmas = set(), set()
    for path, text, words in every:
        parts = path.split(os.sep)
        if path.endswith(".antt") and len(parts) == 4 and parts[2] in ("specs", "proofs"):
            found = {m[1] for m in map(DECLARES.match, text.splitlines()) if m}
            (specs if parts[2] == "specs" else lemmas).update(found)
    new = {name: snake(name) for name in specs | lemmas}
    for name in sorted(lemmas - specs):
        others = {old for old, to in new.items() if to == new[name] and old != name}
        if any(name in words and (words & others or new[name] in words and new[name] != name) for _, _, words in every):
            new[name] += "_lem"
    return {old: to for old, to in new.items() if old != to}


def main():
    every = list(read())
    names = renamed(every)
    if sys.argv[1:] == ["--list"]:
        for old, to in sorted(names.items()):
            print(old, to)
        return
    for path, before, _ in every:
        dashes = path.endswith(".antt")
        of_function = path.count(os.sep) > 3

        def turn(found):
            word = found[0]
            # in the proof of a function what Rattle makes has dashes too: there a field behind a value is never a lemma
            behind = before[: found.start()]
            if "-" in word and (not dashes or of_function and re.search(r"(?:[\w')\]]|\s)\.$", behind) and not re.search(r"[A-Z]\w*\.$", behind)):
                return word
            if snake(word) == word and word in names and not re.search(rf"(?m)^\s*(?:pub )?{word} : ", before):
                return word
            return names.get(word, word)

        after = WORD.sub(turn, before)
        if after != before:
            with open(path, "w", encoding="utf-8") as text:
                text.write(after)


main()
