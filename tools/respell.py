#!/usr/bin/env python3
"""Turns this repository's own names in specs/ and proofs/ to one spelling: words in snake case, types and facts in camel case.

usage: tools/respell.py [--list]     at the top of the repository; --list prints old and new names and writes nothing

A name is taken where it is declared: a definition, a lemma, a field, a constructor, a local definition or an alias of an import. Names of
goals (declared with the type goal.NAME) keep theirs, and so does all text of a .rt file outside clauses and ghost imports.
"""
import collections
import os
import re
import sys

ID = r"[^\s(){}\[\],;.⌜⌝λ→@\"]+"
HEAD = re.compile(r"^\s*(?:let )?((?:abbrev |unfoldable |pub |data |record )*)(" + ID + r")\s*(?::|\(.*\)\s*:)\s*(.*)$")
ALIAS = re.compile(r"\bas (" + ID + r")")
TOKEN = re.compile(ID)


def texts(kinds):
    for folder, dirs, names in os.walk("crates"):
        dirs[:] = sorted(d for d in dirs if d not in ("out", "target"))
        for name in sorted(names):
            if name.endswith(kinds):
                path = os.path.join(folder, name)
                with open(path, encoding="utf-8") as f:
                    yield path, f.read()


# Names whose new spelling a word of the library already has.
OTHERWISE = {"bit-and": "bit_of_and", "bit-or": "bit_of_or"}


def spelled(name):
    if name in OTHERWISE:
        return OTHERWISE[name]
    if name[0].isupper():
        return "".join(part[:1].upper() + part[1:] for part in name.split("-"))
    return name.replace("getD", "get_or").replace("-", "_").replace("′", "'")


def declared():
    """The names that the repository declares, without those of goals."""
    own, goals = set(), set()
    for path, text in texts((".antt", ".rt")):
        for line in text.split("\n"):
            if path.endswith(".antt"):
                m = HEAD.match(line)
                if m and re.fullmatch(r"[A-Za-z][\w'?-]*", m.group(2)):
                    (goals if re.match(r"(goal|need)\.", m.group(3)) else own).add(m.group(2))
            if "use " in line:
                own.update(x for x in ALIAS.findall(line) if "-" in x)
    return {n for n in own - goals if "-" in n and spelled(n) != n}


def clause_spans(text):
    """The parts of a .rt file that are ghost: imports and clauses."""
    spans = [m.span() for m in re.finditer(r"^\s*ghost use [^;]*;", text, re.M)]
    for m in re.finditer(r"\b(?:requires|ensures|ghost)\b\*?[^{;\n]*\{", text):
        depth, i = 1, m.end()
        while depth and i < len(text):
            depth += {"{": 1, "}": -1}.get(text[i], 0)
            i += 1
        spans.append((m.end(), i))
    return spans


def main():
    names = {n: spelled(n) for n in declared()}
    if "--list" in sys.argv[1:]:
        for n in sorted(names):
            print(n, names[n])
        seen = collections.Counter(names.values())
        print("fall together:", [n for n in seen if seen[n] > 1])
        return

    def turn(part):
        return TOKEN.sub(lambda m: names.get(m.group(0), m.group(0)), part)

    for path, text in texts((".antt", ".rt")):
        if path.endswith(".antt"):
            new = turn(text)
        else:
            new, at = "", 0
            for start, end in sorted(clause_spans(text)):
                if start >= at:
                    new += text[at:start] + turn(text[start:end])
                    at = end
            new += text[at:]
        if new != text:
            with open(path, "w", encoding="utf-8") as f:
                f.write(new)


main()
