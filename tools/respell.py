#!/usr/bin/env python3
"""Brings this repository's own definitions and lemmas to the spelling that Rattle now uses.

usage: python3 tools/respell.py [--list]      at the top of a checkout, once, after the kit's port.py

Words are in snake case (`how-many` becomes `how_many`, `atMost` becomes `at_most`), types and facts in camel case
(`Empty-is-due` becomes `EmptyIsDue`). What is respelled is what a file of specs/ or proofs/ declares: definitions, lemmas,
fields, constructors, and the local functions of a lemma. Names that Rattle makes for goals and steps, names of src/ and
lines of comment stay.
--list prints old and new names and writes nothing.
"""
import collections
import os
import re
import sys

TOKEN = re.compile(r"[^\s(){}\[\].;,λ@\"«»`]+")
DECLARED = re.compile(
    r"^\s*(?:(?:abbrev|unfoldable)\s+)?(?:pub\s+)?(?:data\s+|record\s+)?"
    r"([^\s:(){}.;,λ\-][^\s:(){}.;,]*)(?:\s+[({][^:]*:.*)?\s+:(?:\s|$)(.*)$"
)


def files(kinds):
    for folder, dirs, names in os.walk("crates"):
        dirs[:] = sorted(d for d in dirs if d != "out")
        for name in sorted(names):
            if name.endswith(kinds):
                yield os.path.join(folder, name)


def read(path):
    with open(path, encoding="utf-8") as it:
        return it.read()


def respelled(name):
    if name[0].isupper():
        parts = name.split("-")
        return "".join([parts[0]] + [p[:1].upper() + p[1:] for p in parts[1:]])
    snake = re.sub(r"(?<=[a-z])([A-Z])(?=[a-z])", lambda m: "_" + m[1].lower(), name)
    return snake.replace("-", "_")


def declared():
    """Each name that a file of specs/ or proofs/ declares, but for goals and invariants, with the places."""
    found = collections.defaultdict(list)
    for path in files((".antt",)):
        for at, line in enumerate(read(path).split("\n"), 1):
            m = DECLARED.match(line)
            if m and not line.lstrip().startswith("--") and not m[2].startswith("goal."):
                found[m[1]].append(f"{path}:{at}")
    return found


def changes():
    found = declared()
    turned = {}
    for name, places in found.items():
        new = respelled(name)
        if new != name:
            turned[name] = (new, places)
    for name, (new, places) in sorted(turned.items()):
        if new in found:
            print(f"look: {name} ({places[0]}) becomes {new}, which is declared at {found[new][0]}")
    news = collections.Counter(new for new, _ in turned.values())
    for name, (new, places) in sorted(turned.items()):
        if news[new] > 1:
            print(f"look: {name} ({places[0]}) and another name both become {new}")
    return {name: new for name, (new, _) in turned.items()}


# In a path of a proof's own record, as c.put-cell, the step's name is Rattle's.
def is_made(text, start):
    before = re.search(r"(?:^|[^\w'.-])([a-z])((?:\.[^\s(){}\[\].;,λ@\"«»`]+)*)\.$", text[max(0, start - 200):start])
    return bool(before)


def turn_line(line, names, fields):
    if re.match(r"\s*(--|//)", line):
        return line

    def new(m):
        token = m[0]
        if token not in names:
            return token
        after_dot = m.start() > 0 and line[m.start() - 1] == "."
        if after_dot and re.search(r"goal\.$", line[:m.start()]):
            return token
        if after_dot and is_made(line, m.start()) and token not in fields:
            return token
        return names[token]

    return TOKEN.sub(new, line)


def main():
    names = changes()
    if "--list" in sys.argv[1:]:
        for old, new in sorted(names.items()):
            print(old, new)
        return
    fields = set()
    for path in files((".antt",)):
        inside = False
        for line in read(path).split("\n"):
            if re.match(r"^\s*(pub )?record\b.*where", line):
                inside = True
            elif inside and re.match(r"^\s+(pub )?[^\s:]+ :", line):
                fields.add(re.match(r"^\s+(?:pub )?([^\s:]+) :", line)[1])
            elif inside and line.strip() and not line.startswith("  "):
                inside = False
    for path in files((".antt", ".rt")):
        old = read(path)
        lines = old.split("\n")
        goals = {m[1] for m in re.finditer(r"^(?:abbrev )?pub ([^\s:]+) : goal\.", old, re.M)}
        here = {k: v for k, v in names.items() if k not in goals}
        new = "\n".join(turn_line(line, here, fields) for line in lines)
        if new != old:
            with open(path, "w", encoding="utf-8") as it:
                it.write(new)


main()
