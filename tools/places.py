#!/usr/bin/env python3
"""Lists places in src/ that are written in an older form of Rattle, point by point, and counts them.

usage: python3 tools/places.py [--count]      at the top of a checkout

The points are those of docs/DESIGN-PASS.md. Each is searched by patterns, which find a place by its form and not by its
meaning: a place listed here is one to look at. --count prints the number of each point alone.
"""
import collections
import os
import re
import sys

LOOP = r"^\s*(for [a-z]\w* in [^ \[]*\.\.|while )"
STEP = r" [+-]= 1;|= \w+\.wrapping_add\(1\);"
PATTERNS = {
    "1 flag with a value, number as a mark or a kind, refusal that is no Err, arms that ? or a method says": [
        r"^\s*(pub(\([a-z]+\))? )?[a-z_]+: bool,",
        r"const (MISSING|ABSENT|PLACE|ARC): u",
        r"\) -> u8( \{)?$",
        r"-> Option<[A-Za-z]*(Rule|Fault|Refusal|Test)>",
        r"&mut self.* -> (io::Result<)?bool",
        r"^\s*(None => None|Ok\(_\) => None|Err\((\w+)\) => (return )?Err\(.*),?$",
    ],
    "3 loop over a range by name or with a condition, index stepped by hand": [LOOP, STEP],
    "4 order, conversion or printing by hand; a plain type without derived equality": [
        r"(self|row)\.\w+ == (other|order\[next\])\.\w+",
        r"fn at_most\(self, other: \w+(<\w+>)?\) -> bool \{",
        r"fn (refusal|number)\(self\)",
        r"65535 \{|number > 65535|<= 0x7e",
        r"impl fmt::Display for",
        r"#\[derive\((Clone, Copy|Drop|Clone, Copy, Drop)\)\]",
    ],
    "6 array or table beside a length or another table; links by number": [
        r"^\s*(pub(\([a-z]+\))? )?[a-z_]+: (\[[^&\]]*; \w+\]|Vec<.*>),",
        r"^\s*pub (before|after|first|last): u",
    ],
    "7 switch on which step to run, table of functions": [r"self\.change_\w+\(change\)|: fn\(|\[fn\(|dyn Fn"],
}


def sources():
    for folder, dirs, names in os.walk("crates"):
        dirs[:] = sorted(d for d in dirs if d not in ("out", "proofs", "specs", "data"))
        for name in sorted(names):
            if name.endswith(".rt"):
                path = os.path.join(folder, name)
                with open(path) as file:
                    yield path, file.read()


def matching(patterns):
    for path, text in sources():
        for number, line in enumerate(text.split("\n"), 1):
            if not re.match(r"\s*(//|ghost use)", line) and any(re.search(p, line) for p in patterns):
                yield f"{path}:{number}: {line.strip()}"


def signatures():
    for path, text in sources():
        for found in re.finditer(r"\bfn (\w+)(<[^(]*>)?\(([^)]*)\)([^{;]*(?:\{ [^\n]*)?(?:\n    \s*(?:requires|ensures).*)*)", text):
            yield path, found.group(1), found.group(3), found.group(0)


def twins():
    """Bodies of functions and of implementations that are the same but for names, numbers and text."""
    shapes = collections.defaultdict(list)
    for path, text in sources():
        for found in re.finditer(r"^( *)(?:pub(?:\([a-z:]+\))? )?(?:fn|impl)\b.*?^\1\}", text, re.S | re.M):
            code = re.sub(r"^\s*(requires|ensures|ghost|//).*$", "", found.group(0), flags=re.M)
            code = code[code.find("\n") :]
            shape = re.sub(r"\s+", "", re.sub(r'"[^"]*"|\b\w+\b', "x", code))
            if len(shape) > 12:
                head = found.group(0).split("\n")[0].strip()
                shapes[shape].append(f"{path}: {head}")
    for group in shapes.values():
        if len(group) > 1:
            yield " ~ ".join(group)


def travelling():
    """Facts that stand in three contracts or more, and pairs of parameters that three functions or more take."""
    facts, pairs = collections.Counter(), collections.Counter()
    for path, text in sources():
        crate = path.split("/")[1]
        for clause in re.findall(r"^\s*(?:requires|ensures)[ a-z_]* (\{.*\})$", text, re.M):
            facts[crate, clause] += 1
    for path, _, parameters, _ in signatures():
        crate = path.split("/")[1]
        names = [p.split(":")[0].strip() for p in re.split(r",\s*(?![^<\[]*[>\]])", parameters) if ":" in p]
        for i, one in enumerate(names):
            for other in names[i + 1 :]:
                pairs[crate, one, other] += 1
    for key, count in sorted(facts.items()):
        if count >= 3:
            yield f"{key[0]}: {key[1]} in {count} contracts"
    for key, count in sorted(pairs.items()):
        if count >= 3 and "rt" not in key and not key[0].endswith("_tests"):
            yield f"{key[0]}: {key[1]}, {key[2]} in {count} functions"


def main():
    found = {title: list(matching(patterns)) for title, patterns in PATTERNS.items()}
    found["2 bodies that are the same but for names and numbers"] = list(twins())
    found["5 fact in three contracts, parameters that travel together"] = list(travelling())
    for title in sorted(found):
        print(f"{title}: {len(found[title])}")
        if "--count" not in sys.argv:
            for place in found[title]:
                print("   ", place)


main()
