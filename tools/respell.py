#!/usr/bin/env python3
"""Brings the definitions and lemmas of this repository to snake case, once, after Rattle's own port script.

usage: tools/respell.py [--dry] [ROOT]

Names that specs/ and proofs/ declare lose their dashes and inner capitals (of-class, saidBy: of_class, said_by), and
facts get an upper camel name. Goals that Rattle names, functions of src/, strings and comments keep theirs.
A name that would meet another one is listed under 'meets:', and stays.
"""

import os
import re
import sys

DELIM = r"\s(){}\[\].,;@\"«»⌜⌝"
TOKEN = re.compile(rf"[^{DELIM}]+")
SIGNATURE = re.compile(rf"^( *)((?:pub |abbrev |unfoldable )*)([^{DELIM}]+)((?: \{{[^{{}}\n]*\}}| \([^()\n]*\))*) :(?: +(.*))?$", re.M)
DATA = re.compile(rf"^ *(?:pub )?(?:data|record) ([^{DELIM}]+)", re.M)
GOAL = re.compile(r"^(?:.*? )?goal\.")
# first_of is a tactic of Rattle's now.
ANEW = {"first_of": "first_tag", "second-of": "second_tag"}
KEYWORD = {"where", "elim", "let", "in", "as", "use", "mod", "open"}


def files(root):
    for top, dirs, names in os.walk(os.path.join(root, "crates")):
        dirs[:] = sorted(d for d in dirs if d != "out")
        for n in sorted(names):
            if n.endswith((".rt", ".antt", ".edit")):
                yield os.path.join(top, n)


def snake(name):
    name = re.sub(r"(?<=[a-z0-9])([A-Z])", lambda m: "_" + m.group(1).lower(), name)
    return re.sub(r"(?<=\w)-(?=\w)", "_", name)


def camel(name):
    parts = [p for p in re.split(r"[-_]", name) if p]
    return "".join(p[0].upper() + p[1:] for p in parts)


def declared(root):
    """Each name that a text of ours declares: lower names to snake case, facts to camel case."""
    found = {}
    for p in files(root):
        if not p.endswith(".antt"):
            continue
        t = open(p, encoding="utf-8").read()
        for m in DATA.finditer(t):
            found.setdefault(m.group(1), camel(m.group(1)))
        for m in SIGNATURE.finditer(t):
            name, rest = m.group(3), m.group(5) or ""
            if name in KEYWORD or GOAL.match(rest) or not re.match(r"[A-Za-z]", name):
                continue
            fact = not m.group(1) and re.search(r"Type \d$", rest) is not None
            found[name] = camel(name) if fact or name[0].isupper() else snake(name)
    found.update({a: b for a, b in ANEW.items() if a in found})
    return {a: b for a, b in found.items() if a != b}


def lent(root, text):
    """The names that a file imports from a library."""
    own = set(os.listdir(os.path.join(root, "crates")))
    found = set()
    for m in re.finditer(r"\buse ([\w.+'-]+)\.\{([^}]*)\}", text):
        parts = m.group(1).split(".")
        if not (parts[0] == "Rattle" and len(parts) > 1 and parts[1] in own):
            found |= {n for w in m.group(2).split(",") for n in w.split(" as ")[-1:] for n in [n.strip()]}
    return found


def fields(root):
    """The names that stand behind a dot: those of records."""
    found = set()
    for p in files(root):
        if p.endswith(".antt"):
            for m in re.finditer(r"^ *(?:pub )?record [^\n]* where\n((?:  [^\n]*\n)*)", open(p, encoding="utf-8").read(), re.M):
                found |= {x.group(3) for x in SIGNATURE.finditer(m.group(1))}
    return found


def cut(path, text):
    """The parts of a file in which names stand, as (start, end); strings and comments are left out."""
    if path.endswith(".antt"):
        skip = re.compile(r"--[^\n]*|\"(?:\\.|[^\"\\\n])*\"")
    else:
        skip = re.compile(r"//[^\n]*|b?\"(?:\\.|[^\"\\])*\"")
    at = 0
    for m in skip.finditer(text):
        if path.endswith(".antt") and m.group(0).startswith("--") and m.start() and not text[m.start() - 1].isspace():
            continue
        yield at, m.start()
        at = m.end()
    yield at, len(text)


def words_of_clauses(text):
    """The names that a clause of a source file may mean: parameters, fields, constants and what clauses say."""
    found = set(re.findall(r"\b(\w+):(?!:)", text)) | set(re.findall(r"\b(?:const|static|type|mod) (\w+)", text))
    for line in text.splitlines():
        if re.match(r"\s*(ghost|requires|ensures)\b", line):
            found |= set(TOKEN.findall(line))
    return found


def main():
    args = [a for a in sys.argv[1:] if a != "--dry"]
    root = args[0] if args else "."
    names = declared(root)
    meets = {}
    for p in files(root):
        t = open(p, encoding="utf-8").read()
        used = {m.group(0) for a, b in cut(p, t) for m in TOKEN.finditer(t, a, b) if t[m.start() - 1] != "."}
        there = used if p.endswith(".antt") else words_of_clauses(t)
        turned = {}
        for a in sorted((used & names.keys()) - lent(root, t)):
            b = names[a]
            if b in there or b in turned:
                meets.setdefault(a, (b, []))[1].append(p)
            turned[b] = a
    for a, (b, where) in sorted(meets.items()):
        print(f"meets: {a} {b} {' '.join(where)[:200]}")
    if "--dry" in sys.argv:
        print(len(names), "names")
        for a, b in sorted(names.items()):
            if "-" not in a:
                print("case:", a, b)
        return
    of_records = fields(root)

    def turns(t, m, kept):
        name = m.group(0)
        return name in names and name not in meets and name not in kept and (t[m.start() - 1] != "." or name in of_records)

    for p in files(root):
        t = open(p, encoding="utf-8").read()
        out, at, kept = [], 0, lent(root, t)
        for a, b in cut(p, t):
            out.append(t[at:a])
            at = a
            for m in TOKEN.finditer(t, a, b):
                out.append(t[at:m.start()])
                out.append(names[m.group(0)] if turns(t, m, kept) else m.group(0))
                at = m.end()
            out.append(t[at:b])
            at = b
        out.append(t[at:])
        new = "".join(out)
        if new != t:
            with open(p, "w", encoding="utf-8") as f:
                f.write(new)


main()
