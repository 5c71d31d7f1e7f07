#!/usr/bin/env python3
"""Counts the places in crates/*/src that read like the older language, by the points of docs/DESIGN-PASS.md.

Usage: places.py [--list] [TREE]
"""
import re
import sys
from collections import defaultdict
from itertools import combinations
from pathlib import Path

args = [a for a in sys.argv[1:] if a != '--list']
listed = '--list' in sys.argv
tree = Path(args[0] if args else '.')
sources = {p: p.read_text().split('\n') for p in sorted(tree.glob('crates/*/src/*.rt'))}


def where(pattern, path_part=''):
    out = []
    for path, lines in sources.items():
        if path_part in str(path):
            for n, line in enumerate(lines, 1):
                code = line.split('//')[0]
                if re.search(pattern, code) and not code.startswith('ghost use'):
                    out.append((path, n, line.strip()))
    return out


def functions():
    """Each function: path, line, name, its parameters and its clauses."""
    for path, lines in sources.items():
        text = '\n'.join(lines)
        for m in re.finditer(r'\bfn (\w+)(?:<[^(]*>)?\(', text):
            i, depth = m.end(), 1
            while depth:
                depth += {'(': 1, ')': -1}.get(text[i], 0)
                i += 1
            params = re.findall(r'(\w+): ', re.sub(r'<[^<>]*>', '', text[m.end():i - 1]))
            clauses = []
            for line in text[i:].split('\n')[1:]:
                if not re.match(r'\s+(requires|ensures)\b', line):
                    break
                clauses.append(line.strip())
            yield path, text[:m.start()].count('\n') + 1, m.group(1), params, clauses


def enums():
    for path, lines in sources.items():
        for m in re.finditer(r'enum (\w+)[^{]*\{(.*?)\n\}', '\n'.join(lines), re.S):
            cases = [c.strip().rstrip(',') for c in m.group(2).split('\n')]
            yield path, m.group(1), [c for c in cases if c and not c.startswith('//') and not c.startswith('#')]


def structs():
    for path, lines in sources.items():
        for m in re.finditer(r'struct (\w+)[^{;]*\{(.*?)\n\}', '\n'.join(lines), re.S):
            yield path, m.group(1), m.group(2)


def point_1():
    for path, name, cases in enums():
        if len(cases) == 2 and sum('(' in c for c in cases) == 1 or any('Wrong(' in c for c in cases):
            yield 'an enum of the shape of Option or Result', path, 0, name
    for row in where(r'-> Option<Refusal>'):
        yield ('a refusal in an Option', *row)
    for row in where(r'^\s+(None|Some\(_\)) => (false|true),'):
        yield ('an Option matched to a flag', *row)
    for path, name, body in structs():
        if re.search(r'\b(full|running|since|held): (bool|\[bool)', body) and re.search(r'\b(next|toggle: Option|bytes)\b', body):
            yield 'a flag with a value beside it', path, 0, name
    for row in where(r'=> (\w+ \+ )?\w+\.number\(\)( % 100)?,|\(\)\) => 0,|Ok\(_\) => 0,|=> (0|99),|return 99;', 'examples'):
        yield ('a number for a refusal, or for none', *row)
    for row in where(r'Err\((\w+)\) => Err\(\1\)|if let Some\((refusal|fault)\)|return Err\(refusal\)'):
        yield ('an error passed on by hand', *row)


def shape(lines):
    return '\n'.join(re.sub(r'\s+', ' ', line).strip() for line in lines)


def point_2():
    """Functions, impls and types of the same name and text, or the same text but for names, in two places."""
    seen = defaultdict(list)
    for path, lines in sources.items():
        for m in re.finditer(r'(?m)^( *)(?:pub(?:\(crate\))? )?(?:const )?(fn|struct|enum) (\w+).*?\n\1\}', '\n'.join(lines), re.S):
            body = re.sub(r'//.*', '', m.group(0))
            words = {}

            def plain(w):
                return words.setdefault(w.group(0), f'w{len(words)}')

            body = re.sub(r'(?m)^\s+(requires|ensures)\b.*\n', '', body)
            start = re.search(r'\{\s*$', body, re.M)
            if not start:
                continue
            inner = re.sub(r'\s+', ' ', body[start.start():])
            coded = re.sub(r'\b[A-Za-z_]\w*\b|\b\d\w*\b', plain, inner)
            if len(inner) > 60:
                seen[(m.group(2), coded)].append((path, m.group(3)))
    for (kind, _), at in seen.items():
        if len(at) > 1:
            for path, name in at[1:]:
                yield f'a {kind} written like {at[0][0].parts[-3]}::{at[0][1]}', path, 0, name


def point_3():
    for row in where(r'\bfor \w+ in [^{\[(]*\.\.|\bwhile (?!let\b)\w'):
        yield ('a loop that counts', *row)


def point_4():
    for row in where(r'\bfn (is_(same|equal|same_item|digit|standing|word)|are_same|same_\w+)\b'):
        yield ('equality or a test of a byte by hand', *row)
    for row in where(r'\bfn (number|message|words|reason|parse|of|digit|line)\(|\bfn (?!write_|read_|obey_)\w+_line\('):
        yield ('a conversion or words by hand', *row)
    for row in where(r'if \w+(\.\w+)? \{ 1 \} else \{ 0 \}|/ 256\) as u8|% 256\) as u8'):
        yield ('bits or bytes of a number by hand', *row)
    for path, lines in sources.items():
        for m in re.finditer(r'toggle: false,\s+running: false|class: 0,\s+start: 0,', '\n'.join(lines)):
            yield 'a value of zeros by hand', path, '\n'.join(lines)[:m.start()].count('\n') + 1, m.group(0).split(',')[0]


def point_5():
    requires, together = defaultdict(list), defaultdict(list)
    for path, n, name, params, clauses in functions():
        crate = path.parts[-3]
        for clause in clauses:
            if clause.startswith('requires'):
                requires[(crate, clause[clause.index('{'):])].append((path, n, name))
        for group in combinations(sorted(set(params) - {'rt', 'heap'}), 3):
            together[(crate, group)].append((path, n, name))
    for (crate, clause), at in requires.items():
        if len(at) >= 3:
            yield (f'{crate}: in {len(at)} contracts', at[0][0], at[0][1], clause)
    told = set()
    for (crate, group), at in sorted(together.items(), key=lambda kv: -len(kv[1])):
        key = (crate, tuple(n for _, _, n in at))
        if len(at) >= 3 and key not in told:
            told.add(key)
            yield (f'{crate}: parameters together in {len(at)} functions', at[0][0], at[0][1], ', '.join(group))


def point_6():
    for path, name, body in structs():
        if re.search(r'\[[\w<>]+; \w+\]', body) and re.search(r'\b(len|lens|count): ', body):
            yield 'a buffer with a length beside it', path, 0, name
        if len(re.findall(r': \[.*; \w+\],', body)) > 1:
            yield 'parallel arrays', path, 0, name
    for row in where(r'&mut \[u8; 128\]\) -> Option<usize>|-> \[u8; (12|13|18|21)\]$|count: usize\) -> \[Tag'):
        yield ('an array with its length told elsewhere', *row)


def point_7():
    for row in where(r'impl Question for'):
        yield ('a struct that stands for a closure', *row)
    for row in where(r'Named::Fm => Fm::|At\(Named::Fm'):
        yield ('a switch on the carrier', *row)


def point_8():
    for folder in sorted(tree.glob('crates/*/proofs')):
        answers = sum(len(re.findall(r'(?m)^pub \S+ : goal\.', p.read_text())) for p in folder.rglob('Answers.antt'))
        lines = sum(len(p.read_text().split('\n')) - 1 for p in folder.rglob('*.antt'))
        yield 'answers and lines of proofs', folder, answers, f'{lines} lines'


points = [point_1, point_2, point_3, point_4, point_5, point_6, point_7]
for number, point in enumerate(points, 1):
    rows = list(point())
    print(f'point {number}: {len(rows)} places')
    kinds = defaultdict(int)
    for row in rows:
        kinds[row[0]] += 1
    for kind, n in kinds.items():
        print(f'    {n:4} {kind}')
    if listed:
        for row in rows:
            print('      ', row[1], *row[2:], sep=' ')
rows = list(point_8())
print(f'point 8: {sum(r[2] for r in rows)} answers, {sum(int(r[3].split()[0]) for r in rows)} lines of proofs')
if listed:
    for row in rows:
        print('      ', row[1], row[2], row[3])
