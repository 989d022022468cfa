#!/usr/bin/env python3
"""Lists the places of src/ where code may read like an older language, for docs/DESIGN-PASS.md.

    python3 tools/places.py [FOLDER]          how many lines or groups each pattern finds
    python3 tools/places.py [FOLDER] NAME     the places that one pattern finds

A place that is listed is one to look at, not a fault.
"""
import re
import sys
from collections import defaultdict
from pathlib import Path

LINES = {
    # point 1: an arm or a test that only hands on that there is none, or that it failed
    'hand-on': r'(None|Err\(_\)) => (None|false|true|0|\(0, 0\)|\{\})|Some\(_\) => (true|false|1|0)\b|Some\(fault\) => Err|Err\(fault\) => Err\(fault\)|None => return|\.is_none\(\) \{$',
    # point 1: numbers that stand for none, and flags
    'none-number': r'\b65535\b|\[1024; 1024\]|== 0 \{|^    1024$|return 0;|\{ 0 \}$',
    'flag': r'^    (pub )?\w+: bool,|&mut .*-> bool',
    'own-enum': r'^(pub )?enum \w+',
    # point 3
    'while': r'^\s*(\'\w+: )?while ',
    'counted-for': r'^\s*(\'\w+: )?for \w+ in .*\.\.',
    # point 4
    'field-by-field': r'^\s+(\w+): (\w+)\.\1,$',
    'compared-by-hand': r'\w+\.(\w+) == \w+\.\1\b.*&&|^\s*&& \w+\.(\w+) == \w+\.\2\b',
    'converted-by-hand': r'fn \w+\((self|\w+: &?(Kind|Layer|Setting|Target|Option<i64>|u16))\) -> (u8|u16|u64|Setting|Target|Option<u8>)$',
    'printed-by-hand': r'format!\(|fn reason|-> &\'static str',
    # point 6
    'array': r'\[\w+(<\w+>)?; \d+\]',
    # point 7
    'step-switch': r'match pass\b|\bdyn \b|: fn\(',
}

FN = re.compile(r'^( *)(pub(?:\(crate\))? )?fn (\w+)', re.M)


def functions(root):
    """Every function: its file, line, name, head and body."""
    for path in sorted(Path(root).glob('crates/*/src/**/*.rt')):
        text = path.read_text()
        for m in FN.finditer(text):
            indent = m[1]
            start = re.compile(r'^%s\{\n|\{$|\{\}$|;$' % indent, re.M).search(text, m.start())
            end = re.compile(r'^%s\}' % indent, re.M).search(text, start.end())
            head = text[m.start():start.start()]
            body = text[start.end():end.start()] if start[0].endswith(('{\n', '{')) else ''
            yield path, text.count('\n', 0, m.start()) + 1, m[3], head, body


def shape(body):
    """A body with its names by order, its numbers and types alike."""
    names = {}
    out = []
    for word in re.findall(r"b'.'|'\w+'|\w+|[^\w\s]", body):
        if re.fullmatch(r'[ui](8|16|32|64|128|size)', word):
            word = 'T'
        elif re.match(r"\d|b'|'", word):
            word = 'N'
        elif re.match(r'[A-Za-z_]', word):
            word = names.setdefault(word, 'n%d' % len(names))
        out.append(word)
    return ' '.join(out)


def twins(root):
    """Functions of one shape."""
    groups = defaultdict(list)
    for path, line, name, head, body in functions(root):
        s = shape(body)
        if s.count(' ') >= 14:
            groups[s].append(f'{path}:{line} {name}')
    return [' ~ '.join(g) for g in groups.values() if len(g) > 1]


def crate(path):
    return path.parts[path.parts.index('crates') + 1]


def clauses(root):
    """Facts in the contracts of three or more functions of a crate, but for results."""
    groups = defaultdict(list)
    for path, line, name, head, body in functions(root):
        facts = set(re.findall(r'^\s+requires(?: \w+)? \{ (.*) \}$', head, re.M))
        facts |= set(f for f in re.findall(r'^\s+ensures(?: \w+)? \{ (.*) \}$', head, re.M) if 'result' not in f)
        for fact in facts:
            fact = re.sub(r'\.(now|old|new)\b', '', fact)
            groups[crate(path), fact].append(name)
    return [f'{c}: {len(set(g))} functions: {fact}' for (c, fact), g in sorted(groups.items()) if len(set(g)) >= 3]


def travellers(root):
    """Two or more parameters that stand together, in three or more functions of a crate."""
    groups = defaultdict(set)
    for path, line, name, head, body in functions(root):
        m = re.search(r'fn \w+(?:<[^>]*>)?\((.*?)\)(?: ->|\n|$| \{)', head, re.S)
        given = [p for p in re.findall(r'(\w+: [^,]+)', re.sub(r'\s+', ' ', m[1] if m else ''))]
        given = [p for p in given if not p.startswith('rt:') and 'heap' not in p]
        for i in range(len(given) - 1):
            groups[crate(path), given[i].strip(), given[i + 1].strip()].add(name)
    return [f'{c}: {len(g)} functions: {a}, {b}' for (c, a, b), g in sorted(groups.items()) if len(g) >= 3]


def lines(root, pattern):
    found = []
    for path in sorted(Path(root).glob('crates/*/src/**/*.rt')):
        for n, line in enumerate(path.read_text().split('\n'), 1):
            if not line.lstrip().startswith(('//', 'ghost use')) and re.search(pattern, line):
                found.append(f'{path}:{n} {line.strip()}')
    return found


def proofs(root):
    """Proof files, and lemma files, with how many lines they have."""
    found = []
    for kind in ('Answers', 'Invariants', 'Proof'):
        files = list(Path(root).glob(f'crates/*/proofs/**/{kind}.antt'))
        found.append(f'{kind}.antt: {len(files)} files, {sum(len(f.read_text().splitlines()) for f in files)} lines')
    files = list(Path(root).glob('crates/*/proofs/*.antt'))
    found.append(f'lemmas: {len(files)} files, {sum(len(f.read_text().splitlines()) for f in files)} lines')
    return found


def main():
    args = sys.argv[1:]
    root = args.pop(0) if args and Path(args[0]).is_dir() else '.'
    more = {'twins': twins, 'clauses': clauses, 'travellers': travellers, 'proofs': proofs}
    if args:
        found = more[args[0]](root) if args[0] in more else lines(root, LINES[args[0]])
        print('\n'.join(found))
        return
    for name, pattern in LINES.items():
        print(f'{name:20}{len(lines(root, pattern))}')
    for name, f in more.items():
        print(f'{name:20}{len(f(root))}')


main()
