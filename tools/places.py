#!/usr/bin/env python3
"""Lists the places in src/ that docs/DESIGN-PASS.md counts, point by point, and how many there are.

    python3 tools/places.py [POINT] [FOLDER]

A place is listed because of its form alone; whether it changes or stays, and why, the page says.
"""
import collections
import pathlib
import re
import sys

FN = re.compile(r'^( *)(?:#\[[^\n]*\]\n *)*((?:pub(?:\(crate\))? )?(?:extern "C" )?fn (\w+)[^{]*?)(?: |\n((?: *(?:requires|ensures)[^\n]*\n)*)\1)\{\n(.*?)\n\1\}$', re.S | re.M)
WORD = re.compile(r'[A-Za-z_][A-Za-z_0-9]*(?:::[A-Za-z_]\w*)*|0x[0-9a-f_]+|\d[\d_]*')
KEPT = set('if else match for while loop return let mut in as fn impl struct enum break true false'.split())


def sources(root):
    for path in sorted(root.glob('crates/*/src/**/*.rt')):
        yield path.relative_to(root), path.read_text(encoding='utf-8')


def line_of(text, at):
    return text.count('\n', 0, at) + 1


def functions(root):
    for path, text in sources(root):
        for m in FN.finditer(text):
            yield path, line_of(text, m.start(2)), m[3], m[2], m[4] or '', m[5]


def matching(root, pattern):
    for path, text in sources(root):
        for m in re.finditer(pattern, re.sub(r'//[^\n]*', lambda c: ' ' * len(c[0]), text), re.S | re.M):
            yield f'{path}:{line_of(text, m.start())}', ' '.join(m[0].split())[:110]


def enums_and_flags(root):
    """1: each enum; each struct with a bool beside other fields; each bool that tells of a lent word; each number that names a case."""
    yield from matching(root, r'^(?:pub )?enum \w+ \{.*?^\}')
    for place, text in matching(root, r'^(?:pub )?struct \w+ \{[^}]*: bool,[^}]*\}'):
        yield place, text
    for path, line, name, head, _, body in functions(root):
        if re.search(r'&mut \[', head) and head.endswith('-> bool'):
            yield f'{path}:{line}', f'{name}: a bool beside what is filled'
        if '-> u64' in head and len(re.findall(r'\w+::\w+.* => \d+,', body)) > 1:
            yield f'{path}:{line}', f'{name}: a number for each case'
        if re.search(r'\(q, \d+, |Refused\(\d', body):
            yield f'{path}:{line}', f'{name}: a refusal by a bare number'


def shape_of(head, body):
    """A function's text with each number blanked, and each name by where it was first met; rows of as good as equal items are one."""
    met = {}
    text = re.sub(r'.*?\(', '(', head, 1, re.S) + re.sub(r'//[^\n]*', '', body)
    words = re.findall(WORD.pattern + r'|\S', text)
    named = [w if w in KEPT or not WORD.fullmatch(w) else '0' if w[0].isdigit() else f'n{met.setdefault(w, len(met))}' for w in words]
    return re.sub(r'(n\d+ : 0 , )+', 'n : 0 , ', ' '.join(named))


def twins(root):
    """2: functions that are alike once names, types and numbers are blanked."""
    shapes = collections.defaultdict(list)
    for path, line, name, head, _, body in functions(root):
        if len(body.strip()) < 16:
            continue
        shapes[shape_of(head, body)].append((path, line, name))
    for alike in shapes.values():
        if len(alike) > 1:
            yield '%s:%d' % alike[0][:2], ' = '.join(f'{path.parts[1]}::{name}' for path, _, name in alike)


def loops(root):
    """3: while, loop, and for over a range of numbers."""
    yield from matching(root, r"^ *(?:'\w+: )?(?:while [^\n]*|loop) \{|^ *(?:'\w+: )?for \w+ in [^\n]*\.\.[^\n]*\{")


def by_hand(root):
    """4: conversions between an enum and its numbers, records of one value each field, wrapping by a function, `x: x`."""
    for path, line, name, head, _, body in functions(root):
        if re.search(r'_number$|_of$|^watched$', name) and re.search(r'=> (\d+|\w+::\w+),', body) and len(re.findall(r'=>', body)) > 1:
            yield f'{path}:{line}', f'{name}: a conversion by match'
    yield from matching(root, r'\b[A-Z]\w+ \{\s*(?:\w+: 0,\s*){4,}\}')
    yield from matching(root, r'std::num::\w+\(')
    yield from matching(root, r'^ *(\w+): \1,$')


def facts(root):
    """5: facts that stand in the requires of three functions or more, and parameters that three functions or more share in a row."""
    seen, rows = collections.defaultdict(list), collections.defaultdict(list)
    for path, line, name, head, clauses, _ in functions(root):
        crate = path.parts[1]
        for clause in re.findall(r'requires \{ (.*) \}', clauses):
            for fact in re.split(r' × (?![^(]*\))', clause):
                seen[crate, re.sub(r'^\((.*)\)$', r'\1', re.sub(r'\.(old|now|new)\b', '', fact))].append(name)
        params = re.findall(r'(\w+): ([^,()]+?(?:\[\w+\])?)(?=,|\)|$)', re.sub(r'\s+', ' ', head.split('(', 1)[1]))
        for n in range(4, len(params) + 1):
            for i in range(len(params) - n + 1):
                rows[crate, ', '.join(p for p, _ in params[i:i + n])].append(name)
    for (crate, fact), names in seen.items():
        if len(names) > 2:
            yield crate, f'{fact}: {", ".join(names)}'
    most = {key: names for key, names in rows.items() if len(names) > 2}
    for (crate, row), names in most.items():
        if not any(c == crate and row != r and row in r and set(names) <= set(n) for (c, r), n in most.items()):
            yield crate, f'({row}): {", ".join(names)}'


def buffers(root):
    """6: a place in a lent buffer that is handed from call to call, and lengths that are parameters."""
    for path, line, name, head, _, _ in functions(root):
        if re.search(r'\[u8\]', head) and re.search(r'\b(at|from|held|used|made): usize', head):
            yield f'{path}:{line}', f'{name}: a buffer with a place beside it'
        if len(re.findall(r': usize', head)) > 3:
            yield f'{path}:{line}', f'{name}: lengths as numbers'


def switches(root):
    """7: an enum or a number that says which function to call."""
    for path, line, name, _, _, body in functions(root):
        calls = re.findall(r'=> (?:return )?([a-z_][\w:]*)\([^\n]*\),', body)
        if len(calls) > 2:
            yield f'{path}:{line}', f'{name}: a choice among {", ".join(dict.fromkeys(calls))}'
    yield from matching(root, r'\bdyn \w+|: fn\(|impl Fn\w*\(|F: Fn\w*')


def proofs(root):
    """8: answers, invariants and attributes, and the lines of each crate's own lemmas."""
    for crate in sorted(p for p in (root / 'crates').iterdir() if p.is_dir()):
        files = list(crate.glob('proofs/**/Answers.antt')) + list(crate.glob('proofs/**/Invariants.antt'))
        goals = sum(len(re.findall(r'^(?:abbrev )?pub ', f.read_text(encoding='utf-8'), re.M)) for f in files)
        hints = sum(len(re.findall(r'#\[tactic', t)) for p, t in sources(root) if p.parts[1] == crate.name)
        lemmas = [f for f in crate.glob('proofs/*.antt')]
        lines = sum(f.read_text(encoding='utf-8').count('\n') for f in lemmas)
        yield crate.name, f'{len(files)} files, {goals} answers, {hints} attributes, {lines} lines of lemmas'


POINTS = [enums_and_flags, twins, loops, by_hand, facts, buffers, switches, proofs]


def main():
    chosen = [int(a) for a in sys.argv[1:] if a.isdigit()]
    folders = [a for a in sys.argv[1:] if not a.isdigit()]
    root = pathlib.Path(folders[0] if folders else pathlib.Path(__file__).resolve().parent.parent)
    for number, point in enumerate(POINTS, 1):
        if chosen and number not in chosen:
            continue
        places = list(point(root))
        print(f'{number}: {len(places)} ({point.__doc__.split(": ", 1)[1]})')
        for place, what in places:
            print(f'   {place}  {what}')


main()
