#!/usr/bin/env python3
"""The places in src/ that docs/DESIGN-PASS.md counts, point by point.

  python3 docs/places.py [COMMIT]      of the checkout, or of a commit; -v lists them
"""
import os
import re
import subprocess
import sys

TOP = os.path.dirname(os.path.dirname(os.path.abspath(__file__)))
TYPES = r'\b(u8|u16|u32|u64|usize|Tick|Firing|Token)\b'
VERBOSE = '-v' in sys.argv
COMMIT = next((a for a in sys.argv[1:] if a != '-v'), None)


def git(*words):
    return subprocess.run(['git', '-C', TOP, *words], capture_output=True, text=True, check=True).stdout


def sources():
    """Each file of src/ with its text, tests left out."""
    if COMMIT:
        for path in git('ls-tree', '-r', '--name-only', COMMIT, 'crates').split('\n'):
            if re.fullmatch(r'crates/\w+/src/.*\.rt', path):
                yield path, git('show', f'{COMMIT}:{path}')
    else:
        for path in git('ls-files', 'crates').split('\n'):
            if re.fullmatch(r'crates/\w+/src/.*\.rt', path):
                yield path, open(os.path.join(TOP, path), encoding='utf-8').read()


FILES = list(sources())


def show(point, what, places):
    print(f'{point:3} {len(places):4}  {what}')
    if VERBOSE:
        for place in places:
            print('          ', place)


def lines(pattern, only=None):
    return [f'{path}:{n + 1}: {line.strip()}' for path, text in FILES if not only or only in path
            for n, line in enumerate(text.split('\n')) if re.search(pattern, line) and not line.strip().startswith('//')]


def functions():
    """Each function: its file, name, parameters, clauses and body."""
    for path, text in FILES:
        for m in re.finditer(r'^( *)(?:pub(?:\(crate\))? )?(?:extern "C" )?fn (\w+)(.*?)^\1\}', text, re.S | re.M):
            head, _, body = m[3].partition('\n' + m[1] + '{\n')
            yield path, m[2], head, body


def enums():
    for path, text in FILES:
        for m in re.finditer(r'enum (\w+) \{(.*?)\n\}', text, re.S):
            yield path, m[1], [v for v in re.findall(r'^    (\w+)', m[2], re.M)]


def one():
    show('1', 'enums of two variants, one of them with nothing in it or a refusal',
         [f'{p}: {n} {{ {", ".join(vs)} }}' for p, n, vs in enums() if len(vs) == 2])
    show('1', 'enums of more variants, one of which says that there is nothing',
         [f'{p}: {n} {{ {", ".join(vs)} }}' for p, n, vs in enums() if len(vs) > 2 and re.search(r'Nothing|Neither|Nowhere|NoR|Sound|Never', ' '.join(vs))])
    show('1', 'structs with a flag among their fields', lines(r'^    pub \w+: bool,'))
    show('1', 'numbers that stand for a refusal', lines(r'^pub const \w+: u64 = \d+;', 'terms/src/refusal'))
    fillers = []
    for path, text in FILES:
        for m in re.finditer(r'((?:^ *// .*\n)+) *(?:pub(?:\(crate\))? )?(?:fn|struct) (\w+)', text, re.M):
            if re.search(r'(, or|;|and) 0( where|\.|,|\n)|No \w+ (has|where)|one behind all|all 0 where|the end where', m[1]):
                fillers.append(f'{path}: {m[2]}')
    show('1', 'functions and structs where 0, or the place past the end, says that there is nothing', fillers)


def two():
    """Functions whose bodies are the same when types, constants and field names are left out."""
    groups = {}
    for path, name, head, body in functions():
        plain = re.sub(r'\s+', ' ', re.sub(r'\.\d+|\b[A-Z][A-Z_]+\b', '#', re.sub(TYPES, 'T', body))).strip()
        if len(plain) > 5:
            groups.setdefault(plain, []).append(f'{path}: {name}')
    twins = [' = '.join(g) for g in groups.values() if len(g) > 1]
    show('2', 'groups of functions whose bodies differ in types and constants alone', twins)
    shapes = {}
    for path, name, head, body in functions():
        plain = re.sub(r'\b[a-z_]\w*\b', 'x', re.sub(r'"[^"]*"', '""', re.sub(r'\.\d+|\b[A-Z][A-Z_]+\b|\b\d+\b', '#', re.sub(TYPES, 'T', body))))
        plain = re.sub(r'\s+', ' ', plain).strip()
        if len(plain) > 60:
            shapes.setdefault(plain, []).append(f'{path}: {name}')
    show('2', 'groups of functions whose bodies differ in names too (shape alone)', [' = '.join(g) for g in shapes.values() if len(g) > 1])


def three():
    show('3', '`while` loops', lines(r'\bwhile\b'))
    show('3', '`loop`s', lines(r'\bloop\b \{'))
    show('3', '`for` over a range', lines(r'\bfor \w+ in .*\.\.'))


def four():
    hand = r'\bfn (same|copy|at_most|greater|printed|three|number|ticks|tokens|firings|of|put_\w+|rates_of|bytes_of|no_actor|none|nothing|lists_actor|numbered|nobody|unused|no_rates|clear|clear_bytes|blank|is_table)\b'
    show('4', 'functions that compare, order, copy, convert or print by hand', lines(hand))


def five():
    facts, pairs = {}, {}
    for path, name, head, body in functions():
        for clause in re.findall(r'^ *requires (?:\w+ )?\{ (.*) \}$', head, re.M):
            for fact in clause.split(' × '):
                fact = re.sub(r'^\((.*)\)$', r'\1', fact.strip())
                facts.setdefault(re.sub(r'\b(words|front|old|new|fronts|channels|bytes|works|text|carried)\b', 'x', fact), []).append(f'{path}: {name}')
        names = re.findall(r'(\w+): (&(?:mut )?\[\w+\]|[\[\w][^,)]*)', head.split('->')[0].split('requires')[0])
        for i, a in enumerate(names):
            for b in names[i + 1:]:
                pairs.setdefault((a, b), []).append(f'{path}: {name}')
    show('5', 'facts that three or more functions require', [f'{len(v)}: {k}' for k, v in sorted(facts.items(), key=lambda e: -len(e[1])) if len(v) > 2])
    show('5', 'pairs of parameters that three or more functions take', [f'{len(v)}: {a[0]}: {a[1]}, {b[0]}: {b[1]}' for (a, b), v in sorted(pairs.items(), key=lambda e: -len(e[1])) if len(v) > 2])


def six():
    show('6', 'structs of an array and how many of it count', [f'{p}: {m[1]}' for p, t in FILES for m in re.finditer(r'struct (\w+) \{([^}]*)\}', t) if re.search(r': \[', m[2]) and re.search(r'count|phases', m[2])])
    show('6', 'structs of parallel arrays', [f'{p}: {m[1]}' for p, t in FILES for m in re.finditer(r'struct (\w+) \{([^}]*)\}', t) if len(re.findall(r': \[', m[2])) > 1])
    show('6', 'buffers with a place beside them (`out, at`)', [f'{p}: {n}' for p, n, h, b in functions() if re.search(r'out: &mut \[u8\],\s+(at|from): usize', h)])
    show('6', 'places that are reckoned by hand from a width (`let a = WIDTH * i`)', lines(r'let \w+ = \w*_(WORDS|BYTES) \* \w+;'))


def seven():
    show('7', 'function pointers, dyn, closures as parameters', lines(r'\bfn\(|\bdyn\b|\bFn(Mut|Once)?\('))
    show('7', 'matches on a number', lines(r'^\s+\d+ =>'))


def eight():
    names = git('ls-tree', '-r', '--name-only', COMMIT or 'HEAD', 'crates').split('\n')
    kept = [n for n in names if re.fullmatch(r'crates/\w+/proofs/.*/(Answers|Invariants|Proof)\.antt', n)]
    show('8', 'files of answers and invariants', kept)
    count = sum((git('show', f'{COMMIT}:{n}') if COMMIT else open(os.path.join(TOP, n), encoding='utf-8').read()).count('\n') for n in names if re.fullmatch(r'crates/\w+/proofs/.*\.antt', n))
    print(f'8   {count}  lines of proofs')


for point in (one, two, three, four, five, six, seven, eight):
    point()
