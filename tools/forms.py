#!/usr/bin/env python3
"""forms.py [-v] [TREE]: counts, in crates/*/src of TREE (here, if none is named), the places of older forms that docs/DESIGN-PASS.md speaks of, a line for
each kind; with -v each place. It goes by the text: what it finds is to be read.

1a  enums of Option's or Result's shape: two to four cases, one of them a refusal, an end or a lack
1b  structs of a bool and the value that it judges
1c  refusals as numbers: in an answer or a plan, a number returned, a constant, a function of refusals that answers a number
2   functions of one shape: alike but for names, numbers and types (groups, and functions in them)
3a  while loops
3b  loops without a head
4   equality, conversion and printing written as functions
5a  functions with seven parameters and more
5b  facts that stand in the requires of three functions and more (facts, and where they stand)
6   a slice with a count or a place beside it; three parallel slices; a set as an array of words
7   switches on a step: a match or an if let on a plan or a change
8   lines of answers and invariants; of them those in crates that src/ calls"""
import re, sys
from collections import defaultdict
from pathlib import Path

args = [a for a in sys.argv[1:] if a != '-v']
verbose = '-v' in sys.argv
root = Path(args[0] if args else '.')
files = sorted(root.glob('crates/*/src/*.rt'))
NUMBER = re.compile(r'\b\d[\d_]*(u8|u16|u32|u64|usize)?\b')

def lines(path):
    for k, line in enumerate(path.read_text().split('\n'), 1):
        if not line.strip().startswith('//'):
            yield k, line

# the items `fn` of a file: name, head, requires, body
def functions(path):
    text = '\n'.join(l if not l.strip().startswith('//') else '' for l in path.read_text().split('\n'))
    for m in re.finditer(r'^( *)(pub(\(crate\))? )?(extern "C" )?fn (\w+)', text, re.M):
        indent = m.group(1)
        end = re.search(r'^' + indent + r'\}$', text[m.start():], re.M)
        whole = text[m.start():m.start() + end.end()] if end else text[m.start():]
        k = text[:m.start()].count('\n') + 1
        body = re.search(r'(^|\) |-> .* )\{\n', whole, re.M) if 'ensures' not in whole else re.search(r'^' + indent + r'\{\n', whole, re.M)
        cut = body.start() if body else len(whole)
        yield m.group(5), k, whole[:cut], whole[cut:]

def parameters(head):
    m = re.search(r'fn \w+(<[^>]*>)?\((.*?)\)( ->|\n|$)', head, re.S)
    return [p.strip() for p in re.split(r',(?![^<(\[]*[>)\]])', m.group(2)) if p.strip()] if m else []

# names by the order in which they come, numbers and types by one letter
def shape(body):
    names, out = {}, []
    for t in re.findall(r'[A-Za-z_]\w*|\d[\w]*|\S', body):
        if re.fullmatch(r'u8|u16|u32|u64|usize', t): out.append('T')
        elif t[0].isdigit(): out.append('N')
        elif t in ('if', 'else', 'while', 'loop', 'for', 'in', 'return', 'let', 'mut', 'match', 'break', 'as', 'true', 'false'): out.append(t)
        elif t[0].isupper(): out.append('V')
        elif t[0].isalpha() or t[0] == '_': out.append('n%d' % names.setdefault(t, len(names)))
        else: out.append(t)
    return ' '.join(out)

found = defaultdict(list)
def place(kind, path, k, text):
    found[kind].append(f'{path.relative_to(root)}:{k}: {text.strip()[:150]}')

LACK = r'(Unknown|TooMany|Short|Missing|Absent|Nothing|End|Refused)\b'
shapes, facts = defaultdict(list), defaultdict(list)
for path in files:
    text = path.read_text()
    for m in re.finditer(r'enum (\w+) \{(.*?)\n\}', text, re.S):
        cases = [c for c in re.findall(r'^    (\w+)[^\n]*', m.group(2), re.M)]
        if 2 <= len(cases) <= 4 and any(re.fullmatch(LACK, c) for c in cases):
            place('1a', path, text[:m.start()].count('\n') + 1, m.group(1) + ': ' + ', '.join(cases))
    for m in re.finditer(r'struct (\w+)(<[^>]*>)? \{(.*?)\n\}', text, re.S):
        fields = re.findall(r'^    (?:pub )?(\w+): ([^\n]*),', m.group(3), re.M)
        if any(t == 'bool' for _, t in fields) and len(fields) > 1:
            place('1b', path, text[:m.start()].count('\n') + 1, m.group(1) + ': ' + ', '.join(f for f, _ in fields))
    for k, l in lines(path):
        if re.search(r'Refused?\(\d+\)|\brefused\w*\(\d+|\breturn \d+;|^pub const [A-Z_]+: u8', l) and 'ensures' not in l and 'ghost' not in l:
            place('1c', path, k, l)
        if re.search(r'^\s*while ', l): place('3a', path, k, l)
        if re.search(r'\bloop \{', l): place('3b', path, k, l)
        if re.search(r'\bfn (same_\w+|wide\w*|\w*in_numbers|number|value|put_number|print|refusal)\b', l): place('4', path, k, l)
        if re.search(r'(match|if let .*=) (p|change|plan|t\.change)\b( \{|;)', l): place('7', path, k, l)
        if re.search(r'\[u64; 16\]', l) and 'fn ' not in l and ':' in l: place('6', path, k, l)
    for name, k, head, body in functions(path):
        ps = parameters(head)
        if len(ps) >= 7: place('5a', path, k, name)
        if re.search(r'-> u(8|32)$', head.split('\n    ensures')[0].split('\n    requires')[0].strip()) and re.search(r'refus|admi|tests|list_', name): place('1c', path, k, 'fn ' + name)
        names = [p.split(':')[0].replace('mut ', '') for p in ps]
        if ('log' in names or 'logs' in names) and 'count' in names or 'output' in names and 'at' in names: place('6', path, k, name + ': a slice with a count or a place')
        if {'readers', 'claimants', 'exclusives'} <= set(names) and not any('u' == p.split(':')[1].strip()[0] for p in ps if p.startswith('readers')): place('6', path, k, name + ': three parallel slices')
        if body.count('\n') >= 5: shapes[shape(body)].append((path, k, name))
        for r in re.findall(r'requires [a-z_]* ?\{(.*?)\}\n', head + '\n', re.S) + re.findall(r'requires \{(.*?)\}\n', head + '\n', re.S)[:0]:
            for fact in {re.sub(r'^\(|\)$', '', f.strip()) for f in r.split(' × ')}: facts[fact].append((path, k, name))
for s, fs in shapes.items():
    if len(fs) > 1: found['2'].append('; '.join(f'{p.relative_to(root)}:{k}: {n}' for p, k, n in fs)); found['2n'] += [1] * len(fs)
for f, fs in sorted(facts.items()):
    if len(fs) > 2: found['5b'].append(f'{f}: ' + ', '.join(n for _, _, n in fs)); found['5bn'] += [1] * len(fs)
proofs = [p for p in root.glob('crates/*/proofs/*/**/*.antt') if '/out/' not in str(p)]
count = sum(p.read_text().count('\n') for p in proofs)
for kind in '1a 1b 1c 2 3a 3b 4 5a 5b 6 7'.split():
    more = f', {len(found[kind + "n"])} in all' if kind in ('2', '5b') else ''
    print(f'{kind:3} {len(found[kind])}{more}')
    if verbose:
        for x in found[kind]: print('      ' + x)
print(f'8   {count} lines in {len(proofs)} files')
