#!/usr/bin/env python3
"""Counts the places that docs/DESIGN-PASS.md speaks of: python3 tools/places.py [-v] [COMMIT].

Without COMMIT it reads the files as they stand. -v lists the places. Crates that crates.txt does not list are left out.
"""
import re
import subprocess
import sys
from collections import Counter, defaultdict

VERBOSE = '-v' in sys.argv
COMMIT = next((a for a in sys.argv[1:] if a != '-v'), None)


def git(*words):
    return subprocess.run(['git', *words], capture_output=True, text=True, check=True).stdout


def read(path):
    return git('show', f'{COMMIT}:{path}') if COMMIT else open(path, encoding='utf-8').read()


def paths(pattern):
    names = git('ls-tree', '-r', '--name-only', COMMIT) if COMMIT else git('ls-files')
    return [p for p in names.split('\n') if re.fullmatch(pattern, p) and (COMMIT or __import__('os').path.exists(p))]


CRATES = {l.split(':')[0].split()[0] for l in read('crates.txt').split('\n') if ':' in l and not l.startswith('#')}
SOURCES = {p: read(p) for p in paths(r'crates/[^/]+/src/.*\.rt') if p.split('/')[1] in CRATES}


def show(title, places):
    print(f'{title}: {len(places)}')
    if VERBOSE:
        for place in places:
            print('   ', place)


def lines(pattern):
    return [f'{p}:{i}: {l.strip()}' for p, s in SOURCES.items() for i, l in enumerate(s.split('\n'), 1) if re.search(pattern, l)]


# Functions: the file, the name, the signature with its clauses, the body.
def functions():
    for p, s in SOURCES.items():
        for m in re.finditer(r'^( *)(?:pub )?(?:extern "C" )?fn (\w+)', s, re.M):
            indent = m.group(1)
            end = re.compile(rf'^{indent}}}$', re.M).search(s, m.end())
            if not end:
                continue
            text = s[m.start():end.start()]
            split = re.search(r'(?: \{\n|\n' + indent + r'\{\n)', text)
            if split:
                yield p, m.group(2), text[:split.start()], text[split.end():]


FUNCTIONS = list(functions())

# 1. Own enums; flags with values beside them; numbers that name kinds, steps or operations; a number that says "none".
show('1a own enums', lines(r'^(pub )?enum '))
show('1b flags in structs', lines(r'^ {4}(pub )?\w+: bool,'))
show('1c constants that number kinds, operations, steps', lines(r'^(pub )?const [A-Z_]+: u(8|32) = ([A-Z_]+( \+ .*)?|\d+);'))
show('1d a number that says none', lines(r'^ *// .*\b(0|16|64|255) (where|for all others|, or)|, or 64\.|, or n\.'))


# 2. Functions whose bodies differ in names and numbers alone.
def shape(body):
    body = re.sub(r'//.*', '', body)
    return ' '.join('_' if re.match(r'\w', t) and t not in ('if', 'else', 'return', 'let', 'mut', 'while', 'for', 'in', 'match') else t
                    for t in re.findall(r'\w+|[^\s\w]', body))


shapes = defaultdict(list)
for p, name, head, body in FUNCTIONS:
    if len(body.strip().split('\n')) >= 3:
        shapes[shape(body)].append(f'{p}:{name}')
show('2 groups of functions of one shape, of three lines or more', [' ~ '.join(v) for v in shapes.values() if len(v) > 1])

# 3. Loops: those that step a variable of their condition by one, and all others that are no `for`.
counted, others = [], []
for p, s in SOURCES.items():
    rows = s.split('\n')
    for i, l in enumerate(rows):
        m = re.match(r'^( +)(?:while (.*)|loop) \{$', l)
        if m:
            body = '\n'.join(rows[i + 1:next(k for k in range(i + 1, len(rows)) if rows[k] == m.group(1) + '}')])
            steps = re.findall(r'^\s+(\w+) [+-]= 1;$', body, re.M)
            hit = any(re.search(rf'\b{v}\b', m.group(2) or '') for v in steps)
            (counted if hit else others).append(f'{p}:{i + 1}: {l.strip()}')
show('3a loops that count by hand', counted)
show('3b other `while` and `loop`', others)

# 4. Elements compared or copied one by one; bytes of words made by hand.
show('4a elements copied or compared one by one', lines(r'^\s+(if )?\w+\[[^\]]+\] (=|!=|==) \w+\[[^\]]+\]( \{|;)$'))
show('4b bytes of words by hand', lines(r'(/|%|>>) \(?(256|BITS|BYTE)\b|256 \*'))

# 5. Clauses of `requires` that stand in three functions or more; three parameters or more that travel together through three functions or more.
clauses = Counter()
groups = Counter()
for p, name, head, body in FUNCTIONS:
    for c in re.findall(r'requires (?:\w+ )?\{ (.*) \}', head):
        for part in c.split(' × '):
            clauses[part.strip('() ')] += 1
    names = re.findall(r'[(\n,] *(\w+): &', head.split('requires')[0].split('ensures')[0])
    for i in range(len(names)):
        for j in range(i + 3, len(names) + 1):
            groups[tuple(names[i:j])] += 1
show('5a clauses of requires in three functions or more', [f'{n} × {c}' for c, n in clauses.most_common() if n >= 3])
show('5b runs of three borrowed parameters or more in three functions or more', [f'{n} × {", ".join(g)}' for g, n in groups.most_common() if n >= 3])

# 6. Buffers of a fixed length.
show('6 buffers of a fixed length', lines(r'= \[[^;\]]+; [A-Z\d]'))

# 7. A flag or a number that switches what a function does.
show('7 parameters that switch', [f'{p}:{name}' for p, name, head, body in FUNCTIONS
                                  if re.search(r'\b\w+: bool\b', head.split('->')[0]) or len(re.findall(r'^\s+(?:if|\} else if) (op|d|kind) [=<>]=? ', body, re.M)) >= 3])

# 8. Answers, and lines of proofs of functions.
answers = [p for p in paths(r'crates/[^/]+/proofs/.*/(Answers|Invariants)\.antt') if p.split('/')[1] in CRATES]
texts = [read(p) for p in answers]
print('8 answers:', sum(len(re.findall(r'^pub \S+ : goal\.', t, re.M)) for t in texts), 'in', len(answers), 'files of', sum(t.count('\n') for t in texts), 'lines')
