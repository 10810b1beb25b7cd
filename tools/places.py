#!/usr/bin/env python3
"""Lists the places in crates/*/src that look like a point of docs/DESIGN-PASS.md, and counts them.

usage: tools/places.py [ROOT] [--list POINT]     (POINT: 1 to 7, or all)

It goes by text, so what it lists is a place to look at, and no verdict. Tests count for all points but 5, and for 6 only their fillers.
"""
import re
import sys
from collections import Counter, defaultdict
from pathlib import Path

args = sys.argv[1:]
show = None
if '--list' in args:
    at = args.index('--list')
    show = args[at + 1]
    del args[at:at + 2]
root = Path(args[0] if args else '.')
files = sorted(root.glob('crates/*/src/**/*.rt'))
found = defaultdict(list)
clauses = []
functions = []
shapes = defaultdict(list)
names = defaultdict(list)


def note(point, kind, path, line, text):
    found[point].append((kind, f'{path.relative_to(root)}:{line}', ' '.join(text.split())[:110]))


def line_of(text, at):
    return text.count('\n', 0, at) + 1


def variants(body):
    """The variants of an enum's body, comments and attributes left out."""
    body = re.sub(r'#\[.*?\]', '', re.sub(r'//[^\n]*', '', body))
    depth, parts, part = 0, [], ''
    for ch in body:
        depth += (ch in '{(') - (ch in '})')
        if ch == ',' and depth == 0:
            parts.append(part.strip())
            part = ''
        else:
            part += ch
    return [p for p in parts + [part.strip()] if p]


def block(lines, at):
    """The lines of the block that begins on line `at`, by its indentation."""
    indent = len(lines[at]) - len(lines[at].lstrip())
    for end in range(at + 1, len(lines)):
        if lines[end].strip() == '}' and len(lines[end]) - len(lines[end].lstrip()) == indent:
            return lines[at + 1:end]
    return []


def shape(text):
    """The text with each name by its first place in it, and each number and string alike."""
    seen = {}
    words = re.findall(r'"[^"]*"|[A-Za-z_]\w*|\d\w*|[^\s\w]', re.sub(r'//[^\n]*', '', text))
    keep = {'if', 'else', 'for', 'in', 'match', 'let', 'mut', 'return', 'while', 'self', 'Some', 'None', 'Ok', 'Err', 'true', 'false'}
    out = []
    for w in words:
        if re.match(r'[A-Za-z_]', w) and w not in keep:
            out.append(f'n{seen.setdefault(w, len(seen))}')
        elif re.match(r'["\d]', w):
            out.append('v')
        else:
            out.append(w)
    return ' '.join(out)


for path in files:
    text = path.read_text()
    lines = text.split('\n')
    test = path.name == 'tests.rt'
    code = [(n, l) for n, l in enumerate(lines, 1) if not re.match(r'\s*(//|requires|ensures|ghost)', l)]

    # 1: enums of the shape of Option or Result, numbers that stand for nothing or for a kind, flags, states with values beside them
    for m in re.finditer(r'enum (\w+)[^{;]*\{(.*?)\n\}', text, re.S):
        vs = variants(m.group(2))
        if len(vs) == 2 and any('(' in v or '{' in v for v in vs):
            note('1', 'enum shaped like Option or Result', path, line_of(text, m.start()), f'{m.group(1)}: {" | ".join(vs)}')
    for m in re.finditer(r'fn (\w+)\([^)]*\) -> u8\n(?:\s*(?:requires|ensures)[^\n]*\n)*\s*\{\n\s*0\n\s*\}', text):
        note('1', 'number for nothing', path, line_of(text, m.start()), m.group(1))
    for n, l in code:
        if re.search(r'\b\w+: bool\b', l):
            note('1', 'flag', path, n, l)
        if re.search(r'pub state: \w+', l):
            note('1', 'state with values beside it', path, n, l)
        if re.search(r'\bside: u8\b|struct Case\(.*u8\)', l) or test and re.search(r'fn \w+.*-> u8', l):
            note('1', 'number for a kind or a refusal', path, n, l)

    # 2: functions whose bodies, types whose fields and constants whose values have one shape
    for m in re.finditer(r'^( *)(?:pub(?:\(crate\))? )?(fn|struct|const) (\w+)[^;\n]*?\{?$', text, re.M):
        body = block(lines, line_of(text, m.start()) - 1)
        while m.group(2) == 'fn' and body and re.match(r'\s*(requires|ensures)', body[0]):
            body = body[1:]
        if m.group(2) == 'fn':
            start = line_of(text, m.start()) - 1
            brace = next((k for k in range(start, min(start + 40, len(lines))) if re.match(r' *\{$', lines[k]) or lines[k].endswith(' {') and k > start - 1 and 'fn' in lines[k]), None)
            body = block(lines, brace) if brace is not None else []
        if m.group(2) == 'fn' and path.name not in ('tests.rt', 'main.rt') and m.group(3) not in ('drop', 'from', 'choose', 'new', 'fmt'):
            names[m.group(3)].append(f'{path.relative_to(root)}:{line_of(text, m.start())}')
        if len([l for l in body if l.strip()]) >= (2 if m.group(2) != 'fn' else 3):
            shapes[m.group(2), shape('\n'.join(body))].append((f'{path.relative_to(root)}:{line_of(text, m.start())}', m.group(3)))

    # 3: loops, and what a chain or a method of the library does
    for n, l in code:
        if not re.match(r"\s*('\w+: )?(for|while) .*\{$", l):
            continue
        body = '\n'.join(block(lines, n - 1))
        kinds = []
        if re.match(r'\s*while', l):
            kinds.append('while')
        if re.search(r'in [^{]*\.\.', l) and not re.search(r'in &', l):
            kinds.append('over a range')
        if 'enumerate()' in l:
            kinds.append('enumerate')
        if re.search(r'^\s*\w+ [+-]= ', body, re.M):
            kinds.append('counts or sums')
        if re.search(r'return (true|false|Some\(\w+\)|\w);', body):
            kinds.append('searches')
        if re.search(r'^\s*(at|place|end|rest|best|pair) = ', body, re.M):
            kinds.append('moves a place')
        if kinds:
            note('3', ', '.join(kinds), path, n, l)

    # 4
    for n, l in code:
        if re.search(r'impl (PartialEq|Eq|PartialOrd|Ord|Clone|Copy|Default|Debug)\b', l) or re.search(r'fn (comes_before|is_open)\b', l):
            note('4', 'comparison by hand', path, n, l)
        elif re.search(r'fn (number\(self\)|code\(self\)|cause\(self\)|(side_of|wide|high|low|parse)\()', l):
            note('4', 'conversion by hand', path, n, l)
        elif re.search(r'fn (name\(self\)|side_name|cause_words|hex_digit|digit_char|put|put_(?!next|wanted)\w+|print_answer|print_card)\b', l):
            note('4', 'printing by hand', path, n, l)
        elif path.name == 'main.rt' and re.search(r'^\s*let \w+ = \w+(\.\w+(\(\))?)+;$', l):
            note('4', 'local that is only printed', path, n, l)

    # 5
    if not test:
        for n, l in enumerate(lines, 1):
            m = re.match(r'\s*(?:requires|ensures)[^{]*\{ (.*) \}$', l)
            if m:
                clauses.append((m.group(1), f'{path.relative_to(root)}:{n}'))
        for m in re.finditer(r'fn (\w+)(?:<[^{]*?>)?\((.*?)\)', text, re.S):
            params = re.findall(r'(\w+): ', ' '.join(m.group(2).split()))
            together = frozenset(p for p in params if p != 'rt')
            if len(together) > 1:
                functions.append((together, f'{path.relative_to(root)}:{line_of(text, m.start())}'))

    # 6
    for n, l in code:
        if not test and (re.search(r'= \[[^\]]+; *[0-9A-Z_]+\]', l) or re.search(r'\w+: \[[^\]]+; *[0-9A-Z_]+\],?$', l)):
            note('6', 'fixed array', path, n, l)
        if re.search(r'const (NO_\w+|NOTHING)\b', l):
            note('6', 'filler', path, n, l)

    # 7
    for n, l in code:
        if re.search(r'\bbest: bool\b|\benum (Turn|Act)\b|turn: Turn\b|: fn\(', l):
            note('7', 'switch on which step to run', path, n, l)

for (kind, _), where in sorted(shapes.items(), key=lambda x: x[1][0][0]):
    if len(where) > 1:
        found['2'].append((f'{kind} of one shape', where[0][0], ' ~ '.join(f'{name} ({w.split("/")[1]})' for w, name in where)))

for name, where in sorted(names.items()):
    if len(where) > 1:
        found['2'].append(('functions of one name', where[0], f'{name} ({", ".join(w.split("/")[1] for w in where)})'))

for clause, n in Counter(c for c, _ in clauses).most_common():
    if n >= 3:
        found['5'].append((f'clause in {n} contracts', next(w for c, w in clauses if c == clause), clause))
pairs = Counter()
for together, _ in functions:
    for a in together:
        for b in together:
            if a < b:
                pairs[a, b] += 1
for (a, b), n in sorted(pairs.items(), key=lambda x: (-x[1], x[0])):
    if n >= 4:
        found['5'].append((f'parameters together in {n} functions', next(w for together, w in functions if a in together and b in together), f'{a}, {b}'))

for point in sorted(found):
    kinds = Counter(re.sub(r' in \d+ .*', '', k) for k, _, _ in found[point])
    print(f'point {point}: {len(found[point])} places ({", ".join(f"{n} {k}" for k, n in kinds.most_common())})')
    if show in (point, 'all'):
        for kind, where, text in found[point]:
            print(f'    {where}: [{kind}] {text}')
proofs = [p.read_text() for p in root.glob('crates/*/proofs/**/*.antt')]
answers = list(root.glob('crates/*/proofs/**/Answers.antt'))
given = sum(len(re.findall(r"^pub [\w'-]+ : goal\.", t, re.M)) for t in proofs)
stated = sum(len(re.findall(r"^(?:pub )?[\w'-]+ : (?!goal\.)", t, re.M)) for t in proofs)
print(f'point 8: {len(answers)} files of answers with {given} answers, {stated} lemmas, {sum(t.count(chr(10)) for t in proofs)} lines of proofs')
