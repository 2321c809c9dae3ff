#!/usr/bin/env python3
"""Counts in crates/*/src the places that docs/DESIGN-PASS.md speaks of, and lists them: tools/places.py [TREE] [-v].

What a program can find by text is counted here; what takes reading stands in the page by name."""
import os
import re
import sys

tree = next((a for a in sys.argv[1:] if not a.startswith('-')), '.')
verbose = '-v' in sys.argv

sources = []
for crate in sorted(os.listdir(os.path.join(tree, 'crates'))):
    for folder, _, names in os.walk(os.path.join(tree, 'crates', crate, 'src')):
        for name in sorted(names):
            if name.endswith('.rt'):
                path = os.path.join(folder, name)
                lines = open(path, encoding='utf-8').read().split('\n')
                sources.append((os.path.relpath(path, tree), lines))


def bare(line):
    return line.split('//')[0]


def found(pattern):
    out = []
    for path, lines in sources:
        for n, line in enumerate(lines, 1):
            if re.search(pattern, bare(line)):
                out.append(f'{path}:{n}: {line.strip()}')
    return out


def functions():
    """(place, name, parameters, body) of each function with a body."""
    for path, lines in sources:
        text = '\n'.join(bare(line) for line in lines)
        for m in re.finditer(r'\bfn (\w+)(?:<[^>(]*>)?\(', text):
            depth, i = 1, m.end()
            while depth:
                depth += {'(': 1, ')': -1}.get(text[i], 0)
                i += 1
            parameters = [p.strip() for p in re.split(r',(?![^\[<(]*[\]>)])', text[m.end():i - 1]) if p.strip()]
            # the body begins at the first brace that stands alone at the end of a line
            b = re.compile(r'^ *\{$|\{$', re.M).search(text, i)
            while b and re.search(r'\b(requires|ensures)( \w+)? *\{$', text[text.rfind('\n', 0, b.end() - 1) + 1:b.end()]):
                b = re.compile(r'\{$', re.M).search(text, b.end())
            if not b:
                continue
            depth, j = 1, b.end()
            while depth and j < len(text):
                depth += {'{': 1, '}': -1}.get(text[j], 0)
                j += 1
            yield f'{path}:{text.count(chr(10), 0, m.start()) + 1}', m.group(1), parameters, text[b.end():j - 1]


def shape(body):
    """A body without its names and numbers."""
    body = re.sub(r'b?"[^"]*"|b\'[^\']*\'', 'T', body)
    body = re.sub(r'\b(?:0x)?[0-9][0-9A-Fa-f_]*\b', '0', body)
    body = re.sub(r'\b(?!if\b|else\b|return\b|let\b|mut\b|while\b|for\b|match\b|in\b|true\b|false\b)[A-Za-z_]\w*', 'x', body)
    return re.sub(r'\s+', ' ', body).strip()


def said(title, places):
    print(f'{len(places):4} {title}')
    if verbose:
        for p in places:
            print('     ', p)


def together(pairs):
    """The places of each key."""
    out = {}
    for key, place in pairs:
        out.setdefault(key, []).append(place)
    return out


every = list(functions())
bodies = together((shape(body), f'{place}: {name}') for place, name, _, body in every if len(shape(body)) > 60)
alike = [' = '.join(v) for v in bodies.values() if len(v) > 1]
plain = [(f'{place}: {name}', [re.sub(r'\bmut ', '', p) for p in parameters if 'self' not in p]) for place, name, parameters, _ in every]
travelling = together(((p, q), place) for place, names in plain for i, p in enumerate(names) for q in names[i + 1:])

print('point 1')
said('enums of its own', found(r'^(pub )?enum '))
said('fields that are a flag', found(r'^ +(pub )?\w+: bool,$'))
said('answers compared by their number with 0', found(r'answer_number\(\w+\) [!=]= 0|\.number\(\) [!=]= 0'))
said('results that are a number where 0 or the length stands for none', [
    f'{path}:{n}: {line.strip()}' for path, lines in sources for n, line in enumerate(lines, 1)
    if re.search(r'// .*\b(0 (for|where)|10 for|none of)', line) and any('fn ' in x for x in lines[n:n + 3])])
print('point 2')
said('pairs or more of functions with one body but for names and numbers', alike)
print('point 3')
said('loops by while', found(r'^\s*while '))
said('indices counted up or down by hand', found(r'^\s*\w+ [+-]= 1;'))
print('point 4')
said('functions that compare, order, copy or convert two of a kind by hand', found(r'\bfn (same_\w+|answer_number|answer_place|part_number|part_place|text12|text24|number[24]_at|state_letters|family_by)\('))
said('derives', found(r'#\[derive\('))
print('point 5')
said('functions of seven parameters or more', [f'{place}: {name}' for place, name, parameters, body in every if len(parameters) > 6])
said('pairs of parameters that stand together in five functions or more', [f'{a}, {b}: {len(v)}' for (a, b), v in sorted(travelling.items()) if len(v) > 4])
print('point 6')
said('lengths beside a buffer', found(r'^ +(pub )?(len|held|count|kept): usize,$'))
said('tables of ends or of numbers for another table', found(r'^const \w*(ENDS|ACTS|LENGTHS|INITIALS|KINDS|ORDERS|WORDS)\b'))
print('point 7')
said('closures and function bounds', found(r'\|[\w, &()*]*\| |\bF: Fn|impl Fn'))
said('for loops and iterator chains', found(r'^\s*for |\.iter\(\)|\.iter_mut\(\)|\.zip\('))
print('point 8')
count = {}
for folder, _, names in os.walk(os.path.join(tree, 'crates')):
    if 'proofs' in folder.split(os.sep):
        for name in names:
            if name.endswith('.antt'):
                kind = name if name in ('Answers.antt', 'Invariants.antt') else 'lemma files'
                n = sum(1 for _ in open(os.path.join(folder, name), encoding='utf-8'))
                files, lines = count.get(kind, (0, 0))
                count[kind] = (files + 1, lines + n)
for kind, (files, lines) in sorted(count.items()):
    print(f'{files:4} {kind}, {lines} lines')
print(f'{len(every):4} functions, {sum(len(lines) for _, lines in sources)} lines of src')
