#!/usr/bin/env python3
"""Spells this repository's own definitions and lemmas in snake case, as today's Rattle does.

Run once at the top, after the port's own script. A name that specs/ or proofs/ declares, and that
has a dash or an inner capital, is respelled wherever it stands as a whole name: in specs/, proofs/
and in the ghost text of src/. Names that begin with a capital (facts, types, modules) stay, as do
the goals and steps that the checker names. It prints the names of one file that fall together: a
field and a member, a definition and the function that it mirrors, or a local variable.
"""
import glob
import re

DECLARED = re.compile(r'^\s*(?:(?:abbrev|unfoldable|pub)\s+)*([^\s(){}\[\];,.:]+)\s+:\s+(\S*)')
# a lemma that would have the name of the definition that it speaks of
APART = {'list-tests': 'list_tests_lem', 'record-tests': 'record_tests_lem'}
SPLIT = re.compile(r'([\s(){}\[\];,.:|]+)')


def own_names(files):
    found = set()
    for path in files:
        for line in open(path, encoding='utf-8'):
            m = DECLARED.match(line)
            if m and not m.group(2).startswith('goal.'):
                found.add(m.group(1))
    return found


def snake(name):
    name = name.replace('′', "'")
    name = re.sub(r'(?<=[a-z0-9])([A-Z])', lambda m: '_' + m.group(1).lower(), name)
    return re.sub(r'(?<=[\w₂])-(?=\w)', '_', name)


def main():
    proofs = sorted(glob.glob('crates/*/specs/**/*.antt', recursive=True)
                    + glob.glob('crates/*/proofs/**/*.antt', recursive=True))
    code = sorted(glob.glob('crates/*/src/**/*.rt', recursive=True))
    table = {}
    everything = own_names(proofs)
    for name in everything:
        if name[0].islower() and snake(name) != name:
            table[name] = APART.get(name, snake(name))
    texts = {}
    for path in proofs + code:
        text = open(path, encoding='utf-8').read()
        parts = SPLIT.split(text)
        seen = {}
        for i in range(0, len(parts), 2):
            old = parts[i]
            if i > 0 and parts[i - 1] == '.' and i > 1 and parts[i - 2] in ('goal', 'c', 'l', 'w') and '-' in old:
                if old in table:
                    print(f'{path}: kept {parts[i - 2]}.{old}')
                continue
            new = table.get(old, old)
            seen.setdefault(new, set()).add(old)
            parts[i] = new
        for new, olds in seen.items():
            if len(olds) > 1:
                print(f'{path}: {sorted(olds)} fall together')
        texts[path] = ''.join(parts)
    images = {}
    for old, new in table.items():
        images.setdefault(new, set()).add(old)
    for new, olds in images.items():
        if len(olds) > 1 or new in everything:
            print(f'declared twice: {new} for {sorted(olds)}')
    changed = 0
    for path, text in texts.items():
        if text != open(path, encoding='utf-8').read():
            open(path, 'w', encoding='utf-8').write(text)
            changed += 1
    print(f'{len(table)} names, {changed} files')


main()
