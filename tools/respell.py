#!/usr/bin/env python3
"""Brings the names of this repository's own definitions and lemmas to snake case.

A name that a file in specs/ or proofs/ defines with a dash or a prime turns each dash to an underscore and each
prime to an apostrophe, wherever it is cited. Names that the check makes for goals, and names that a file takes from
the library, stay as they are. Run once, at the top, after the library's own script for older repositories:

    python3 tools/respell.py            changes the files, and lists what it could not settle
    python3 tools/respell.py --dry      lists alone
"""
import os
import re
import sys

DRY = '--dry' in sys.argv
TOKEN = re.compile(r"[^\s(){}\[\];,.:λ`\"]+")
DEFINES = re.compile(
    r"^\s*(?:\[?(?:pub|abbrev|unfoldable|record|data|opaque|ruleset)\]?\s+)*(" + TOKEN.pattern + r")(?:\s+[({].*?)?\s+:(?:\s|$)")
MADE = re.compile(r"^(returns|loop-|invariant-|decreases-|measure|overflow[-_]|bounds-|offset[-_]bounds|slice[-_]bounds|nonzero)|-requires|_requires")
# names of the older library within lemmas' names
WORDS = [('getD', 'get_or'), ('leZ', 'le_int'), ('isSome', 'is_some')]
# uses that the library's script spelt otherwise than their definition
ALSO = {'get_d_some': 'get_or_some'}


def files():
    for top, dirs, names in os.walk('crates'):
        dirs[:] = sorted(d for d in dirs if d not in ('out', 'must-fail', 'data'))
        for name in sorted(names):
            if name.endswith(('.antt', '.rt')):
                yield os.path.join(top, name)


def respelt(name):
    for old, new in WORDS:
        name = name.replace(old, new)
    return name.replace('-', '_').replace('′', "'")


def defined():
    """Each name that is to be respelt, with the files that define it."""
    found = {}
    every = {}
    for path in files():
        if not path.endswith('.antt'):
            continue
        for line in open(path, encoding='utf-8'):
            m = DEFINES.match(line)
            if not m or line.lstrip().startswith(('--', 'let ', 'use ')):
                continue
            every.setdefault(m.group(1), set()).add(path)
            if respelt(m.group(1)) != m.group(1) and not MADE.search(m.group(1)):
                found.setdefault(m.group(1), set()).add(path)
    return found, every


def taken(text):
    """The names that a file takes from the library."""
    names = set()
    for m in re.finditer(r'use Rattle\.std\.[^{;]*\{([^}]*)\}', text):
        for name in m.group(1).split(','):
            names.update(part.strip() for part in name.split(' as '))
    return names


def turned(path, text, names):
    skip = taken(text)
    uses = []

    def token(m):
        name = m.group(0)
        if name in names and name not in skip:
            uses.append(name)
            return names[name]
        return name

    out = []
    for line in text.split('\n'):
        bare = line.strip()
        if path.endswith('.rt') and (bare.startswith('//') or '"' in line):
            out.append(line)
        elif bare.startswith('--'):
            line = re.sub(r'^(\s*--\s{2,})(\S.*?)(\s{2,}.*|)$', lambda m: m.group(1) + TOKEN.sub(token, m.group(2)) + m.group(3), line)
            out.append(re.sub(r'`[^`]*`', lambda m: TOKEN.sub(token, m.group(0)), line))
        elif ' -- ' in line and path.endswith('.antt'):
            code, note = line.split(' -- ', 1)
            out.append(TOKEN.sub(token, code) + ' -- ' + note)
        else:
            out.append(TOKEN.sub(token, line))
    for name in sorted(skip & set(names)):
        print(f'{path}: {name} is taken from the library here')
    return '\n'.join(out)


def main():
    found, every = defined()
    names = {name: respelt(name) for name in found} | ALSO
    back = {}
    for old, new in names.items():
        if old in ALSO:
            continue
        back.setdefault(new, []).append(old)
    for new, olds in sorted(back.items()):
        if len(olds) > 1 or new in every:
            print(f'fall together: {", ".join(olds)} -> {new}: {sorted(set().union(*(found[o] for o in olds)) | every.get(new, set()))}')
    for path in list(files()):
        text = open(path, encoding='utf-8').read()
        new = turned(path, text, names)
        if new != text and not DRY:
            open(path, 'w', encoding='utf-8').write(new)
    print(f'{len(names)} names')


main()
