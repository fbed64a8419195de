#!/usr/bin/env python3
"""imports_used.py: no file of crates/ brings in a name that it does not use, or says at which line of the code a fact is asked.

The proof files that the toolchain offers have both; neither stays true. A name is used where it stands outside comments and `use` lines:
of an operator each of its parts, of a module under another name that name and a point. Before the sources it is handed small ones that
are wrong, each of which it must tell.
"""
import glob, os, re, sys

ROOT = os.path.dirname(os.path.dirname(os.path.abspath(__file__)))
USE = re.compile(r'\s*(?:pub )?(?:ghost )?use ')
POSITION = re.compile(r'^-- src/[\w/]+\.rt:\d+:\d+$', re.M)


def is_used(name, body, words):
    """whether a name, or each part of an operator, stands in the body"""
    if name in ('[]', '◌∷◌'):
        return '[' in body or '∷' in body
    if name in ('◌>>=◌', '◌>>◌') and re.search(r'\bdo\b', body):
        return True
    parts = [part for part in name.strip('«»').split('◌') if part]
    return all(part in words if re.fullmatch(r"[\w'-]+", part) else part in body for part in parts)


def faults_of(text):
    lines = text.split('\n')
    body = '\n'.join(l for l in lines if not USE.match(l) and not l.strip().startswith(('--', '//')))
    words = set(re.split(r'[\s(){}\[\],;.«»⌜⌝⟦⟧@`]+|λ', body))
    told = ['a position of the code'] if POSITION.search(text) else []
    for line in lines:
        several = re.match(r'^(?:ghost )?use (\S+?)\.\{(.*)\};?$', line)
        other = re.match(r'^use \S+ as (\S+)$', line)
        names = [n.split(' as ')[-1].strip() for n in several.group(2).split(',')] if several else []
        told += [name + ' is not used' for name in names if not is_used(name, body, words)]
        if other and not re.search(r'(?<![\w-])%s\.' % re.escape(other.group(1)), body):
            told.append(other.group(1) + ' is not used')
    return told


def must_tell():
    cases = [
        ('use M.{a, ◌+◌, [], «in»}\nuse M.N as n\nf : a\nf = x + n.g in []', 0), ('use M.{a}\n-- a\nb = c', 1), ('use M.{◌≡◌}\nb = c', 1),
        ('use M.N as n\nm = n', 1), ('ghost use M.{a, b};\nfn f() ensures { a }', 1), ('-- src/x.rt:1:2\na = b', 1),
    ]
    for text, faults in cases:
        told = faults_of(text)
        if len(told) != faults:
            sys.exit('imports_used.py: of its own case %r it tells %r' % (text, told))


def main():
    must_tell()
    files = [p for end in ('antt', 'rt') for folder in ('src', 'specs', 'proofs')
             for p in glob.glob(os.path.join(ROOT, 'crates', '*', folder, '**', '*.' + end), recursive=True)]
    wrong = 0
    for path in sorted(files):
        with open(path, encoding='utf-8') as f:
            for fault in faults_of(f.read()):
                wrong += 1
                print('imports: %s: %s' % (os.path.relpath(path, ROOT), fault))
    if wrong:
        sys.exit(1)
    print('imports: %d files, each name of their `use` lines is used' % len(files))


main()
