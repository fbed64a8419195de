#!/usr/bin/env python3
"""pages.py: what every page owes its reader: prose that is wrapped, and links and paths that are there.

It fails where a line of prose has more than 120 characters (tables and code may), and where a link, or a path between backticks that
begins with a folder of the repository, leads nowhere. Before the pages it is handed small ones that are wrong, each of which it must
tell.
"""
import glob, os, re, sys

ROOT = os.path.dirname(os.path.dirname(os.path.abspath(__file__)))
WIDTH = 120
FOLDERS = ('crates/', 'docs/', 'tests/', 'bench/', 'bin/', 'examples/', 'include/', 'reference/')


def prose_of(text):
    """the lines outside tables and code, with their numbers"""
    code = False
    for number, line in enumerate(text.split('\n'), 1):
        if line.strip().startswith('```'):
            code = not code
        elif not code and not line.lstrip().startswith('|') and not line.startswith('    '):
            yield number, line


def is_there(path, folder):
    path = path.split('#')[0].split(' ')[0]
    return bool(glob.glob(os.path.join(ROOT, folder, path)))


def faults_of(text, folder):
    told = ['line %d has %d characters' % (number, len(line)) for number, line in prose_of(text) if len(line) > WIDTH]
    for link in re.findall(r'\]\(([^)]+)\)', text):
        if not link.startswith('http') and not is_there(link, folder):
            told.append('the link %s leads nowhere' % link)
    for path in re.findall(r'`([^`\n]+)`', text):
        built = re.match(r'crates/(\w+)/out/', path)  # what a build makes, of a crate that is there
        stands_for = re.search(r'\b(X|CRATE|NAME|NNN)\b', path) or (built and is_there('crates/' + built.group(1), '.'))  # in the place of any name
        if path.startswith(FOLDERS) and re.fullmatch(r'[\w./*-]+( .*)?', path) and not stands_for and not (
                is_there(path, '.') or is_there(path, folder)):
            told.append('%s is not there' % path)
    return told


def must_tell():
    cases = [
        ('short\n\n| ' + 'x' * 200 + ' |\n\n```\n' + 'x' * 200 + '\n```\n[page](docs/)\n`docs/tour CRATE`', 0),
        ('x' * 121, 1), ('[page](docs/GONE.md)', 1), ('`tests/gone.py`', 1),
    ]
    for text, faults in cases:
        told = faults_of(text, '.')
        if len(told) != faults:
            sys.exit('pages.py: of its own case %r it tells %r' % (text[:80], told))


def main():
    must_tell()
    pages = ['README.md', 'reference/README.md'] + sorted(
        os.path.relpath(p, ROOT) for p in glob.glob(os.path.join(ROOT, 'docs', '**', '*.md'), recursive=True))
    wrong = 0
    for page in pages:
        with open(os.path.join(ROOT, page), encoding='utf-8') as f:
            for fault in faults_of(f.read(), os.path.dirname(page)):
                wrong += 1
                print('pages: %s: %s' % (page, fault))
    if wrong:
        sys.exit(1)
    print('pages: %d, wrapped, and their links and paths are there' % len(pages))


main()
