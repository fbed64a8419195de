#!/usr/bin/env python3
"""edits_cited.py: docs/STATEMENTS.md and the must-fail edits, held against each other.

It fails where the page names an edit that is not kept (in italics, or behind the name of its crate), and where an edit is kept that the
page does not name.
"""
import collections, glob, os, re, sys

ROOT = os.path.dirname(os.path.dirname(os.path.abspath(__file__)))


def read(*parts):
    with open(os.path.join(ROOT, *parts), encoding='utf-8') as f:
        return f.read()


def kept_edits():
    """the crates that have an edit of a name, by that name"""
    kept = collections.defaultdict(set)
    for path in glob.glob(os.path.join(ROOT, 'crates', '*', 'must-fail', '*.edit')):
        crate, _, name = os.path.relpath(path, os.path.join(ROOT, 'crates')).split(os.sep)
        kept[name[:-len('.edit')]].add(crate)
    return kept


def faults_of(page, kept, crates, functions):
    told = ['%s is told as kept, and is no edit' % name for name in sorted(set(re.findall(r'\*`(\w+)`\*', page))) if name not in kept]
    for crate, name in sorted(set(re.findall(r'`(\w+) ([a-z]\w*_\w+)`', page))):
        if crate in crates and crate not in kept[name] and name not in functions:
            told.append('%s is no edit of %s' % (name, crate))
    named = set(re.findall(r'`(?:\w+ )?(\w+)`', page))
    told += ['%s of %s is not named' % (name, crate) for name in sorted(kept) for crate in sorted(kept[name]) if name not in named]
    return told


def must_tell():
    """each kind of fault, on a page of its own"""
    kept = collections.defaultdict(set, a_b={'rules', 'words'}, c_d={'words'})
    page = '`a_b`, *`c_d`*, `words a_b`, `words some_call`'
    cases = [
        (page, 0),
        (page + ' *`e_f`*', 1),
        (page + ' `rules c_d`', 1),
        (page.replace('c_d', 'a_b'), 1),
    ]
    for text, faults in cases:
        told = faults_of(text, kept, {'rules', 'words'}, {'some_call'})
        if len(told) != faults:
            sys.exit('edits_cited.py: of its own case it tells %r' % told)


def main():
    must_tell()
    kept, crates = kept_edits(), set(os.listdir(os.path.join(ROOT, 'crates')))
    functions = set()
    for path in glob.glob(os.path.join(ROOT, 'crates', '*', 'src', '**', '*.rt'), recursive=True):
        functions.update(re.findall(r'\bfn (\w+)\(', read(path)))
    told = faults_of(read('docs', 'STATEMENTS.md'), kept, crates, functions)
    for fault in told:
        print('edits_cited.py: ' + fault, file=sys.stderr)
    if told:
        sys.exit(1)
    print('edits: %d, all named in docs/STATEMENTS.md, which names no other' % sum(map(len, kept.values())))


main()
