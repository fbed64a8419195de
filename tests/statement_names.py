#!/usr/bin/env python3
"""statement_names.py: every name that docs/STATEMENTS.md gives, held against the sources.

It fails where the page names a definition, theorem, function, file or crate that is not there, or not where the page says: `crate
File.name` is declared in that file of the crate's specs/ or proofs/, `crate::module::name` in that file of its src/, `crate name` is a
file, a function or an edit of the crate, `File.name` or `Record.field` stands in some crate's file, a path is there, and a name by
itself is declared somewhere. Before the page it is handed small ones that are wrong, each of which it must tell.
"""
import collections, glob, os, re, sys

ROOT = os.path.dirname(os.path.dirname(os.path.abspath(__file__)))
NAME = r"[^\W\d][\w'′₀-₉-]*"
# Words of the languages, of the toolchain's library and of the formats, which are no names of ours.
OTHER_WORDS = set('requires ensures must-fail Pre Float min max count_ones t P1 P2 P12 Ok Err Some None Result Option'.split())

Sources = collections.namedtuple('Sources', 'logic code edits others root')


def read(path):
    with open(path, encoding='utf-8') as f:
        return f.read()


def declared_logic(text):
    """what a file of definitions or proofs declares: what stands first on a line, after the words of a declaration"""
    found = re.findall(r"^\s*(?:(?:pub|abbrev|unfoldable|record|data|module|mod)\s+)*(%s)(?=[\s:.]|$)" % NAME, text, re.M)
    return set(found) | set(re.findall(r'^\s*(?:pub )?(◌\S+◌) :', text, re.M))


def declared_code(text):
    """what a file of code declares: functions, types, constants, modules, fields and cases, and the types that it has an `impl` of"""
    items = re.findall(r'\b(?:fn|struct|enum|const|mod) (\w+)', text) + re.findall(r'^impl\b.* for (\w+)', text, re.M)
    return set(items) | set(re.findall(r'^\s+(?:pub(?:\(crate\))? )?(\w+)(?:\(|:|,)', text, re.M))


def sources():
    logic, code, edits = (collections.defaultdict(lambda: collections.defaultdict(set)) for _ in range(3))
    for path in glob.glob(os.path.join(ROOT, 'crates', '*', '**', '*.*'), recursive=True):
        crate, *folders, file = os.path.relpath(path, os.path.join(ROOT, 'crates')).split(os.sep)
        if folders[:1] == ['out']:
            continue
        stem, end = os.path.splitext(file)
        if end == '.antt':
            logic[crate][stem] |= declared_logic(read(path))
        elif end == '.rt':
            code[crate][stem] |= declared_code(read(path))
        elif end == '.edit':
            edits[crate][stem].add(stem)
    others = set()
    for path in glob.glob(os.path.join(ROOT, 'include', '*.h')) + glob.glob(os.path.join(ROOT, 'tests', '*', '*.h')):
        others |= set(re.findall(r'\b(\w+)\(', read(path)))
    return Sources(logic, code, edits, others, ROOT)


def is_crate(found, name):
    return name in found.code


def in_file(found, crate, file, names):
    """whether the crate has the file, and the file declares each name; or a record of the crate stands with its fields in one file"""
    files = found.logic[crate]
    return any((stem == file or file in declared) and all(name in declared for name in names) for stem, declared in files.items())


def of_crate(found, crate, name):
    return any(name in files or any(name in declared for declared in files.values())
               for files in (found.logic[crate], found.code[crate], found.edits[crate]))


def anywhere(found, name):
    return name in OTHER_WORDS or name in found.others or is_crate(found, name) or any(of_crate(found, c, name) for c in list(found.code))


def of_path(found, parts):
    """crate::module::name, crate::module, crate::name, crate::module::Type::method, crate::Type::method or Type::method"""
    crate, *rest = parts
    if crate[0].isupper() and len(rest) == 1:
        return any(crate in declared and rest[0] in declared for files in list(found.code.values()) for declared in files.values())
    if not rest:
        return crate in OTHER_WORDS
    if not is_crate(found, crate):
        return False
    if len(rest) == 3 or (len(rest) == 2 and rest[0][0].isupper()):
        return all(name in found.code[crate][rest[0] if len(rest) == 3 else 'lib'] for name in rest[-2:])
    module, name = (rest if len(rest) == 2 else ('lib', rest[0]))
    if len(rest) == 1 and rest[0] in found.code[crate]:
        return True
    return name in found.code[crate][module] or (len(rest) == 1 and name in found.code[crate]['main'])


def there(found, path):
    for top in ('.', 'crates', os.path.join('crates', 'rules')):
        if glob.glob(os.path.join(found.root, top, path)):
            return True
    return False


def is_right(found, span):
    """whether what stands between two backticks is there"""
    name, dotted = NAME, r'(%s)((?:\.%s)+)' % (NAME, NAME)
    if re.fullmatch(name, span):
        return anywhere(found, span)
    if re.fullmatch(r'\w+\.(rt|antt|py|md)', span):
        return any(glob.glob(os.path.join(found.root, top, '**', span), recursive=True) for top in ('crates', 'tests', 'docs'))
    m = re.fullmatch(r'((?:\w+::)+\w+)(?:\([^()]*\))?', span)
    if m:
        return of_path(found, m.group(1).removeprefix('u32::').split('::'))
    m = re.fullmatch(r'(\w+)\([^()]*\)', span)
    if m:
        return anywhere(found, m.group(1))
    m = re.fullmatch(r'(?:(\w+) )?' + dotted, span)
    if m:
        names = m.group(3)[1:].split('.')
        if m.group(1) is not None:
            return in_file(found, m.group(1), m.group(2), names)
        return any(in_file(found, crate, m.group(2), names) for crate in list(found.logic))
    m = re.fullmatch(r'(\w+) (%s)' % name, span)
    if m and is_crate(found, m.group(1)):
        return of_crate(found, m.group(1), m.group(2))
    if m and re.search(r'[_A-Z-]', m.group(2)) and anywhere(found, m.group(2)):
        return False  # a name of ours behind a word that is no crate
    if re.fullmatch(r'[\w./*-]*/[\w./*-]*', span) and re.search(r'\w', span):
        return there(found, span.removeprefix('./'))
    return True


def faults_of(found, page):
    told = []
    for number, line in enumerate(page.split('\n'), 1):
        for span in re.findall(r'`([^`]+)`', line):
            if not is_right(found, span):
                told.append('line %d: `%s` is not there' % (number, span))
    return told


def must_tell():
    """each kind of name, right and wrong"""
    logic = {'rules': {'Flows': {'floor_load'}}, 'words': {'Laws': {'the-law'}}}
    code = {'rules': {}, 'words': {'masks': {'next_set', 'Mask', 'from'}}}
    made = [collections.defaultdict(lambda: collections.defaultdict(set), {c: collections.defaultdict(set, f) for c, f in of.items()})
            for of in (logic, code, {'words': {'an_edit': {'an_edit'}}})]
    found = Sources(*made, set(), ROOT)
    cases = [
        ('`Flows.floor_load`, `words Laws.the-law`, `words::masks::next_set(mask)`, `words an_edit`, `floor_load`, `statement_names.py`, `docs/`', 0),
        ('`Flows.floorload`', 1), ('`words Laws.law`', 1), ('`rules Laws.the-law`', 1), ('`Laws.the-law`', 0),
        ('`words::masks::Mask::from`', 0), ('`words::masks::Mask::gone`', 1), ('`words::masks::Gone::from`', 1),
        ('`Mask::from`', 0), ('`Mask::gone`', 1), ('`Gone::from`', 1),
        ('`words::masks::next`', 1), ('`words other_edit`', 1), ('`gone an_edit`', 1), ('`gone`', 1), ('`docs/GONE.md`', 1), ('`gone(mask)`', 1),
    ]
    for page, faults in cases:
        told = faults_of(found, page)
        if len(told) != faults:
            sys.exit('statement_names.py: of its own case %r it tells %r' % (page, told))


def main():
    must_tell()
    page = read(os.path.join(ROOT, 'docs', 'STATEMENTS.md'))
    told = faults_of(sources(), page)
    for fault in told:
        print('names: docs/STATEMENTS.md, ' + fault)
    if told:
        sys.exit(1)
    print('names: %d names of docs/STATEMENTS.md are where it says' % len(re.findall(r'`[^`]+`', page)))


main()
