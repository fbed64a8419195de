#!/usr/bin/env python3
"""public_calls.py: what every public function of the libraries owes a reader, held against the sources.

It fails where a public function has a `requires` (what crosses a crate is to be answered, whoever calls), where it has no `ensures`,
and where docs/STATEMENTS.md's table of public calls has not this function with these parameters, or has one that is not there. A
function that answers nothing and is lent nothing to write to but standard error, as `err`, has nothing to ensure, and needs none. Before the sources it is handed
small ones that are wrong, each of which it must tell.
"""
import glob, os, re, sys

ROOT = os.path.dirname(os.path.dirname(os.path.abspath(__file__)))
TABLE_AFTER = '## The public calls'

# No contract speaks of what the operating system moves: docs/DECISIONS.md, K13.
WITHOUT_ENSURES = {'run_loop::program::run_program'}


def contract_of(text, at):
    """what stands from a place on up to the function's body: the words of its clauses, and the rest, which is what it answers"""
    clauses, rest = [], ''
    while at < len(text) and text[at] != '{':
        clause = re.match(r'(requires|ensures)\b[^{]*', text[at:])
        if not clause:
            rest, at = rest + text[at], at + 1
            continue
        clauses.append(clause.group(1))
        at, depth = at + clause.end(), 0
        while at < len(text):
            depth += {'{': 1, '}': -1}.get(text[at], 0)
            at += 1
            if depth == 0:
                break
    return clauses, rest


def public_functions(module, text):
    """of each public function its name with its module, the names of its parameters, those parameters but for the writer of standard error, its
    clauses, and what it answers"""
    found = []
    for m in re.finditer(r'^[ \t]*pub (?:extern "C" )?fn (\w+)(?:<([^>]*)>)?\(([^)]*)\)', text, re.M):
        # a comma between a type's arguments parts no parameters
        flat = m.group(3)
        while '<' in flat:
            flat = re.sub(r'<[^<>]*>', '', flat)
        names = [p.split(':')[0].replace('mut ', '').strip() for p in flat.split(',') if p.strip()]
        lent = re.sub(r'\berr: &mut W\b', '', m.group(3)) if re.search(r'\bW: [^,]*\bWrite\b', m.group(2) or '') else m.group(3)
        exported = 'extern "C"' in m.group(0)
        clauses, rest = contract_of(text, m.end())
        found.append((m.group(1) if exported else module + '::' + m.group(1), names, lent, clauses, rest))
    # a conversion is called by its trait's name, and its promise is the trait's ghost member
    for m in re.finditer(r'^impl (?:Try)?From<[^{]*> for (\w+) \{\n(.*?)^\}', text, re.M | re.S):
        call = re.search(r'^    fn ((?:try_)?from)\((\w+): ([^)]*)\)', m.group(2), re.M)
        promised = re.search(r'^    ghost (?:try_)?from_gives\b', m.group(2), re.M)
        found.append((module + '::' + m.group(1) + '::' + call.group(1), [call.group(2)], call.group(3), ['ensures'] if promised else [], '->'))
    return found


def faults_of(functions, listed):
    """what is wrong with these functions, by the names that the table lists"""
    told = []
    for name, names, parameters, clauses, rest in functions:
        if 'requires' in clauses:
            told.append('%s has a `requires`' % name)
        silent = '->' not in rest and not re.search(r"&('\w+ )?mut\b", parameters)
        if 'ensures' not in clauses and not silent and name not in WITHOUT_ENSURES:
            told.append('%s has no `ensures`' % name)
        if name not in listed:
            told.append('%s is not in the table of public calls' % name)
        elif listed[name] != names:
            told.append('%s has the parameters (%s), and (%s) in the table of public calls' % (name, ', '.join(names), ', '.join(listed[name])))
    known = {f[0] for f in functions}
    return told + ['%s is in the table of public calls, and no public function' % name for name in listed if name not in known]


def listed_calls(text):
    """the functions in the first column of the table, with their parameters; a short name is of the module named before it"""
    listed, inside = {}, False
    for line in text[text.index(TABLE_AFTER):].split('\n')[1:]:
        if line.startswith('## ') or (inside and not line.startswith('|')):
            break
        if not line.startswith('| `'):
            continue
        inside, module = True, ''
        for call in re.findall(r'`([\w:]+)\(([^)]*)\)`', line.split(' | ')[0]):
            if '::' in call[0]:
                module = call[0].rsplit('::', 1)[0] + '::'
            name = call[0] if '::' in call[0] else module + call[0]
            listed[name] = [p.strip() for p in call[1].split(',') if p.strip()]
    return listed


def module_of(path):
    parts = os.path.relpath(path, os.path.join(ROOT, 'crates')).split(os.sep)
    return '::'.join([parts[0]] + [p[:-3] for p in parts[2:] if p != 'lib.rt'])


def sources():
    """the files of the crates that are libraries: nobody can call what a program has"""
    for top in sorted(glob.glob(os.path.join(ROOT, 'crates', '*', 'src', 'lib.rt'))):
        for path in sorted(glob.glob(os.path.join(os.path.dirname(top), '**', '*.rt'), recursive=True)):
            yield path


def must_tell():
    """wrong sources, each with what has to be told of it"""
    right = 'pub fn twice(x: u32) -> u64\n    ensures { result ≡ 2 * x }\n{\n    2 * (x as u64)\n}\n'
    turned = 'impl From<u32> for Pair {\n    ghost from_gives = { λ x p. p.a ≡ x };\n\n    fn from(x: u32) -> Pair {\n        Pair { a: x }\n    }\n}\n'
    table = {'c::m::twice': ['x']}
    cases = [
        (right, table, []),
        ('pub(crate) fn own(x: u32) -> u32\n    requires { x < 9 }\n{\n    x\n}\n', {}, []),
        ('pub fn say(text: &[u8]) {\n}\n', {'c::m::say': ['text']}, []),
        (right.replace('    ensures', '    requires { x < 9 }\n    ensures'), table, ['c::m::twice has a `requires`']),
        ('pub fn twice(x: u32) -> u64 {\n    2 * (x as u64)\n}\n', table, ['c::m::twice has no `ensures`']),
        ('pub fn fill(out: &mut [u8]) {\n}\n', {'c::m::fill': ['out']}, ['c::m::fill has no `ensures`']),
        ('pub fn say<W: Write>(err: &mut W, text: &[u8]) {\n}\n', {'c::m::say': ['err', 'text']}, []),
        ('pub fn say<W>(err: &mut W, text: &[u8]) {\n}\n', {'c::m::say': ['err', 'text']}, ['c::m::say has no `ensures`']),
        ('pub fn put<W: Write>(out: &mut W, text: &[u8]) {\n}\n', {'c::m::put': ['out', 'text']}, ['c::m::put has no `ensures`']),
        ('pub fn fill(out: &mut [u8])\n{\n    ensures();\n}\n', {'c::m::fill': ['out']}, ['c::m::fill has no `ensures`']),
        # a clause over two lines hides none after it, braces in a clause are the clause's, and a lifetime hides no function
        (right.replace('2 * x }', '2\n        * x }\n    requires { x < 9 }'), table, ['c::m::twice has a `requires`']),
        (right.replace('result ≡ 2 * x', 'result ≡ (record { v = x }).v'), table, []),
        ("pub fn part<'a>(s: &'a [u8]) -> &'a [u8] {\n    s\n}\n", {'c::m::part': ['s']}, ['c::m::part has no `ensures`']),
        ("pub fn fill<'a>(out: &'a mut [u8]) {\n}\n", {'c::m::fill': ['out']}, ['c::m::fill has no `ensures`']),
        ('pub fn told(answer: Option<Result<u64, Fault>>, y: u8) -> u64\n    ensures { result ≡ y }\n{\n    y\n}\n', {'c::m::told': ['answer', 'y']}, []),
        (right, {}, ['c::m::twice is not in the table of public calls']),
        (right, {'c::m::twice': ['y']}, ['c::m::twice has the parameters (x), and (y) in the table of public calls']),
        ('', table, ['c::m::twice is in the table of public calls, and no public function']),
        (turned, {'c::m::Pair::from': ['x']}, []),
        (turned, {}, ['c::m::Pair::from is not in the table of public calls']),
        (re.sub('    ghost.*\n', '', turned), {'c::m::Pair::from': ['x']}, ['c::m::Pair::from has no `ensures`']),
        ('#[unsafe(no_mangle)]\npub extern "C" fn c_share(a: u64,\n    b: u64) -> u64 {\n    a\n}\n', {'c_share': ['a', 'b']}, ['c_share has no `ensures`']),
    ]
    for text, listed, told in cases:
        if faults_of(public_functions('c::m', text), listed) != told:
            sys.exit('public_calls.py: of its own case it tells %r and not %r:\n%s' % (faults_of(public_functions('c::m', text), listed), told, text))
    rows = TABLE_AFTER + '\n\n| function | what |\n|---|---|\n| `a::b::f(x, y)`, `g()` | says |\n| `c_h(z)` | `a::b::k(q)` |\n\n| `a::b::other(x)` | |\n'
    if listed_calls(rows) != {'a::b::f': ['x', 'y'], 'a::b::g': [], 'c_h': ['z']}:
        sys.exit('public_calls.py: it reads its own table as %r' % listed_calls(rows))
    return len(cases)


def main():
    cases = must_tell()
    functions = []
    for path in sources():
        with open(path, encoding='utf-8') as f:
            functions += public_functions(module_of(path), f.read())
    with open(os.path.join(ROOT, 'docs', 'STATEMENTS.md'), encoding='utf-8') as f:
        listed = listed_calls(f.read())
    told = faults_of(functions, listed)
    for fault in told:
        print('public_calls.py: ' + fault, file=sys.stderr)
    if told or not functions:
        sys.exit(1)
    silent = sum(1 for f in functions if 'ensures' not in f[3])
    print('public calls: %d, none with a requires; %d ensure something, %d answer nothing; all in the table; %d cases of the test itself' % (len(functions), len(functions) - silent, silent, cases))


main()
