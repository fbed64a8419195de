#!/usr/bin/env python3
"""one_loop.py: every program runs its machine in the one loop (`perform::turns::run`).

It fails where another file of a library or a program calls `perform`, where the loop calls anything but the program's decisions and
`perform`, writes to a part of something or brings in more than it may, where a machine's crate is driven by no program or by two, and
where a program's decisions are said by other definitions than its machine's own. Before the sources it is handed small ones that are
wrong, each of which it must tell.
"""
import glob, os, re, sys

ROOT = os.path.dirname(os.path.dirname(os.path.abspath(__file__)))
LOOP = 'perform/src/turns.rt'
PAGE = 'perform/src/lib.rt'
MACHINE = re.compile(r'\b\w+_machine\b')
# what the loop may name by a path: the program's decisions, and the names of what it is handed
MAY_NAME = {'P', 'R', 'Self', 'Files', 'Action', 'Why', 'Word', 'u64'}
# what it may call or take apart by one
MAY_CALL = {'P::begin', 'P::asked', 'P::tell', 'P::next', 'Files::new', 'Action::Stop', 'Word::Nothing'}
# and what it may bring in; the bound of its runtime is the one place of `fs`
MAY_USE = {'crate::{Files, perform}', 'crate::perform', 'exchange::action::{Action, Why, Word}', 'exchange::event::Event', 'std::env::Env',
           'std::fs', 'std::fs::File', 'std::io::{IsTerminal, Write}'}
BOUND = 'R: fs::Files + Env + Print'
# a field, a place or parts side by side that are written to
WRITTEN = r'(\.\w+|\]|^\s*\([^;{]*\))\s*(?:[-+*/%|&^]|<<|>>)?=(?![=>])'
SAID = ('opens', 'asks', 'steps')


def code_of(text):
    """the text without its comments"""
    return '\n'.join(re.sub(r'//.*', '', line) for line in text.split('\n'))


def body_of(text):
    """the text without clauses, attributes and what it brings in"""
    lines = [re.sub(r'^\s*(#!?\[[^\]]*\]\s*)+', '', l) for l in code_of(text).split('\n')]
    return '\n'.join(l for l in lines if not re.match(r'\s*(ghost |ensures|requires|use [^;]*;\s*$)', l))


def decisions_in(path, text):
    """what is wrong with a program's decisions, and the machine that they drive"""
    told, driven = [], set(MACHINE.findall(code_of(text)))
    for name in re.findall(r'^impl Decisions for (\w+)', text, re.M):
        if len(driven) != 1:
            told.append('%s: %s names %d machines and not one' % (path, name, len(driven)))
        ghosts = {n: m for m, names in re.findall(r'^ghost use Rattle\.(\w+)\.specs\.[\w.]+\.\{(.*)\};', text, re.M) for n in names.split(', ')}
        for item in SAID:
            said = re.search(r'^    ghost %s = \{ (\w+) \};' % item, text, re.M)
            # a machine's stages may stand in a crate below it
            own = driven | {m.replace('_machine', '_stages') for m in driven}
            if not said or ghosts.get(said.group(1)) not in own:
                told.append('%s: `%s` of %s is no definition of its machine' % (path, item, name))
        return told, driven
    return told, set()


def loop_faults(text):
    """what the loop does beyond asking the decisions and calling `perform`"""
    loop, more = body_of(text).replace(BOUND, '', 1), 'the loop calls more than the decisions and `perform`: '
    told = []
    if len(re.findall(r'\bperform\b', loop)) != 1:
        told.append('the loop does not call `perform` once')
    told += [more + name for name in sorted(set(re.findall(r'(\w+|>)\s*::', loop)) - MAY_NAME)]
    told += [more + name for name in sorted(set(re.findall(r'\b((?:%s)::\w+)\s*\(' % '|'.join(MAY_NAME), loop)) - MAY_CALL)]
    told += [more + name for name in sorted(set(re.findall(r'(?<![\w:.])(?<!fn )([a-z_]\w*)\s*\(', loop)) - {'perform'})]
    told += [more + name for name in sorted(set(re.findall(r'\.\s*\w+(?=\s*\()|\b\w+!(?=\s*[(\[{])', loop)))]
    told += ['the loop writes to a part of something: ' + name.strip() for name in sorted(set(re.findall(WRITTEN, loop, re.M)))]
    told += ['the loop brings in more than it may: %s' % name for name in sorted(set(re.findall(r'^\s*use ([^;]+);', text, re.M)) - MAY_USE)]
    return told


def faults_of(files, machines):
    """what is wrong with these sources, by their paths below crates/, and these machines' crates"""
    told, drives = [], {}
    for path, text in sorted(files.items()):
        if path not in (LOOP, PAGE) and re.search(r'(?<!fn )\bperform\(', code_of(text)):
            told.append('%s calls `perform`' % path)
        faults, driven = decisions_in(path, text)
        told += faults
        for machine in driven:
            drives.setdefault(machine, []).append(path)
    told += loop_faults(code_of(files.get(LOOP, '')))
    for machine in sorted(machines):
        if len(drives.get(machine, [])) != 1:
            told.append('%s is driven by %d programs and not one' % (machine, len(drives.get(machine, []))))
    return told


def must_tell():
    """wrong sources, each with what has to be told of them"""
    loop = 'use crate::perform;\nfn run() {\n    P::next(perform());\n}\n'
    program = ('ghost use Rattle.one_machine.specs.Holds.{Opens, Steps, asks};\nuse one_machine::next;\nimpl Decisions for One {\n'
               '    ghost opens = { Opens };\n    ghost asks = { asks };\n    ghost steps = { Steps };\n}\n')
    right = {LOOP: loop, PAGE: 'pub fn perform() {\n}\n', 'one/src/program.rt': program}
    one = {'one_machine'}
    cases = [
        (right, one, []),
        (right | {'one/src/main.rt': 'fn main() {\n    perform();\n}\n'}, one, ['one/src/main.rt calls `perform`']),
        (right | {'one/src/main.rt': '// perform()\nfn main() {\n}\n'}, one, []),
        (right | {LOOP: loop.replace('perform());', 'perform()); perform();')}, one, ['the loop does not call `perform` once']),
        (right | {LOOP: loop.replace('P::next(perform());', 'libc::read(perform());')}, one, ['the loop calls more than the decisions and `perform`: libc']),
        (right | {LOOP: loop.replace('    P::next', '    write(1);\n    P::next')}, one, ['the loop calls more than the decisions and `perform`: write']),
        (right | {LOOP: loop.replace('fn run', 'use libc::write;\nfn run')}, one, ['the loop brings in more than it may: libc::write']),
        (right | {LOOP: loop.replace('P::next', 'fs::write(rt, out);\n    P::next')}, one, ['the loop calls more than the decisions and `perform`: fs']),
        (right | {LOOP: loop.replace('fn run()', 'fn run<R: fs::Files + Env + Print>()')}, one, []),
        (right | {LOOP: loop.replace('P::next', 'rt.write_all(out);\n    P::next')}, one, ['the loop calls more than the decisions and `perform`: .write_all']),
        (right | {LOOP: loop.replace('P::next', 'Files::rewind(files);\n    P::next')}, one,
         ['the loop calls more than the decisions and `perform`: Files::rewind']),
        (right | {LOOP: loop.replace('P::next', 'println!("x");\n    P::next')}, one, ['the loop calls more than the decisions and `perform`: println!']),
        (right | {LOOP: loop.replace('P::next', 'files.performed = 1;\n    P::next')}, one, ['the loop writes to a part of something: .performed']),
        (right | {LOOP: loop.replace('P::next', 'buf[0] = 1;\n    P::next')}, one, ['the loop writes to a part of something: ]']),
        (right | {LOOP: loop.replace('P::next', '(files.performed, told) = (0, 0);\n    P::next')}, one, ['the loop writes to a part of something: (files.performed, told)']),
        (right | {LOOP: loop.replace('P::next', '#[allow(unused)] perform ();\n    P::next')}, one, ['the loop does not call `perform` once']),
        (right | {LOOP: loop.replace('P::next', 'use std::fs; libc::write(1);\n    P::next')}, one,
         ['the loop calls more than the decisions and `perform`: libc', 'the loop calls more than the decisions and `perform`: std']),
        (right | {LOOP: loop.replace('P::next', '<R as Print>::write_all(rt, out);\n    P::next')}, one,
         ['the loop calls more than the decisions and `perform`: >']),
        (right, one | {'a_machine'}, ['a_machine is driven by 0 programs and not one']),
        (right | {'two/src/program.rt': program}, one, ['one_machine is driven by 2 programs and not one']),
        (right | {'one/src/program.rt': program + 'use a_machine::next;\n'}, one,
         ['one/src/program.rt: One names 2 machines and not one']),
        (right | {'one/src/program.rt': program.replace('.{Opens, Steps, asks}', '.{Opens, Steps}').replace('ghost use', 'ghost use Rattle.one_stages.specs.Stages.{asks};\nghost use', 1)}, one, []),
        (right | {'one/src/program.rt': program.replace('.{Opens, Steps, asks}', '.{Opens, Steps}').replace('ghost use', 'ghost use Rattle.other.specs.Stages.{asks};\nghost use', 1)}, one,
         ['one/src/program.rt: `asks` of One is no definition of its machine']),
        (right | {'one/src/program.rt': program.replace('ghost steps = { Steps }', 'ghost steps = { Anything }')}, one,
         ['one/src/program.rt: `steps` of One is no definition of its machine']),
        (right | {'one/src/program.rt': program.replace('    ghost asks = { asks };\n', '')}, one,
         ['one/src/program.rt: `asks` of One is no definition of its machine']),
    ]
    for files, machines, told in cases:
        if faults_of(files, machines) != told:
            sys.exit('one_loop.py: of its own case it tells %r and not %r' % (faults_of(files, machines), told))
    return len(cases)


def main():
    cases = must_tell()
    files = {}
    for path in sorted(glob.glob(os.path.join(ROOT, 'crates', '*', 'src', '*.rt'))):
        crate = os.path.relpath(path, os.path.join(ROOT, 'crates'))
        if not crate.startswith('measure_'):
            with open(path, encoding='utf-8') as f:
                files[crate] = f.read()
    machines = {os.path.basename(d) for d in glob.glob(os.path.join(ROOT, 'crates', '*_machine'))}
    told = faults_of(files, machines)
    for fault in told:
        print('one_loop.py: ' + fault, file=sys.stderr)
    if told or len(machines) < 2:
        sys.exit(1)
    print('the one loop: %d machines (%s); %d cases of the test itself' % (len(machines), ', '.join(sorted(machines)), cases))


main()
