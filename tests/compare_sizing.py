#!/usr/bin/env python3
"""compare_sizing.py REFERENCE GENERATE SEEDS COUNT COUNT2

Tests the C library of the sizing screen, crates/sizing/out/libsizing.a (`bin/build sizing` writes it), through include/sizing.h: the
header as C and as C++, the worked example, the known answers, and then COUNT generated stations with a question each and COUNT2
generated sample files, which the library must answer byte for byte as the independent reference program does. Says how often each
answer was met, and fails where one never was. The C programs are built into build/sizing; CC and CXX name other compilers.
"""
import collections, os, shutil, sys

sys.dont_write_bytecode = True  # no folder of compiled modules among the sources
from c_drivers import C11, CC, WARNINGS, fail, must, run, sanitizers
from generated_cases import generated

ROOT = os.path.dirname(os.path.dirname(os.path.abspath(__file__)))
LIBRARY = os.path.join('crates', 'sizing', 'out', 'libsizing.a')
OUT = os.path.join('build', 'sizing')
STATION_A = os.path.join('examples', 'station-a', 'station')
CXX = os.environ.get('CXX', 'c++')
SHARED = ['tests/sizing/ask.c', 'tests/sizing/case_text.c', 'tests/sizing/guarded.c']

# The worked example: its arguments, its exit status, and what it prints.
EXAMPLES = [
    ([STATION_A, '3', '25000'], 0, 'set 1: 15625 W, 5906 mL/h\nset 2: 9375 W, 3843 mL/h\n'),
    ([STATION_A, '2', '60001'], 0, "refused: the power asked for is above the capacity of the mask's sets (number 19, place 0)\n"),
    (['README.md', '1', '1'], 0, 'refused: the station file has fewer than 165 or more than 676 bytes (number 1, place 0)\n'),
    ([os.path.join(OUT, 'none'), '1', '1'], 2, ''),
    ([OUT, '1', '1'], 2, ''),
    ([STATION_A, '-1', '1'], 2, ''),
    ([], 2, ''),
]

# What must be met among the generated cases, by call: (number, has a place).
PLACES = [(1, False), (2, True), (3, False), (4, False), (5, False), (6, True), (7, True), (8, True)]
COLUMNS = [(0, False)] + PLACES + [(8, False), (19, False)]
CALLS = {'check_station': [(0, False)] + PLACES, 'share': COLUMNS, 'fuel_rate': COLUMNS}
# The same for sample files, all with their line but 22.
SAMPLE_COLUMNS = [(0, False)] + [(number, True) for number in range(11, 22)] + [(22, False)]
SAMPLE_CALLS = {'check_samples': SAMPLE_COLUMNS}


def build():
    """The drivers and the example, and the header by itself in both languages."""
    must([CC, '-std=c11', '-fsyntax-only', '-x', 'c'] + WARNINGS + ['include/sizing.h'])
    if shutil.which(CXX):
        must([CXX, '-std=c++11', '-fsyntax-only', '-x', 'c++'] + WARNINGS + ['include/sizing.h'])
    else:
        print('sizing: no C++ compiler %s here; the header is not tried as C++' % CXX)
    flags = sanitizers(OUT)
    for name in ['sizing_known', 'sizing_cases']:
        must(C11 + flags + ['tests/sizing/%s.c' % name] + SHARED + [LIBRARY, '-o', os.path.join(OUT, name)])
    must(C11 + ['examples/sizing/sizing_example.c', LIBRARY, '-o', os.path.join(OUT, 'sizing_example')])


def try_example():
    for arguments, status, printed in EXAMPLES:
        got = run([os.path.join(OUT, 'sizing_example')] + arguments)
        message = got.stderr.decode()
        named = not arguments or status == 0 or arguments[0] in message or message.startswith('usage: ')
        if got.returncode != status or got.stdout.decode() != printed or bool(message) != (status != 0) or not named:
            fail('sizing_example %s: status %d, printed %r and %r' % (' '.join(arguments), got.returncode, got.stdout, got.stderr))


def kind(answer):
    """An answer as a column: its number, and whether it has a place."""
    if not answer.startswith('refused,'):
        return 0, False
    number, place = answer.split(',')[1:]
    return int(number), place != '0'


def compare(reference, batch, found):
    """The answers to the generated cases of a batch, of which the library's and the reference's are the same."""
    cases = ''.join(case + '\n' for _, case in found).encode()
    ours = must([os.path.join(OUT, 'sizing_cases'), batch], input=cases).decode().splitlines()
    theirs = must([reference, 'batch', batch], input=cases).decode().splitlines()
    for at, (one, other) in enumerate(zip(ours, theirs), 1):
        if one != other:
            fail('case %d of %s: the library answers %s and the reference %s\n%s' % (at, batch, one, other, found[at - 1][0]))
    if not len(ours) == len(theirs) == len(found):
        fail('%d answers of the library and %d of the reference, of %d asked for' % (len(ours), len(theirs), len(found)))
    return ours


def show(answers, calls, columns):
    """Prints how often each answer was met, and fails where one that can be given never was."""
    met = {call: collections.Counter() for call in calls}
    for line in answers:
        for call, answer in zip(calls, line.split(' ')):
            met[call][kind(answer)] += 1
    names = ['accepted'] + ['%d%s' % (n, ',place' if p else '') for n, p in columns[1:]]
    print(('%-14s' + '%9s' * len(names)) % tuple(['answers'] + names))
    for call, counts in met.items():
        print(('%-14s' + '%9d' * len(names)) % tuple([call] + [counts[column] for column in columns]))
    for call, wanted in calls.items():
        for number, place in wanted:
            if met[call][number, place] == 0:
                fail('%s never answered %d with%s place' % (call, number, '' if place else 'out'))
        if sum(met[call].values()) != sum(met[call][column] for column in wanted):
            fail('%s answered what it has no rule for' % call)
    print('sizing: %d cases, each answered byte for byte as the reference answers it' % len(answers))


def main():
    if len(sys.argv) != 6 or not all(count.isdecimal() for count in sys.argv[4:]):
        sys.exit(__doc__)
    reference, generate = map(os.path.abspath, sys.argv[1:3])
    os.chdir(ROOT)
    if not os.path.exists(LIBRARY):
        fail('%s is not there; `bin/build sizing` writes it' % LIBRARY)
    os.makedirs(OUT, exist_ok=True)
    build()
    try_example()
    print('sizing: ' + must([os.path.join(OUT, 'sizing_known'), STATION_A]).decode().strip())
    seeds, stations, samples = sys.argv[3], int(sys.argv[4]), int(sys.argv[5])
    show(compare(reference, 'stations', generated(generate, 'stations', seeds, stations)), CALLS, COLUMNS)
    # The generator's sheets are sample files of all sizes, small ones and some of more than 65,536 bytes.
    show(compare(reference, 'samples', generated(generate, 'sheets', seeds, samples)), SAMPLE_CALLS, SAMPLE_COLUMNS)


main()
