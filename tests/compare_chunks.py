#!/usr/bin/env python3
"""compare_chunks.py REFERENCE GENERATE SEEDS COUNT

Tests the streamed reader of sample files at chunks of many sizes, through crates/test_chunks/out/libtest_chunks.a (`bin/build test_chunks` writes
it) and tests/chunked/chunked.h: first files with known answers, some of them at every size up to their own, then COUNT generated
ones, good and damaged. Every answer must be the same at every size, and what the independent reference program answers: how many
rows there are and the time of the last, and where they are few, each row; or the refusal and the rows before the refused line, all
or the first of them. Says how often each answer was met, how many files are of which kind and how many rows were compared, and fails
where there was none. The C program is built into build/chunked; CC names another compiler.
"""
import collections, os, sys

sys.dont_write_bytecode = True  # no folder of compiled modules among the sources
from c_drivers import C11, fail, must, sanitizers
from generated_cases import generated

ROOT = os.path.dirname(os.path.dirname(os.path.abspath(__file__)))
LIBRARY = os.path.join('crates', 'test_chunks', 'out', 'libtest_chunks.a')
OUT = os.path.join('build', 'chunked')
CASES = os.path.join(OUT, 'chunked_cases')
SOURCES = ['tests/chunked/chunked_cases.c', 'tests/sizing/guarded.c', 'tests/sizing/case_text.c']

# Around the longest line, 512 bytes with or without its LF; a page; the buffer of the programs; and small ones, one of them somewhat
# longer than any good row.
SIZES = [1, 2, 7, 61, 511, 512, 513, 514, 4096, 65536]
# A size of 0 counts as 1, and one beyond every file feeds it as a whole.
ODD_SIZES = [0, 3, 64, 65535, 65537, 2**32, 2**64 - 1]

# Each row is pulled from the file's beginning, so rows are asked for where they are few and the file is short; of a refused file, which
# does not say how many it has, the first ones are.
MOST_ROWS, MOST_BYTES = 24, 6000

HEADINGS = b't,LoadP,PvAvailP,ShedLoadP\n'
NUMBERS = list(range(11, 23))
AFTER_ROWS = [11, 17, 18, 19, 20]  # what a line can be refused for that rows stand before

ROW = b'0,1,1,1\n'

# Files with what document 01 gives for them, as the reference's `batch sheets` writes it.
KNOWN = [
    (b'', 'refused,16,1 0'),
    (b'\n', 'refused,16,1 0'),
    (HEADINGS, 'refused,22,0 0'),
    (HEADINGS + b'\n', 'refused,17,2 0'),
    (b't,LoadP,,PvAvailP,ShedLoadP\n', 'refused,12,1 0'),
    (b't,LoadP,,PvAvailP,ShedLoadP\n' + ROW, 'refused,12,1 0'),
    (HEADINGS + b'0,40,10,0\n1,75,10,5\n2,75,10,5\n3,30,40,5\n',
     'accepted 4 0:40000:10000:0 1:75000:10000:5000 2:75000:10000:5000 3:30000:40000:5000'),
    # A row is compared with the last one that was taken, and not with the one before it: 4 is above 3 but not above 5.
    (HEADINGS + b'0,1,1,1\n5,2,2,2\n3,3,3,3\n4,4,4,4\n5,5,5,5\n6,6,6,6', 'accepted 3 0:1000:1000:1000 5:2000:2000:2000 6:6000:6000:6000'),
    (HEADINGS + b'0,1,1,1\n5,2,2,2\n3,3,3,3\n4,4,4,4\n5,5,5,5\n6,6,6,6\n7,7,7',
     'refused,17,8 3 0:1000:1000:1000 5:2000:2000:2000 6:6000:6000:6000'),
    (HEADINGS + b'0,1,1,1\n5,2,2,2\n3,3,3,3\n4,4,4,5\n5,5,5,5\n6,6,6,6\n', 'refused,20,5 2 0:1000:1000:1000 5:2000:2000:2000'),
    # The refused line's own row is not handed over, however late it is found.
    (HEADINGS + b'0,1,1,1\n1,2,2,2\n2,3,3,3.001\n3,4,4,4\n', 'refused,20,4 2 0:1000:1000:1000 1:2000:2000:2000'),
    (HEADINGS + b'0,1,1,1\n1,2,2,2\n2,50000,3,50000.001\n', 'refused,19,4 2 0:1000:1000:1000 1:2000:2000:2000'),
    (HEADINGS + b'0,1,1,1\n1,2,2,2\n2,3,3,3x', 'refused,18,4 2 0:1000:1000:1000 1:2000:2000:2000'),
    (HEADINGS + b'0,1,1,1\n1,2,2,2\n2,3,3,3,\n3,4,4,4', 'refused,17,4 2 0:1000:1000:1000 1:2000:2000:2000'),
    (HEADINGS + b'0,1,1,1\n0,2,2,2\n', 'accepted 1 0:1000:1000:1000'),
    (HEADINGS + b'0,1,1,1\n0,2,2,2\n\n9,9,9,9\n', 'refused,17,4 1 0:1000:1000:1000'),
    (b't,ShedLoadP,PvAvailP,LoadP\r\n000000000,0.5,050000,1.25\r\n316223999,0,0.001,50000.000',
     'accepted 2 0:1250:50000000:500 316223999:50000000:1:0'),
    (b't,ShedLoadP,PvAvailP,LoadP\r\n000000000,0.5,050000,1.25\r\n316223999,0,0.001,50000.000\r', 'refused,18,3 1 0:1250:50000000:500'),
    (HEADINGS + b'1,1,1,1\n0,1,1,1\n', 'refused,21,2 0'),
    (HEADINGS + b'0,1,1,1\r', 'refused,18,2 0'),
    (HEADINGS + b'0,1,1,1\r\r\n', 'refused,18,2 0'),
    (HEADINGS + ROW + b'0' * 512 + b'\n', 'refused,17,3 1 0:1000:1000:1000'),
    (HEADINGS + ROW + b'0' * 513 + b'\n', 'refused,11,3 1 0:1000:1000:1000'),
    (HEADINGS + ROW + b'0' * 511 + b'\r\n', 'refused,17,3 1 0:1000:1000:1000'),
    (HEADINGS + ROW + b'0' * 512 + b'\r\n', 'refused,11,3 1 0:1000:1000:1000'),
    (HEADINGS + ROW + b'0' * 512, 'refused,17,3 1 0:1000:1000:1000'),
    (HEADINGS + ROW + b'0' * 513, 'refused,11,3 1 0:1000:1000:1000'),
    (b'x' * 512, 'refused,16,1 0'),
    (b'x' * 513, 'refused,11,1 0'),
    (b'x' * 200000, 'refused,11,1 0'),
    (b'\0' * 70000 + b'\n', 'refused,11,1 0'),
    (HEADINGS + ROW * 30000 + b'9,2,2,2', 'accepted 2 0:1000:1000:1000 9:2000:2000:2000'),
    (HEADINGS + ROW * 30000 + b'9,2,2,3\n' + b'x' * 600, 'refused,20,30002 1 0:1000:1000:1000'),
    # As many rows before the refused line as are shown with their number, and one more.
    (HEADINGS + b''.join(b'%d,1,1,1\n' % at for at in range(24)) + b'x',
     'refused,17,26 24' + ''.join(' %d:1000:1000:1000' % at for at in range(24))),
    (HEADINGS + b''.join(b'%d,1,1,1\n' % at for at in range(25)) + b'x',
     'refused,17,27 25' + ''.join(' %d:1000:1000:1000' % at for at in range(25))),
]

# Rows of 17 to 44 bytes with LF or CR LF, and what each gives. No good row is longer.
LOGGED = [
    (b'0,40.5,10.25,0.125', '0:40500:10250:125'),
    (b'7,75,10.125,5.001', '7:75000:10125:5001'),
    (b'12,1234.5,0,1234.5', '12:1234500:0:1234500'),
    (b'000000013,050000.000,049999.999,000000.001', '13:50000000:49999999:1'),
    (b'100,9.999,50000,9.998', '100:9999:50000000:9998'),
    (b'3600,100,0.001,0', '3600:100000:1:0'),
    (b'86400,350.75,120.5,35.05', '86400:350750:120500:35050'),
    (b'86401,350.750,120.500,35.050', '86401:350750:120500:35050'),
    (b'1000000,49999.9,1,0.9', '1000000:49999900:1000:900'),
    (b'31622399,12345.678,23456.789,1234.567', '31622399:12345678:23456789:1234567'),
    (b'200000000,000001.5,000002.25,000000.125', '200000000:1500:2250:125'),
    (b'316223999,50000,50000.000,050000', '316223999:50000000:50000000:50000000'),
]

# Lines that are refused at any place below the headings, with or without LF or CR LF, and their numbers.
WRONG = [
    (b'5,1.5,2.5,1,', 17), (b'5,1,2.5,1.001', 20), (b'5,1.5,2.5', 17), (b'5', 17), (b'5,1.5,,1', 18), (b'5,1.5,2.5,1.', 18),
    (b'5,.5,2.5,.1', 18), (b'5,1.5,2.5,1.2345', 18), (b'0000000005,1.5,2.5,1', 18), (b'5,0000001,2.5,1', 18),
    (b'5,1.5,2.5,1\r\r', 18), (b'316224000,1,1,1', 19), (b'5,50000.001,2.5,1', 19),
]

LF, CR_LF = b'\n', b'\r\n'


def ended(lines, endings):
    """Lines below the headings, each with one of some endings, which they take in turn."""
    return HEADINGS + b''.join(line + endings[at % len(endings)] for at, line in enumerate(lines))


def split_files():
    """Files of such rows with their answers: accepted, with rows that are skipped, and refused at each line and at a last one."""
    rows, shown = [row for row, _ in LOGGED], [text for _, text in LOGGED]
    accepted = ' '.join(['accepted', '12'] + shown)
    for endings in [[LF], [CR_LF], [LF, CR_LF], [CR_LF, LF, LF]]:
        yield ended(rows, endings), accepted
    yield ended(rows, [LF]).rstrip(LF), accepted
    yield ended(rows, [LF, CR_LF]).rstrip(CR_LF), accepted
    # Second 12 once more after its row, and second 99 after second 100.
    yield ended(rows[:3] + [b'12,99.25,99,98.125'] + rows[3:5] + [b'99,100,0.25,75.001'] + rows[5:], [CR_LF, LF]), accepted
    for at, (wrong, number) in enumerate(WRONG):
        before = ' '.join(['refused,%d,%d' % (number, at + 2), str(at)] + shown[:at])
        yield ended(rows[:at] + [wrong] + rows[at:], [LF, CR_LF, CR_LF]), before
        yield ended(rows, [CR_LF, LF]) + wrong, ' '.join(['refused,%d,14' % number, '12'] + shown)


# They are asked at every size up to their own, so that each place of each row is where two chunks meet, short ones and ones that hold
# whole rows.
SPLIT = list(split_files())
SPLIT_SIZES = list(range(1, max(len(file) for file, _ in SPLIT) + 2))


def streamed(cases, sizes):
    """The streamed reader's answers to lines of hex, for each case one at each of the sizes."""
    arguments = [str(number) for number in [MOST_ROWS, MOST_BYTES] + sizes]
    lines = must([CASES] + arguments, input=cases).decode().splitlines()
    return [lines[at:at + len(sizes)] for at in range(0, len(lines), len(sizes))]


def expected(answer, length):
    """What the reader is to print for a file of some length, from the reference's answer; and how many rows that shows."""
    verdict, count, *rows = answer.split(' ')
    if verdict == 'accepted':
        last = rows[-1].split(':')[0]
        shown = rows if len(rows) <= MOST_ROWS and len(rows) * length <= MOST_BYTES else []
        return ' '.join([verdict, count, last] + shown), len(shown)
    # Rows are pulled up to one that is not found, and the pulls are bounded as the rows of an accepted file are.
    pulls = min(MOST_ROWS + 1, MOST_BYTES // max(length, 1))
    if pulls == 0:
        return verdict, 0
    shown = rows[:pulls]
    return ' '.join([verdict, count if len(rows) < pulls else 'many'] + shown), len(shown)


def hold(name, sizes, lines, answer, length):
    """Ends the test where an answer at some size is another; else how many rows were compared at each size."""
    wanted, rows = expected(answer, length)
    for size, line in zip(sizes, lines):
        if line != wanted:
            fail('%s, in chunks of %d: the reader answers\n%s\nand not\n%s' % (name, size, line[:2000], wanted[:2000]))
    return rows


def hold_known(reference):
    """The known answers, which the reference must give too."""
    for name, files, sizes in [('known', KNOWN, SIZES), ('known', KNOWN, ODD_SIZES), ('split', SPLIT, SPLIT_SIZES)]:
        cases = '\n'.join(file.hex() or '-' for file, _ in files).encode()
        answers = streamed(cases, sizes)
        if len(answers) != len(files):
            fail('%d of %d %s files were answered' % (len(answers), len(files), name))
        for at, ((file, answer), lines) in enumerate(zip(files, answers)):
            hold('%s file %d, which begins %r' % (name, at, file[:60]), sizes, lines, answer, len(file))
        theirs = must([reference, 'batch', 'sheets'], input=cases).decode().splitlines()
        if theirs != [answer for _, answer in files]:
            fail('the reference answers the %s files otherwise' % name)
    print('chunks: %d known files are answered so at %d sizes, and %d files of %d rows at each size up to %d' % (
        len(KNOWN), len(SIZES + ODD_SIZES), len(SPLIT), len(LOGGED), SPLIT_SIZES[-1]))


def kinds(file):
    """What is of interest about a file, by name."""
    found = []
    if len(file) > 65536:
        found.append('over 65,536 bytes')
    if file.count(b'\n') > 300:
        found.append('over 300 lines')
    for boundary in [512, 4096, 65536]:
        if len(file) > boundary + 1:
            if file[boundary - 1] == 10:
                found.append('a line ends at %d' % boundary)
            elif file[boundary - 1] == 13 and file[boundary] == 10:
                found.append('CR and LF apart at %d' % boundary)
            else:
                found.append('a line across %d' % boundary)
    return found


KINDS = ['over 65,536 bytes', 'over 300 lines'] + [
    text % boundary for boundary in [512, 4096] for text in ['a line ends at %d', 'CR and LF apart at %d', 'a line across %d']] + [
    'a line across 65536']


def main():
    if len(sys.argv) != 5 or not sys.argv[4].isdecimal():
        sys.exit(__doc__)
    reference, generate = map(os.path.abspath, sys.argv[1:3])
    seeds, count = sys.argv[3], int(sys.argv[4])
    os.chdir(ROOT)
    if not os.path.exists(LIBRARY):
        fail('%s is not there; `bin/build test_chunks` writes it' % LIBRARY)
    os.makedirs(OUT, exist_ok=True)
    must(C11 + ['-Itests/sizing'] + sanitizers(OUT) + SOURCES + [LIBRARY, '-o', CASES])
    hold_known(reference)
    commands, files = zip(*generated(generate, 'sheets', seeds, count))
    cases = ''.join(file + '\n' for file in files).encode()
    theirs = must([reference, 'batch', 'sheets'], input=cases).decode().splitlines()
    ours = streamed(cases, SIZES)
    if not len(files) == len(ours) == len(theirs):
        fail('%d files, %d answers of the reader and %d of the reference' % (len(files), len(ours), len(theirs)))
    met, seen, rows, size = collections.Counter(), collections.Counter(), collections.Counter(), 0
    for at, (text, lines, answer) in enumerate(zip(files, ours, theirs), 1):
        file = b'' if text == '-' else bytes.fromhex(text)
        found = 'accepted' if answer.startswith('accepted') else int(answer.split(',')[1])
        met[found] += 1
        rows[found] += hold('case %d (%s)' % (at, commands[at - 1]), SIZES, lines, answer, len(file))
        size += len(file)
        seen.update(kinds(file))
    names = ['accepted'] + NUMBERS
    print(('%-9s' + '%9s' * len(names)) % tuple(['answers'] + names))
    print(('%-9s' + '%9d' * len(names)) % tuple(['files'] + [met[name] for name in names]))
    print(('%-9s' + '%9d' * len(names)) % tuple(['rows'] + [rows[name] for name in names]))
    print('chunks: ' + ', '.join('%s: %d' % (kind, seen[kind]) for kind in KINDS))
    for name in names:
        if met[name] == 0:
            fail('%s was never answered' % name)
    for kind in KINDS:
        if seen[kind] == 0:
            fail('no file with %s' % kind)
    for name in ['accepted'] + AFTER_ROWS:
        if rows[name] == 0:
            fail('no row was compared of a file that is answered %s' % name)
    print('chunks: %d files of %d bytes, each answered at %d sizes as the reference answers it; at each size %d rows of accepted files and '
          '%d rows of refused ones pulled' % (len(files), size, len(SIZES), rows['accepted'], sum(rows[name] for name in NUMBERS)))


main()
