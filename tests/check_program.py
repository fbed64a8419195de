#!/usr/bin/env python3
"""check_program.py

Runs bin/check (`bin/build check_files` builds what it runs) on good and bad files, and holds what it prints, what it says to the clerk
and its status to what document 01 asks: each refusal of a file once, its line on standard output and the place that the explanation
has to name. The files are written to build/check-program.
"""
import filecmp, os, shutil, struct, subprocess, sys

ROOT = os.path.dirname(os.path.dirname(os.path.abspath(__file__)))
CHECK = os.path.join('bin', 'check')
PROGRAM = os.path.join('crates', 'check_files', 'out', 'check_files')
OUT = os.path.join('build', 'check-program')
STATION_A = os.path.join('examples', 'station-a', 'station')
SAMPLES_A = os.path.join('examples', 'station-a', 'samples.csv')
HEADINGS = b't,LoadP,PvAvailP,ShedLoadP\n'
LONGEST = 60  # seconds for one check; a check that never ends is a fault too

ACCEPTED, REFUSED, NO_ANSWER = 0, 1, 2
passed = 0


def fail(case, message):
    print('check: %s: %s' % (case, message))
    sys.exit(1)


def run(case, words, answer, said, given=None, output=None, command=CHECK):
    """One run: `answer` is all that standard output may have, and each of `said` has to stand in standard error."""
    global passed
    status = {'': NO_ANSWER, 'accepted\n': ACCEPTED}.get(answer, REFUSED)
    try:
        got = subprocess.run([command] + words, input=given, stdout=output or subprocess.PIPE, stderr=subprocess.PIPE, timeout=LONGEST)
    except subprocess.TimeoutExpired:
        fail(case, 'no end after %d s' % LONGEST)
    printed = (got.stdout or b'').decode('utf-8', 'replace')
    told = got.stderr.decode('utf-8', 'replace')
    if printed != answer:
        fail(case, 'standard output is %r and not %r; standard error is\n%s' % (printed, answer, told))
    if command == CHECK and got.returncode != status:
        fail(case, 'the status is %d and not %d' % (got.returncode, status))
    for words_said in said:
        if words_said not in told:
            fail(case, 'standard error has no %r:\n%s' % (words_said, told))
    if any(byte != 10 and not 32 <= byte < 127 for byte in got.stderr):
        fail(case, 'standard error has a byte that is not printable: %r' % got.stderr)
    passed += 1


def file_of(name, content):
    path = os.path.join(OUT, name)
    with open(path, 'wb') as f:
        f.write(content)
    return path


# ---- the station file

def station(control=None, battery=None, first_set=None, masks=(2, 1, 3), contents=None, more=b''):
    """Station A's bytes, but for what is given: {place: value} for the numbers of a body or of the contents."""
    def put(numbers, changes):
        for place, value in (changes or {}).items():
            numbers[place] = value
        return numbers
    sets = [[100000, 2, 1, 0, 0, 2, 0, 2000, 1000, 27000] + [0] * 6, [60000, 1, 1, 0, 0, 2, 0, 1500, 1000, 16500] + [0] * 6]
    put(sets[0], first_set)
    entries = put([1, 1, 32, 2, 1, 68, 3, 2, 100, 4, len(masks), 100 + 64 * len(sets)], contents)
    body = struct.pack('<HHIHHIHHIHHI', *entries)
    body += struct.pack('<9I', *put([10000, 50, 40, 90, 1, 0, 3, 0, 2], control))
    body += struct.pack('<IIQQQ', *put([20000, 90, 0, 9000000, 1000000], battery))
    return body + b''.join(struct.pack('<16I', *s) for s in sets) + bytes(masks) + more


STATIONS = [
    ('a station of 164 bytes', station()[:164], '1,0', ['164 bytes', '165 to 676 bytes']),
    ('a station of 165 bytes, cut', station()[:165], '3,0', ['165 bytes', '231 bytes']),
    ('an empty station file', b'', '1,0', ['0 bytes', '165 to 676 bytes']),
    ('a station of 677 bytes', bytes(677), '1,0', ['677 bytes', '165 to 676 bytes']),
    ('a station far too long', bytes(9000), '1,0', ['4096 bytes or more', '165 to 676 bytes']),
    ('a kind', station(contents={3: 9}), '2,2', ['entry 2', 'kind', ' 9 ', 'right is 2 ']),
    ('a count of sets', station(contents={7: 9}), '2,3', ['entry 3', 'count', ' 9 ', 'right is 1 to 8']),
    ('a set more in the contents', station(contents={7: 3}), '2,4', ['entry 4', 'offset', ' 228 ', 'right is 292']),
    ('a size that differs', station(more=b'\1'), '3,0', ['232 bytes', 'right is 231']),
    ('a shed delay', station(control={4: 61}), '4,0', ['shed delay is 61 s', 'right is 1 to 60 s']),
    ('a spinning reserve', station(control={0: 50000001}), '4,0', ['spinning reserve is 50000001 W', '0 to 50000000 W']),
    ('a mask at the start', station(control={8: 4}), '4,0', ['on line at the start is 4', 'sets 1 to 2']),
    ('an efficiency', station(battery={1: 0}), '5,0', ['efficiency is 0 %', 'right is 1 to 100 %']),
    ('a content at the start', station(battery={4: 9000001}), '5,0', ['content at the start is 9000001', 'right is 0 to 9000000']),
    ('a most content', station(battery={3: 10**13 + 1}), '5,0', ['most content is 10000000000001', '0 to 10000000000000']),
    ('a rating', station(first_set={0: 0}), '6,1', ['set 1', 'rating is 0 W', 'right is 1 to 10000000 W']),
    ('a service time', station(first_set={4: 5}), '6,1', ['set 1', 'service time is 5 s', 'right is 0 s']),
    ('no service time', station(first_set={3: 5}), '6,1', ['set 1', 'service time is 0 s', 'right is 1 to 2592000 s']),
    ('points', station(first_set={5: 6}), '6,1', ['set 1', 'number of points is 6', 'right is 2 to 5']),
    ('loads that do not rise', station(first_set={8: 0}), '7,1', ['set 1', 'pair 2', 'load is 0', 'above that of the pair before it, 0']),
    ('a load', station(first_set={8: 1501}), '7,1', ['set 1', 'pair 2', 'load is 1501', '0 to 1500']),
    ('a rate', station(first_set={7: 10000001}), '7,1', ['set 1', 'pair 1', 'rate is 10000001 mL/h', '0 to 10000000 mL/h']),
    ('an unused pair', station(first_set={15: 7}), '7,1', ['set 1', 'pair 5', 'rate is 7', 'right is 0']),
    ('a configuration without a set', station(masks=(2, 0, 3)), '8,2', ['configuration 2', 'mask is 0', 'at least one set']),
    ('a configuration with another set', station(masks=(2, 1, 4)), '8,3', ['configuration 3', 'mask is 4', 'sets 1 to 2']),
]

# ---- the sample file: what it holds, its refusal, and what the clerk has to be told

LONG_LINE = b'0,40,10,' + b'0' * 505
SHEETS = [
    ('a line of 513 bytes', HEADINGS + LONG_LINE + b'\n', '11,2', ['line 2', "'0,40,10,0", '512 bytes']),
    ('512 bytes and a CR', HEADINGS + LONG_LINE[:512] + b'\r\n', '11,2', ['line 2', '512 bytes']),
    ('a blank heading (P12)', b't,LoadP,,PvAvailP,ShedLoadP\n0,1,,1,1\n', '12,1', ['line 1', "heading 3 ''", 'blank', 'LoadP, PvAvailP and ShedLoadP']),
    ('an unknown heading', b't,LoadP,PvAvailP,loadp\n0,1,1,1\n', '13,1', ['line 1', "heading 4 'loadp'", 'ShedLoadP']),
    ('a heading with a space', b't,LoadP, PvAvailP,ShedLoadP\n0,1,1,1\n', '13,1', ['line 1', "heading 3 ' PvAvailP'"]),
    ('a heading twice', b't,LoadP,PvAvailP,LoadP\n0,1,1,1\n', '14,1', ['line 1', "heading 4 'LoadP'", 'second time']),
    ('t twice', b't,LoadP,t,PvAvailP,ShedLoadP\n', '14,1', ['line 1', "heading 3 't'", 'second time']),
    ('a heading missing', b't,ShedLoadP,LoadP\n0,1,1\n', '15,1', ['line 1', 'PvAvailP is missing', "'t,ShedLoadP,LoadP'"]),
    ('another first heading', b'LoadP,t,PvAvailP,ShedLoadP\n0,1,1,1\n', '16,1', ['line 1', "heading 1 'LoadP'", 'not t']),
    ('a byte order mark', b'\xef\xbb\xbf' + HEADINGS + b'0,1,1,1\n', '16,1', ['line 1', "heading 1 '\\xef\\xbb\\xbft'"]),
    ('an empty file', b'', '16,1', ['line 1', 'empty', "heading 1 ''"]),
    ('three cells', HEADINGS + b'0,40,10,0\n1,40,10\n', '17,3', ['line 3', "'1,40,10'", '3 cells', 'has 4 cells']),
    ('an empty line', HEADINGS + b'0,40,10,0\n\n', '17,3', ['line 3', "''", '1 cell.']),
    ('a malformed cell', HEADINGS + b'0,40,10,0\n1,4O,10,5\n', '18,3', ['line 3', "cell 2 '4O' (LoadP)", '1 to 6 digits']),
    ('a malformed time', HEADINGS + b'0,40,10,0\n1.5,40,10,5\n', '18,3', ['line 3', "cell 1 '1.5' (t)", '1 to 9 digits']),
    ('a blank cell', HEADINGS + b'0,40,,0\n', '18,2', ['line 2', "cell 3 '' (PvAvailP)", 'blank']),
    ('bytes that cannot be shown', HEADINGS + b'0,40,\\\x07\xff,0\n', '18,2', ['line 2', "cell 3 '\\x5c\\x07\\xff' (PvAvailP)"]),
    ('a long cell', HEADINGS + b'0,' + b'7' * 90 + b',1,0\n', '18,2', ['line 2', "cell 2 '" + '7' * 40 + "'.. (LoadP)"]),
    ('a CR before the end of the file', HEADINGS + b'0,40,10,0\r', '18,2', ['line 2', "cell 4 '0\\x0d' (ShedLoadP)"]),
    ('50000.001 kW', HEADINGS + b'0,50000.001,1,1\n', '19,2', ['line 2', "cell 2 '50000.001' (LoadP)", '50000 kW']),
    ('a time over its limit', HEADINGS + b'0,1,1,1\n316224000,1,1,1\n', '19,3', ['line 3', "cell 1 '316224000' (t)", '316223999 s']),
    ('another order of columns', b't,ShedLoadP,PvAvailP,LoadP\n0,1,50001,2\n', '19,2', ['line 2', "cell 3 '50001' (PvAvailP)"]),
    ('sheddable load above load', HEADINGS + b'0,40,10,0\n1,5,10,5.001\n', '20,3', ['line 3', "cell 4 '5.001' (ShedLoadP)", "cell 2 '5' (LoadP)"]),
    ('the same in another order', b't,ShedLoadP,PvAvailP,LoadP\n0,6,1,5\n', '20,2', ['line 2', "cell 2 '6' (ShedLoadP)", "cell 4 '5' (LoadP)"]),
    ('a first time of 1', HEADINGS + b'1,40,10,0\n', '21,2', ['line 2', "cell 1 '1' (t)", 'not 0']),
    ('no row', HEADINGS, '22,0', ['no row', 'at least one row']),
    ('a refused line far into the file', HEADINGS + b''.join(b'%d,40,10,0\n' % t for t in range(20000)) + b'20000,40\n', '17,20002', ['line 20002', "'20000,40'"]),
]

GOOD_SHEETS = [
    ('lines that end in CR LF', b't,LoadP,PvAvailP,ShedLoadP\r\n0,40,10,0\r\n5,40,10,0\r\n', ['2 rows', 'second 5']),
    ('a last line without LF', HEADINGS + b'0,40,10,0\n7,40,10,0', ['2 rows', 'second 7']),
    ('one row', HEADINGS + b'0,40,10,0\n', ['1 row,', 'second 0']),
    ('50000 kW', HEADINGS + b'0,50000,50000.000,50000\n', ['1 row,']),
    ('rows that are skipped', HEADINGS + b'0,1,1,1\n5,1,1,1\n3,1,1,1\n5,1,1,1\n6,1,1,1\n', ['3 rows', 'second 6']),
    ('the last time', HEADINGS + b'0,1,1,1\n316223999,1,1,1\n', ['2 rows', 'second 316223999']),
]

AS_READ = [
    '2 sets, 3 configurations', 'spinning reserve: 10000 W', 'solar coverage: 50 %', 'shed delay: 1 s', 'power: 20000 W', 'efficiency: 90 %',
    'Set 1', 'rating: 100000 W', 'warm-up: 2 s', 'cool-down: 1 s', 'service: never', 'fuel at 1000 thousandths of the rating: 27000 mL/h',
    'Set 2', 'rating: 60000 W', 'Configuration 1, sets by number: 2\n', 'Configuration 3, sets by number: 1 2\n',
    '4 rows, from second 0 to second 3; the last holds until the end',
]
NO_FILE, DIRECTORY, TOO_LONG = 'No such file or directory', 'Is a directory', 'File name too long'


def check_answers():
    run('Station A', [STATION_A, SAMPLES_A], 'accepted\n', AS_READ)
    serviced = file_of('serviced', station(control={7: 1, 8: 3}, first_set={3: 3600, 4: 600}))
    run('a set with service', [serviced, SAMPLES_A], 'accepted\n', ['after 3600 run seconds, for 600 s', 'maintain: 1', 'by number: 1 2\n'])
    for case, content, refusal, said in STATIONS:
        run(case, [file_of('station', content), SAMPLES_A], 'refused,%s\n' % refusal, said)
    for case, content, refusal, said in SHEETS:
        run(case, [STATION_A, file_of('samples.csv', content)], 'refused,%s\n' % refusal, said)
    for case, content, said in GOOD_SHEETS:
        run(case, [STATION_A, file_of('samples.csv', content)], 'accepted\n', said)


def check_copies():
    """The gate runs the program on copies of Station A's files, which have to be those of the examples."""
    for example in (STATION_A, SAMPLES_A):
        copy = os.path.join('crates', 'check_files', 'data', os.path.basename(example))
        if not filecmp.cmp(example, copy, shallow=False):
            fail(copy, 'differs from ' + example)


def check_failures():
    usage = ['usage: check STATION SAMPLES']
    run('no arguments', [], '', usage)
    run('one argument', [STATION_A], '', usage)
    run('three arguments', [STATION_A, SAMPLES_A, '5'], '', usage)
    none, long_path = os.path.join(OUT, 'none'), 'x' * 5000
    refused = file_of('station', station()[:164])
    run('no station file', [none, SAMPLES_A], '', ['station file', none, NO_FILE])
    run('no sample file', [STATION_A, none], '', ['sample file', none, NO_FILE])
    run('a station refused, no sample file', [refused, none], 'refused,1,0\n', ['164 bytes'])
    run('a directory as station', [OUT, SAMPLES_A], '', ['station file', OUT, DIRECTORY])
    run('a directory as samples', [STATION_A, OUT], '', ['sample file', OUT, DIRECTORY])
    run('a station path of 5,000 bytes', [long_path, SAMPLES_A], '', ['station file', '4095 bytes', TOO_LONG])
    run('a sample path of 5,000 bytes', [STATION_A, long_path], '', ['sample file', '4095 bytes', TOO_LONG])
    run('an empty path', ['', SAMPLES_A], '', ['station file', NO_FILE])


def check_streams():
    with open(SAMPLES_A, 'rb') as f:
        good = f.read()
    pipe = [STATION_A, '/dev/stdin']
    run('samples from a pipe', pipe, 'accepted\n', ['4 rows', 'second 3'], given=good)
    run('a refused line in a pipe', pipe, 'refused,17,6\n', ['line 6', 'second time', 'has 4 cells'], given=good + b'4,1\n')
    run('a line without end', [STATION_A, '/dev/zero'], 'refused,11,1\n', ['line 1', '512 bytes'])
    unwritten = ['could not be written to standard output', 'No space left on device']
    with open('/dev/full', 'wb') as full:
        run('a full disk', [STATION_A, SAMPLES_A], '', unwritten, output=full)
        run('a full disk and a refusal', [STATION_A, file_of('samples.csv', b'')], '', unwritten, output=full)
        run('a full disk, without bin/check', [STATION_A, SAMPLES_A], '', unwritten, output=full, command=PROGRAM)
        run('the same of a refusal', [STATION_A, file_of('samples.csv', b'')], '', unwritten, output=full, command=PROGRAM)


os.chdir(ROOT)
if not os.path.exists(PROGRAM):
    fail(PROGRAM, 'not built; bin/build check_files builds it')
shutil.rmtree(OUT, ignore_errors=True)
os.makedirs(OUT)
check_copies()
check_answers()
check_failures()
check_streams()
print('check: %d cases passed' % passed)
