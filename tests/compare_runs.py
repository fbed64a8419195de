#!/usr/bin/env python3
"""compare_runs.py REFERENCE GENERATE RUN SMALL SEEDS COUNT

Runs the program RUN (crates/run_files/out/run_files, which `bin/build run_files` builds) as a process on real files and compares what it prints
byte for byte with what the independent reference program prints: first cases with known answers, then COUNT generated runs and a third
as many others (sheets of all sizes, up to some 65,536 bytes; stations, half of them damaged), then sheets whose plain rows are cut by
RUN's chunks at every place of a row, and at last runs of 100,000 seconds. The
known ones, every tenth of the generated ones, each small damaged sheet and some long runs go through SMALL too (crates/test_run_small/out/test_run_small:
the same core, fed 11 bytes at a time and emptied by 256). Most print into a pipe; every twentieth and the long ones into a file. RUN
and SMALL may be commands of several words.

Says how many cases there were, which refusals they met, how many rows and bytes were compared, and fails where a refusal or a kind of
file was never met. The first difference ends the test with status 1, and its case is kept in build/compare-runs/difference.
"""
import collections, os, re, shlex, shutil, signal, subprocess, sys

sys.dont_write_bytecode = True  # no folder of compiled modules among the sources
from c_drivers import fail, must
from generated_cases import generated
from speed_files import HEADINGS as HEADING_LINE, STATION_A, day_powers, days_sheet, four_sets, largest_station, row, scattered, sheet

ROOT = os.path.dirname(os.path.dirname(os.path.abspath(__file__)))
OUT = os.path.join('build', 'compare-runs')
DIFFERENCE = os.path.join(OUT, 'difference')
STATION, SAMPLES, PRINTED, SAID = (os.path.join(OUT, name) for name in ['station', 'samples.csv', 'printed', 'said'])
LONGEST = 60  # seconds for one run; a run that never ends is a fault too
BATCH = 250  # cases that the reference answers at once

MOST_SECONDS, LAST_SECOND = 100_000, 316_224_000
CHUNK = 65_536  # bytes that RUN reads at once
SPLIT_ROWS = 70_000
SMALL_SHEET = 4096  # bytes; damaged sheets below it all go through SMALL
LONG_OUTPUT = 1_000_000  # bytes; output above it goes into a file
NUMBERS = list(range(1, 9)) + list(range(11, 24))  # all that a run program can answer: 24 to 26 are of calls, and not of files

HEADINGS = HEADING_LINE.encode()
ONE_ROW = HEADINGS + b'0,40,10,0\n'
ROW_HEADINGS = b't,load,shed,solar,charge,spill,give,diesel,unserved,on,sets,call,store\n'
SET_HEADINGS = b'set,run,starts,stops,energy,fuel\n'
NO_SECOND = ROW_HEADINGS + SET_HEADINGS

Case = collections.namedtuple('Case', 'name station samples seconds')


def read(path):
    with open(path, 'rb') as f:
        return f.read()


# ---- cases with known answers, on Station A

def of_length(length, end):
    """A good first row, then a line of some length, and its end."""
    return ONE_ROW + b'1' * length + end


REFUSED_SHEETS = [
    ('an empty sheet', b'', '16,1'), ('one LF', b'\n', '16,1'), ('one CR', b'\r', '16,1'), ('headings alone', HEADINGS, '22,0'),
    ('headings without LF', HEADINGS[:-1], '22,0'), ('an empty row', HEADINGS + b'\n', '17,2'), ('an empty line', ONE_ROW + b'\n', '17,3'),
    ('a blank heading', b't,LoadP,,PvAvailP,ShedLoadP\n0,1,1,1\n', '12,1'), ('a CR at the end', ONE_ROW[:-1] + b'\r', '18,2'),
    ('50000.001 kW', HEADINGS + b'0,50000.001,1,1\n', '19,2'), ('a first time of 1', HEADINGS + b'1,1,1,1\n', '21,2'),
    ('a byte order mark', b'\xef\xbb\xbf' + ONE_ROW, '16,1'), ('NUL bytes', bytes(70000), '11,1'),
    ('511 bytes', of_length(511, b'\n'), '17,3'), ('512 bytes', of_length(512, b'\n'), '17,3'),
    ('513 bytes', of_length(513, b'\n'), '11,3'), ('514 bytes', of_length(514, b'\n'), '11,3'),
    ('511 bytes and CR', of_length(511, b'\r\n'), '17,3'), ('512 bytes and CR', of_length(512, b'\r\n'), '11,3'),
    ('512 bytes at the end', of_length(512, b''), '17,3'), ('513 bytes at the end', of_length(513, b''), '11,3'),
    ('headings of 512 bytes', b't' * 512 + b'\n', '16,1'), ('headings of 513 bytes', b't' * 513 + b'\n', '11,1'),
    ('a fault far into the sheet', ONE_ROW + b'0,1,1,1\n' * 20000 + b'1,1,1\n', '17,20003'),
]
MALFORMED_SECONDS = [b'', b'0000000005', b'5 ', b' 5', b'+5', b'-5', b'5.0', b'5\n', b'\xff', b'9' * 10, b'0' * 4095, b'0' * 4096,
                     b'1' * 4097, b'0' * 100000]


def same_sheets(samples):
    """Other sheets that come to the same rows for the seconds asked."""
    return [('Station A', samples), ('without a last LF', samples[:-1]), ('CR LF', samples.replace(b'\n', b'\r\n')),
            ('skipped rows', samples + b'3,1,1,1\n0,2,2,2\n'), ('rows past the seconds asked', samples + b'5,1,1,1\n316223999,2,2,2\n'),
            ('20,000 skipped rows', samples + b'3,1,1,1\n' * 20000)]


def seconds_asked(rows):
    """SECONDS, each with what it has to print."""
    no_rows = NO_SECOND + b'1,0,0,0,0,0\n2,0,0,0,0,0\n'
    accepted = [(b'0', no_rows), (b'000000000', no_rows), (b'000000005', rows), (b'5', rows)]
    return accepted + [(b'9' * 9, '23,0'), (b'316224001', '23,0')] + [(text, '18,0') for text in MALFORMED_SECONDS]


def refused_first(station, samples):
    """Refused stations; and cases with several faults: the station comes before the sheet, and both before the seconds asked."""
    return [('an empty station', b'', b'', b'', '1,0'), ('a sheet and SECONDS', station, b'', b'', '16,1'),
            ('164 bytes', station[:164], samples, b'5', '1,0'), ('677 bytes', bytes(677), samples, b'5', '1,0'),
            ('100,000 bytes', station + bytes(100000), samples, b'5', '1,0'),
            ('a byte too many', station + b'\1', samples, b'5', '3,0'), ('a byte too few', station[:-1], samples, b'5', '3,0')]


def known_cases():
    """Each case with the bytes that it has to print."""
    station, samples, rows = (read(os.path.join('examples', 'station-a', name)) for name in ['station', 'samples.csv', 'rows.csv'])
    cases = [(Case('known: ' + name, station, file, b'5'), number) for name, file, number in REFUSED_SHEETS]
    cases += [(Case('known: ' + name, station, file, b'5'), rows) for name, file in same_sheets(samples)]
    cases += [(Case('known: SECONDS %r' % seconds[:20], station, samples, seconds), answer) for seconds, answer in seconds_asked(rows)]
    cases += [(Case('known: ' + name, *files), number) for name, *files, number in refused_first(station, samples)]
    return [(case, b'refused,%s\n' % answer.encode() if isinstance(answer, str) else answer) for case, answer in cases]


# ---- generated cases

def from_hex(text):
    return b'' if text == '-' else bytes.fromhex(text)


def to_hex(content):
    return content.hex() or '-'


def as_argument(seconds, at):
    """SECONDS as a process can be handed it, and not above what a comparison can run; every fortieth is asked for some thousands more."""
    seconds = seconds.replace(b'\0', b'\1')  # no argument of a process holds a NUL
    if not re.fullmatch(rb'[0-9]{1,9}', seconds) or int(seconds) > LAST_SECOND:
        return seconds
    if at % 40 == 0:
        return b'%d' % (2000 + 37 * int(seconds) % 7001)
    return seconds if int(seconds) <= MOST_SECONDS else b'%d' % MOST_SECONDS


def generated_runs(generate, seeds, count):
    for at, (command, line) in enumerate(generated(generate, 'runs', seeds, count)):
        station, samples, seconds = map(from_hex, line.split(' '))
        yield Case(command, station, samples, as_argument(seconds, at))


def generated_sheets(generate, seeds, count, good):
    """Sheets of all sizes, each with a station that is in order, and a few seconds of them or some hundreds."""
    for at, (command, line) in enumerate(generated(generate, 'sheets', seeds, count)):
        seconds = [b'0', b'1', b'12', b'60', b'333', b'1500'][at % 6]
        yield Case(command, good[at % len(good)].station, from_hex(line), seconds)


def generated_stations(generate, seeds, count, good):
    """Stations of all kinds, half of them damaged, each with a sheet that is in order."""
    for at, (command, line) in enumerate(generated(generate, 'stations', seeds, count)):
        station = from_hex(line.split(' ')[0])
        yield Case(command, station, good[at % len(good)].samples, b'200')


def irregular_sheet(seconds):
    """Rows at times that rise by 1 to 400, with one now and then that steps back and is skipped."""
    rows, at, number = [], 0, 0
    while at < seconds:
        rows.append(row(at, day_powers(at)))
        if number % 7 == 3:
            rows.append(row(at - at % 5, day_powers(at + 1)))
        number += 1
        at += 1 + scattered(number) % [3, 30, 400][number % 3]
    return HEADING_LINE + ''.join(rows)


def split_sheet(ending, shape):
    """Rows of one odd length, so that the ends of the chunks in which RUN reads stand at every place of a row. They are plain ones, which
    RUN reads in one pass wherever a chunk has room for the longest."""
    rows = []
    for at in range(SPLIT_ROWS):
        number = scattered(at)
        rows.append(shape % (at, 10 + number % 80, number % 10, number % 7, number % 9, number % 8) + ending)
    text = HEADING_LINE.replace('\n', ending) + ''.join(rows)
    length, heading = len(rows[0]), len(HEADING_LINE.replace('\n', ending))
    met = {(end - heading) % length for end in range(CHUNK, len(text), CHUNK)}
    if {len(line) for line in rows} != {length} or met != set(range(length)):
        fail('the chunks end at %d places of a row of %d bytes' % (len(met), length))
    return text.encode()


def split_cases():
    """Every split of a row across two chunks of RUN, with LF and with CR and LF."""
    for name, ending, shape in [('LF', '\n', '%05d,%d.%d,%d.%d,%d'), ('CR LF', '\r\n', '%05d,%d.%d,%d.%d,0%d')]:
        yield Case('splits: rows that end in ' + name, four_sets(), split_sheet(ending, shape), b'%d' % SPLIT_ROWS)


def long_cases(good):
    """Runs of 100,000 seconds: three stations with three sheets, one of them with lines that end in CR and LF, and two generated
    stations; and whether SMALL runs them too."""
    stations = [('Station A', read(STATION_A), '\n'), ('4 sets, CR LF', four_sets(), '\r\n'), ('8 sets', largest_station(), '\n')]
    sheets = [('a row a second', sheet(MOST_SECONDS)), ('a row an hour', days_sheet(MOST_SECONDS, 3600)),
              ('irregular rows', irregular_sheet(MOST_SECONDS))]
    seconds = b'%d' % MOST_SECONDS
    for at, (name, station, ending) in enumerate(stations):
        for place, (kind, text) in enumerate(sheets):
            yield Case('long: %s, %s' % (name, kind), station, text.replace('\n', ending).encode(), seconds), at == place
    for case in good[:2]:
        yield Case('long: ' + case.name, case.station, case.samples, seconds), False


# ---- the comparison

def answered(reference, cases):
    """Each case with what the reference prints for it."""
    for at in range(0, len(cases), BATCH):
        some = cases[at:at + BATCH]
        asked = ''.join(' '.join(map(to_hex, case[1:])) + '\n' for case in some)
        answers = must([reference, 'batch', 'runs'], input=asked.encode()).decode().splitlines()
        if len(answers) != len(some) or 'malformed' in answers:
            fail('%d answers of the reference to %d cases' % (len(answers), len(some)))
        yield from zip(some, map(from_hex, answers))


def put(path, content):
    """Writes a file over what stands there, which is faster than to empty it first."""
    file = os.open(path, os.O_WRONLY | os.O_CREAT, 0o666)
    with open(file, 'wb') as f:
        f.write(content)
        f.truncate()


def printed_by(command, case, to_file):
    """What a process prints for the two files that stand there, into a pipe or a file, and its status, or None where it does not end."""
    with open(SAID, 'r+b') as said, open(PRINTED, 'r+b') as printed:
        for file in said, printed:
            file.truncate()
        process = subprocess.Popen(command + [STATION, SAMPLES, case.seconds], stdin=subprocess.DEVNULL, stderr=said,
                                   stdout=printed if to_file else subprocess.PIPE, env={'LC_ALL': 'C'}, close_fds=False)
        try:
            text, _ = process.communicate(timeout=LONGEST)
        except subprocess.TimeoutExpired as late:
            process.kill()
            process.communicate()
            text, process.returncode = late.stdout or b'', None
        printed.seek(0)
        return printed.read() if to_file else text, process.returncode


def where(ours, theirs):
    """The first line that differs, in words."""
    ours, theirs = ours.splitlines(keepends=True), theirs.splitlines(keepends=True)
    for at, (our, their) in enumerate(zip(ours, theirs), 1):
        if our != their:
            return 'line %d is\n  %r\nand not\n  %r' % (at, our[:300], their[:300])
    return '%d lines are printed and not %d; as far as both go they are the same' % (len(ours), len(theirs))


def keep(case, command, printed, wanted, why):
    """Saves the case and ends the test."""
    os.makedirs(DIFFERENCE)
    shutil.copy(SAID, DIFFERENCE)
    put(os.path.join(DIFFERENCE, 'station'), case.station)
    put(os.path.join(DIFFERENCE, 'samples.csv'), case.samples)
    put(os.path.join(DIFFERENCE, 'seconds'), case.seconds)
    put(os.path.join(DIFFERENCE, 'printed'), printed)
    put(os.path.join(DIFFERENCE, 'wanted'), wanted)
    said = read(SAID)[:1000].decode(errors='replace').strip()
    fail('%s, by %s: %s\nstandard error: %s\nthe case is kept in %s: station, samples.csv, seconds, wanted, printed, said' % (
        case.name, ' '.join(command), why, said or '(nothing)', DIFFERENCE))


def hold(command, case, wanted, to_file):
    """Ends the test where a process prints other bytes, fails or does not end."""
    printed, status = printed_by(command, case, to_file)
    why = None
    if status is None:
        why = 'it has not ended after %d s' % LONGEST
    elif status != 0:
        why = 'it ended with %s' % (signal.Signals(-status).name if status < 0 else 'status %d' % status)
    elif printed != wanted:
        why = where(printed, wanted)
    if why:
        keep(case, command, printed, wanted, why)
    return len(printed)


def number_of(answer):
    """The number of a refusal, or 0."""
    refusal = re.fullmatch(rb'refused,([0-9]+),[0-9]+\n', answer)
    return int(refusal.group(1)) if refusal else 0


def kinds(case, answer):
    """What is of interest about a case, by name."""
    lengths = {len(line) for line in case.samples.split(b'\n')} if 511 <= len(case.samples) else set()
    yield from (name for name, holds in [
        ('empty sheet', not case.samples), ('CR LF', b'\r\n' in case.samples), ('no last LF', case.samples[-1:] not in (b'', b'\n')),
        ('lines of 511 to 514 bytes', lengths & {511, 512, 513, 514}), ('over 65,536 bytes', len(case.samples) > 65536),
        ('no second', answer.startswith(NO_SECOND)),
        ('over 1,000 seconds', answer.count(b'\n') > 1000), ('100,000 seconds', answer.count(b'\n') > MOST_SECONDS)] if holds)


KINDS = ['empty sheet', 'CR LF', 'no last LF', 'lines of 511 to 514 bytes', 'over 65,536 bytes', 'no second', 'over 1,000 seconds',
         '100,000 seconds']


class Tally:
    """Runs the cases and counts what was met."""

    def __init__(self, run, small):
        self.run, self.small = run, small
        self.cases = self.through_small = self.bytes = self.rows = 0
        self.met, self.seen = collections.Counter(), collections.Counter()

    def hold(self, case, wanted, by_small):
        put(STATION, case.station)
        put(SAMPLES, case.samples)
        number = number_of(wanted)
        to_file = self.cases % 20 == 0 or len(wanted) > LONG_OUTPUT
        self.cases += 1
        self.bytes += hold(self.run, case, wanted, to_file)
        if by_small or (11 <= number <= 22 and len(case.samples) < SMALL_SHEET):
            self.through_small += 1
            self.bytes += hold(self.small, case, wanted, to_file)
        self.met[number] += 1
        self.seen.update(kinds(case, wanted))
        self.rows += wanted[:wanted.find(b'\nset,') + 1].count(b'\n') - 1 if number == 0 else 0

    def show(self):
        print('runs: refusals met: ' + ', '.join('%d: %d' % (number, self.met[number]) for number in NUMBERS))
        print('runs: ' + ', '.join('%s: %d' % (kind, self.seen[kind]) for kind in KINDS))
        for number in NUMBERS:
            if self.met[number] == 0:
                fail('the refusal %d was never met' % number)
        for kind in KINDS:
            if self.seen[kind] == 0:
                fail('no case with %s' % kind)
        refused = self.cases - self.met[0]
        print('runs: %d cases, %d of them refused, and %d again by small chunks, print the reference\'s bytes' % (
            self.cases, refused, self.through_small))
        print('runs: %d rows, %d bytes compared' % (self.rows, self.bytes))


def compare_all(reference, generate, seeds, count, tally):
    known = known_cases()
    for (case, wanted), (_, theirs) in zip(known, answered(reference, [case for case, _ in known])):
        if theirs != wanted:
            fail('%s: the reference prints %r and not %r' % (case.name, theirs[:200], wanted[:200]))
        tally.hold(case, wanted, True)
    good = []
    for at, (case, wanted) in enumerate(answered(reference, list(generated_runs(generate, seeds, count)))):
        tally.hold(case, wanted, at % 10 == 0)
        if number_of(wanted) == 0 and len(good) < 500:
            good.append(case)
    if not good:
        fail('no generated run is accepted')
    others = list(generated_sheets(generate, seeds, count // 6, good)) + list(generated_stations(generate, seeds, count // 6, good))
    for at, (case, wanted) in enumerate(answered(reference, others)):
        tally.hold(case, wanted, at % 10 == 0)
    for case, wanted in answered(reference, list(split_cases())):
        tally.hold(case, wanted, False)
    for case, by_small in long_cases(good):
        for case, wanted in answered(reference, [case]):
            tally.hold(case, wanted, by_small)


def main():
    if len(sys.argv) != 7 or not sys.argv[6].isdecimal():
        sys.exit(__doc__)
    reference, generate = map(os.path.abspath, sys.argv[1:3])
    run, small = ([os.path.abspath(words[0])] + words[1:] for words in map(shlex.split, sys.argv[3:5]))
    os.chdir(ROOT)
    for program in [run[0], small[0]]:
        if not os.access(program, os.X_OK):
            fail('%s is not there; `bin/build %s` builds it' % (program, os.path.basename(program)))
    shutil.rmtree(OUT, ignore_errors=True)
    os.makedirs(OUT)
    put(SAID, b'')
    put(PRINTED, b'')
    tally = Tally(run, small)
    compare_all(reference, generate, sys.argv[5], int(sys.argv[6]), tally)
    tally.show()


main()
