#!/usr/bin/env python3
"""compare_seconds_run.py REFERENCE COUNT

Runs crates/measure_seconds/out/measure_seconds (`bin/build measure_seconds` builds it) for COUNT seconds on Station A and on a station of 8 sets and 64
configurations, and compares its rows, which `steady::seconds` writes batch by batch, byte for byte with those that the independent
reference program prints for a sheet of the same inputs. The calls of `dispatch::second`, one for each second, must come to the same:
count and checksum of the rows' bytes, store, configuration called and fuel. Says what was met in the rows, and fails where one of it
never was. The files are written to build/seconds-run.
"""
import collections, os, sys

sys.dont_write_bytecode = True  # no folder of compiled modules among the sources
from c_drivers import fail, must
from speed_files import stations, write_sheet

ROOT = os.path.dirname(os.path.dirname(os.path.abspath(__file__)))
PROGRAM = os.path.join('crates', 'measure_seconds', 'out', 'measure_seconds')
OUT = os.path.join('build', 'seconds-run')

COLUMNS = 't,load,shed,solar,charge,spill,give,diesel,unserved,on,sets,call,store'.split(',')
WATTS = ['shed', 'solar', 'charge', 'spill', 'give', 'diesel', 'unserved']
MODULUS = 65521


def rows_of(printed, count):
    """The rows among what the reference prints, and its sets' lines as lists of numbers."""
    lines = printed.decode().splitlines(keepends=True)
    if len(lines) < count + 2 or lines[0].strip().split(',') != COLUMNS or not lines[count + 1].startswith('set,'):
        fail('the reference prints no run of %d seconds: %r' % (count, lines[:2]))
    return lines[1:count + 1], [list(map(int, line.split(','))) for line in lines[count + 2:]]


def hold_rows(name, ours, theirs):
    """Ends the test at the first row that differs."""
    if ours == ''.join(theirs).encode():
        return
    for at, (our, their) in enumerate(zip(ours.decode().splitlines(keepends=True), theirs)):
        if our != their:
            fail('%s, second %d: the row is\n%s\nand not\n%s' % (name, at, our.rstrip(), their.rstrip()))
    fail('%s: %d bytes of rows, and not %d' % (name, len(ours), len(''.join(theirs))))


def checksum(text):
    """Adler's form of Fletcher's sums, with both at 0 at first."""
    low = high = 0
    for byte in text:
        low += byte
        high += low
    return high % MODULUS * 65536 + low % MODULUS


def line_of(rows, sets):
    """The line that measure_seconds is to print, from the reference's rows and sets."""
    text = ''.join(rows).encode()
    last = dict(zip(COLUMNS, rows[-1].strip().split(',')))
    fuel = sum(numbers[5] for numbers in sets)
    return 'seconds %d, bytes %d, checksum %d, done %d, store %s, called %s, fuel %d\n' % (
        len(rows), len(text), checksum(text), len(rows), last['store'], last['call'], fuel)


def hold_lines(name, path, count, wanted):
    for way in ['each', 'many']:
        line = must([PROGRAM, way, path, str(count)]).decode()
        if line != wanted:
            fail('%s: `%s` comes to\n%s and not to\n%s' % (name, way, line, wanted))


def what_was_met(rows, sets):
    """How many seconds have each of the row's flows, and how often configurations change and sets start, stop and run."""
    met = collections.Counter()
    before = None
    for row in rows:
        numbers = dict(zip(COLUMNS, map(int, row.split(','))))
        met.update(column for column in WATTS if numbers[column] > 0)
        met['changes of configuration'] += before is not None and numbers['call'] != before
        before = numbers['call']
    met['starts'], met['stops'] = (sum(numbers[place] for numbers in sets) for place in [2, 3])
    return met


def compare(reference, name, path, sheet, count):
    rows, sets = rows_of(must([reference, 'run', path, sheet, str(count)]), count)
    hold_rows(name, must([PROGRAM, 'rows', path, str(count)]), rows)
    hold_lines(name, path, count, line_of(rows, sets))
    met = what_was_met(rows, sets)
    kinds = WATTS + ['changes of configuration', 'starts', 'stops']
    print('seconds run: %s: %s' % (name, ', '.join('%s: %d' % (kind, met[kind]) for kind in kinds)))
    for kind in kinds:
        if met[kind] == 0:
            fail('%s: no second with %s' % (name, kind))
    print('seconds run: %s: %d rows of %d bytes in batches are the reference\'s; one call for each second comes to the same' % (
        name, len(rows), sum(map(len, rows))))


def main():
    if len(sys.argv) != 3 or not sys.argv[2].isdecimal() or int(sys.argv[2]) == 0:
        sys.exit(__doc__)
    reference, count = os.path.abspath(sys.argv[1]), int(sys.argv[2])
    os.chdir(ROOT)
    if not os.path.exists(PROGRAM):
        fail('%s is not there; `bin/build measure_seconds` builds it' % PROGRAM)
    os.makedirs(OUT, exist_ok=True)
    sheet = write_sheet(OUT, count)
    for name, path in stations(OUT):
        compare(reference, name, path, sheet, count)


main()
