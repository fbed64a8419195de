#!/usr/bin/env python3
"""judge_runs.py REFERENCE GENERATE RUN SEEDS COUNT

Judges demand 3 from a second side. The program RUN (crates/run_files/out/run_files, which `bin/build run_files` builds; it may be a command of
several words) runs as a process on real files: COUNT generated runs, of which some are damaged and refused; half as many good ones with
short services, small sets and a store that fills and empties; and some stations and sheets of the speed tests. What it prints goes to
`REFERENCE batch exercised`, the judge that replays modes, clocks and setpoint from station, samples and rows alone: each text must hold.
Then one number of the text is changed, several times a run (`REFERENCE batch changed`), and the judge must refuse the changed text, or
a decision of its own must say why demand 3's words allow it.

Says how many rows were judged, what there was for each clause to speak of, which changes were tried and refused, and which are allowed
and why. A text that does not hold, a change that is allowed without a reason (or refused against the words), and a clause or a column
that was never tried end the test with status 1.
"""
import collections, os, shlex, shutil, subprocess, sys

sys.dont_write_bytecode = True  # no folder of compiled modules among the sources
from c_drivers import fail, must
from generated_cases import generated
from speed_files import STATION_A, days_sheet, four_sets, largest_station, sheet

ROOT = os.path.dirname(os.path.dirname(os.path.abspath(__file__)))
OUT = os.path.join('build', 'judge-runs')
STATION, SAMPLES = (os.path.join(OUT, name) for name in ['station', 'samples.csv'])
LONGEST = 60  # seconds for one run; a run that never ends is a fault too
BATCH = 250  # texts that are judged at once
CHANGES = 12  # changed numbers for each text that holds
OPEN_COLUMNS = ['call', 'fuel']  # by demand 3's words no other number has room
CLAUSES = ['shape', 'mask', 'load', 'solar', 'store', 'limits', 'unserved', 'watts', 'called', 'counts', 'fuel']
COLUMNS = 't load shed solar charge spill give diesel unserved on sets call store set run starts stops energy fuel'.split()
# A store outside its limits never comes alone: its sum is wrong too, and is met first. reference/tests/judge_clauses.rs breaks that clause.
NEVER_ALONE = ['limits']

Case = collections.namedtuple('Case', 'name station samples seconds')


def from_hex(text):
    return b'' if text == '-' else bytes.fromhex(text)


def to_hex(content):
    return content.hex() or '-'


def put(path, content):
    """Writes a file over what stands there, which is faster than to empty it first."""
    with open(os.open(path, os.O_WRONLY | os.O_CREAT, 0o666), 'wb') as f:
        f.write(content)
        f.truncate()


# ---- cases

def generated_runs(generate, kind, seeds, count):
    for command, line in generated(generate, kind, seeds, count):
        station, samples, seconds = map(from_hex, line.split(' '))
        seconds = seconds.replace(b'\0', b'\1')  # no argument of a process holds a NUL
        yield Case(command, station, samples, seconds)


def longer_cases():
    """Three stations with two sheets, some thousands of seconds each; with every second set of the largest in service now and then."""
    with open(STATION_A, 'rb') as f:
        stations = [('Station A', f.read()), ('4 sets', four_sets()), ('8 sets', largest_station())]
    for name, station in stations:
        yield Case('%s, a row a second' % name, station, sheet(4000).encode(), b'4000')
        yield Case('%s, a row an hour' % name, station, days_sheet(30000, 3600).encode(), b'30000')


# ---- a run, and its judge

def printed_by(run, case):
    """What a process prints for a case; one that fails or does not end ends the test."""
    put(STATION, case.station)
    put(SAMPLES, case.samples)
    try:
        # what is said about a refusal is tested elsewhere
        got = subprocess.run(run + [STATION, SAMPLES, case.seconds], stdin=subprocess.DEVNULL, stdout=subprocess.PIPE,
                             stderr=subprocess.DEVNULL, timeout=LONGEST, env={'LC_ALL': 'C'}, close_fds=False)
    except subprocess.TimeoutExpired:
        fail('%s: %s has not ended after %d s' % (case.name, run[0], LONGEST))
    if got.returncode != 0:
        fail('%s: %s ended with status %d' % (case.name, run[0], got.returncode))
    return got.stdout


def ask(reference, kind, lines):
    """The judge's answers, one a line."""
    answers = must([reference, 'batch', kind], input=''.join(line + '\n' for line in lines).encode()).decode().splitlines()
    if len(answers) != len(lines) or 'malformed' in answers:
        fail('%d answers of the judge (%s) to %d texts' % (len(answers), kind, len(lines)))
    return answers


def keep(case, printed, why):
    """Saves a text that does not hold, and ends the test."""
    put(STATION, case.station)
    put(SAMPLES, case.samples)
    put(os.path.join(OUT, 'printed'), printed)
    fail('%s, %r seconds: %s\nthe case is kept in %s: station, samples.csv, printed' % (case.name, case.seconds, why, OUT))


class Tally:
    """Judges texts and their changes, and counts."""

    def __init__(self, reference, seed):
        self.reference, self.seed = reference, seed
        self.held = self.refused_runs = 0
        self.seen, self.tried = collections.Counter(), collections.Counter()
        self.by_clause, self.allowed = collections.Counter(), collections.Counter()
        self.waiting = []

    def add(self, case, printed):
        self.waiting.append((case, printed))
        if len(self.waiting) >= BATCH:
            self.judge()

    def judge(self):
        """Judges the texts that wait."""
        texts = [' '.join(map(to_hex, case[1:] + (printed,))) for case, printed in self.waiting]
        held = []
        for (case, printed), text, answer in zip(self.waiting, texts, ask(self.reference, 'exercised', texts)):
            verdict, *counts = answer.split(' ')
            if answer == 'no rows':
                self.refused_runs += 1
            elif verdict != 'holds':
                keep(case, printed, 'demand 3 is broken: ' + answer)
            else:
                held.append((case, printed, text))
                self.seen.update({name: int(count) for name, count in (part.split('=') for part in counts)})
        self.change(held)
        self.waiting = []

    def change(self, held):
        """Changes the texts that hold, one number at a time."""
        asked = ['%s %d %d' % (text, self.seed + self.held + at, CHANGES) for at, (_, _, text) in enumerate(held)]
        self.held += len(held)
        for (case, printed, _), answer in zip(held, ask(self.reference, 'changed', asked)):
            for change in answer.split(';'):
                column, way, outcome, why = change.split(' ')
                self.tried[column] += 1
                if outcome == 'refused':
                    self.by_clause[column, why] += 1
                elif outcome == 'allowed' and column in OPEN_COLUMNS:
                    self.allowed[column, why] += 1
                else:
                    keep(case, printed, 'a changed number: ' + change)

    def show(self):
        print('judge: %d runs hold, %d were refused and have no rows; what there was to judge, in rows:' % (self.held, self.refused_runs))
        print('judge: ' + ', '.join('%s %d' % item for item in self.seen.items()))
        clauses = collections.Counter()
        for (column, clause), count in self.by_clause.items():
            clauses[clause] += count
        print('judge: %d numbers changed: %s' % (sum(self.tried.values()), ', '.join('%s %d' % (c, self.tried[c]) for c in COLUMNS)))
        print('judge: %d refused, by the clause: %s' % (sum(clauses.values()), ', '.join('%s %d' % (c, clauses[c]) for c in CLAUSES)))
        for column in OPEN_COLUMNS:
            refused = sum(count for (of, _), count in self.by_clause.items() if of == column)
            whys = ', '.join('%s %d' % (why, count) for (of, why), count in sorted(self.allowed.items()) if of == column)
            print('judge: %s: %d refused, %d allowed: %s' % (column, refused, self.tried[column] - refused, whys))
        self.hold_coverage(clauses)

    def hold_coverage(self, clauses):
        """Ends the test where something was never met."""
        never = [name for name, count in self.seen.items() if count == 0] + [c for c in COLUMNS if self.tried[c] == 0]
        never += [c for c in CLAUSES if clauses[c] == 0 and c not in NEVER_ALONE]
        never += [c for c in OPEN_COLUMNS if not any(of == c for of, _ in self.allowed)]
        if never or not self.seen or self.refused_runs == 0:
            fail('never met: ' + (', '.join(never) or 'a run that holds, or one that is refused'))


def main():
    if len(sys.argv) != 6 or not sys.argv[5].isdecimal():
        sys.exit(__doc__)
    reference, generate = map(os.path.abspath, sys.argv[1:3])
    words = shlex.split(sys.argv[3])
    run = [os.path.abspath(words[0])] + words[1:]
    seeds, count = sys.argv[4], int(sys.argv[5])
    os.chdir(ROOT)
    if not os.access(run[0], os.X_OK):
        fail('%s is not there; `bin/build %s` builds it' % (run[0], os.path.basename(run[0])))
    shutil.rmtree(OUT, ignore_errors=True)
    os.makedirs(OUT)
    tally = Tally(reference, sum(map(int, seeds.split(','))))
    cases = [*generated_runs(generate, 'runs', seeds, count), *generated_runs(generate, 'judged', seeds, count // 2), *longer_cases()]
    for case in cases:
        tally.add(case, printed_by(run, case))
    tally.judge()
    tally.show()


main()
