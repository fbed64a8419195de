#!/usr/bin/env python3
"""compare_definitions.py REFERENCE GENERATE SEEDS STATIONS SAMPLES RUNS SECONDS

Holds the definitions of crates/rules against the independent reference program, on generated cases. A definition has no program:
the proof checker computes it. So each case becomes an equation, "what the definition gives is what the reference answered", in a
crate of a repository made for the purpose in a temporary folder, and `rt check` decides each. An equation that is refused is named
with the command that shows its case; KEEP=1 in the environment keeps the folder.
"""
import os, re, shutil, subprocess, sys, tempfile

sys.dont_write_bytecode = True  # no folder of compiled modules among the sources
from generated_cases import generated

ROOT = os.path.dirname(os.path.dirname(os.path.abspath(__file__)))
SPECS = os.path.join(ROOT, 'crates', 'rules', 'specs')
MOST_SECONDS = 24  # computing in the checker costs some 40 ms for each second of a run


def unfolded():
    """Every definition that a computation may have to open."""
    names, mods = [], []
    for line in open(os.path.join(SPECS, 'Lib.antt'), encoding='utf-8'):
        m = re.match(r'pub mod (\w+)', line)
        if m and m.group(1) != 'Cases':
            mods.append(m.group(1))
    for mod in mods:
        for line in open(os.path.join(SPECS, mod + '.antt'), encoding='utf-8'):
            m = re.match(r'unfoldable pub (\S+) :', line)
            if m:
                names.append('%s.%s' % (mod, m.group(1)))
    ieee = 'span climb size odd units round neg sum add mul div lt eq le of_int of_bits of_fields to_bits is_nan'.split()
    names += ['Ieee.' + n for n in ieee] + ['Count.ones', 'Count.ones_in', 'Count.count_trailing_zeros']
    return mods, names + ['Answered.' + n for n in re.findall(r'unfoldable pub (\S+) :', ANSWERED)]


ANSWERED = '''-- How an answer is written down as numbers, for a comparison.
use Prim.Native.Nat.{ℕ}
use mathlib.Core.Bool.{Bool, true, false}
use mathlib.Core.List.{List, [], ◌∷◌, ◌++◌}
use lib.ListN.{length, take}
use lib.Ieee.{Float, binary64, to_bits}
use Rattle.rules.specs.declared.station.Station.{Station}
use Rattle.rules.specs.declared.run.Mode.{Mode}
use Rattle.rules.specs.declared.run.Mode.TheVariants.{Off, Warming, On, Cooling, Service}
use Rattle.rules.specs.declared.run.SetState.{SetState}
use Rattle.std.specs.Prelude.{Option, Some, None}
use Rattle.rules.specs.Quantities.{Totals}
use Rattle.rules.specs.declared.run.Run.{Run}
use Rattle.rules.specs.declared.run.Step.{Step}
use Rattle.rules.specs.declared.run.Inputs.{Inputs}
use Rattle.rules.specs.Answers.{Answer, accepted, refused}
use Rattle.rules.specs.Row.{row_text}
use Rattle.rules.specs.Second.{second, record_handed, buffer_left, length_answered}

unfoldable pub amount : Answer ℕ → List ℕ
amount (accepted v) = 1 ∷ v ∷ []
amount (refused number place) = 0 ∷ number ∷ place ∷ []

abbrev mode_numbers : Mode → List ℕ
mode_numbers Off = 0 ∷ 0 ∷ []
mode_numbers (Warming n) = 1 ∷ n ∷ []
mode_numbers On = 2 ∷ 0 ∷ []
mode_numbers (Cooling n) = 3 ∷ n ∷ []
mode_numbers (Service n) = 4 ∷ n ∷ []

unfoldable pub bits_of : Float → ℕ
bits_of x = to_bits binary64 x

unfoldable pub held_numbers : Option Float → List ℕ
held_numbers None = 0 ∷ 0 ∷ []
held_numbers (Some x) = 1 ∷ bits_of x ∷ []

unfoldable pub state_numbers : SetState → List ℕ
state_numbers s = mode_numbers s.mode ++ (s.run ∷ s.clock ∷ s.starts ∷ s.stops ∷ s.energy ∷ s.fuel ∷ [])

unfoldable pub flat : List SetState → List ℕ
flat [] = []
flat (s ∷ ss) = state_numbers s ++ flat ss

unfoldable pub run_numbers : Run → List ℕ
run_numbers r =
    (r.done ∷ r.store ∷ r.called ∷ r.since ∷ [])
    ++ held_numbers r.setpoint
    ++ flat r.sets
    ++ (r.totals.offered ∷ r.totals.load ∷ r.totals.shed ∷ r.totals.solar ∷ r.totals.charge ∷ r.totals.spill ∷ r.totals.give ∷ r.totals.diesel ∷ r.totals.unserved ∷ [])
    ++ r.decided

-- the answer, the record handed back, and the buffer as it is left, which was lent full of zeros
unfoldable pub call_gives : Station → Run → Inputs → List ℕ → List (List ℕ)
call_gives st r x lent =
    let a = second st r x (length lent) in
    amount (length_answered a) ∷ run_numbers (record_handed r a) ∷ buffer_left lent a ∷ []
'''


def bytes_term(h):
    if h == '-':
        return '[]'
    b = bytes.fromhex(h)
    return '(bytes_of %d 0x%s)' % (len(b), b[::-1].hex())


def nats(ns):
    return '(' + ''.join('%s ∷ ' % n for n in ns) + '[])'


def lists(ts):
    return '(' + ''.join('%s ∷ ' % t for t in ts) + '[])'


def refusal(a):
    return nats([] if a == 'accepted' else a.split(',')[1:])


def amount(a):
    return nats([0] + a.split(',')[1:] if a.startswith('refused') else [1, a])


def station_case(case, answer):
    h, mask, power, which = case.split()
    check, share, rate = answer.split()
    s = bytes_term(h)
    gives = ['refusal (station_check %s)' % s, 'amount (share_asked %s %s %s %s)' % (s, mask, power, which), 'amount (rate_asked %s %s %s)' % (s, mask, power)]
    return lists(gives), lists([refusal(check), amount(share), amount(rate)])


def sample_case(case, answer):
    return lists(['refusal (sample_check %s)' % bytes_term(case.strip())]), lists([refusal(answer)])


def run_case(case, answer):
    st, sm, sec = case.split()
    return (lists(['printed %s %s %s' % (bytes_term(st), bytes_term(sm), bytes_term(sec))]), lists([bytes_term(answer)]))


MODES = ['Off', 'Warming', 'On', 'Cooling', 'Service']


class Numbers:
    def __init__(self, text):
        self.all, self.at = [int(x) for x in text.split()], 0

    def take(self, n):
        self.at += n
        return self.all[self.at - n:self.at]


def record(names, values):
    return 'record { %s }' % '; '.join('%s = %s' % (a, b) for a, b in zip(names.split(), values))


def station_term(n):
    sets, configs = n.take(2)
    control = record('spinning coverage minload shed delay k minseconds maintain online', n.take(9))
    battery = record('power efficiency least most start', n.take(5))
    gs = []
    for _ in range(8):
        v, p = n.take(6), n.take(10)
        gs.append(record('rating warmup cooldown interval service points loads rates', v + [nats(p[0::2]), nats(p[1::2])]))
    return record('control battery setcount configcount sets configs', [control, battery, sets, configs, lists(gs), nats(n.take(64))])


def run_term(n):
    done, store, called, since, tag, bits = n.take(6)
    states = []
    for _ in range(8):
        mode, left, *v = n.take(8)
        m = MODES[mode] if mode in (0, 2) else '(%s %d)' % (MODES[mode], left)
        states.append(record('mode run clock starts stops energy fuel', [m] + v))
    totals = record('offered load shed solar charge spill give diesel unserved', n.take(9))
    decided = nats(n.take(60))
    held = '(Some (of_bits binary64 %d))' % bits if tag else 'None'
    return record('done since called store setpoint sets decided totals', [done, since, called, store, held, lists(states), decided, totals])


def second_case(case, answer):
    n = Numbers(case)
    st, r = station_term(n), run_term(n)
    load, solar, sheddable, room = n.take(4)
    x = record('load solar sheddable', [load, solar, sheddable])
    what, back, row = answer.split(';')
    row = b'' if row.strip() == '-' else bytes.fromhex(row.strip())
    left = row + bytes(room - len(row)) if room >= len(row) else row
    shown = [amount(what if what.startswith('refused') else what.split(',')[1]), nats(back.split()), bytes_term(left.hex() or '-')]
    return 'call_gives (%s) (%s) (%s) (replicate %d 0)' % (st, r, x, room), lists(shown)


KINDS = {'stations': (station_case, 20), 'samples': (sample_case, 40), 'runs': (run_case, 2), 'seconds': (second_case, 10)}

HEADER = '''use Prim.Native.Nat.{ℕ}
use mathlib.Core.Path.{◌≡◌, refl}
use mathlib.Core.List.{List, [], ◌∷◌}
use lib.Ieee
use lib.Ieee.{binary64, of_bits}
use lib.Count
use lib.ListN.{replicate}
%s
use Rattle.compared.specs.Answered
use Rattle.compared.specs.Answered.{amount, call_gives}
use Rattle.rules.specs.declared.run.Mode.TheVariants.{Off, Warming, On, Cooling, Service}
use Rattle.std.specs.Prelude.{Some, None}
use Rattle.rules.specs.Bytes.{bytes_of}
use Rattle.rules.specs.Answers.{refusal}
use Rattle.rules.specs.Sizing.{station_check, sample_check, share_asked, rate_asked}
use Rattle.rules.specs.Run.{printed}
'''

EQUATION = '''
pub case%(i)d : ◌≡◌ {A = List (List ℕ)} (%(gives)s) %(shows)s
unfolding %(names)s
case%(i)d = refl
'''


def shorten(case):
    """A run of at most MOST_SECONDS seconds: the number asked, where it is one, is made smaller."""
    st, sm, sec = case.split()
    raw = b'' if sec == '-' else bytes.fromhex(sec)
    if re.fullmatch(rb'[0-9]{1,9}', raw) and MOST_SECONDS < int(raw) <= 316224000:
        sec = str(int(raw) % MOST_SECONDS + 1).encode().hex()
    return ' '.join([st, sm, sec])


def answered(reference, generate, kind, seeds, count):
    """The generated cases of a kind, each with the reference's answer and the command that shows it."""
    commands, cases = zip(*generated(generate, kind, seeds, count))
    if kind == 'runs':
        cases = [shorten(c) for c in cases]
    asked = ''.join(c + '\n' for c in cases)
    answers = subprocess.run([reference, 'batch', kind], check=True, input=asked, stdout=subprocess.PIPE, text=True).stdout.splitlines()
    if len(cases) != len(answers):
        sys.exit('%s: %d cases and %d answers' % (kind, len(cases), len(answers)))
    return list(zip(cases, answers, commands))


def put(top, path, text):
    path = os.path.join(top, path)
    os.makedirs(os.path.dirname(path), exist_ok=True)
    with open(path, 'w', encoding='utf-8') as f:
        f.write(text)


def write_repository(top, cases):
    """The crate of the equations, above a copy of `rules`; cases has a list for each kind."""
    mods, names = unfolded()
    shutil.copytree(os.path.join(ROOT, 'crates', 'rules'), os.path.join(top, 'crates', 'rules'), ignore=shutil.ignore_patterns('must-fail', 'out'))
    put(top, 'crates.txt', 'rules:\ncompared: rules\n')
    put(top, 'crates/compared/src/lib.rt', '#![tactic(auto)]\n// Nothing: the equations stand in specs/.\n')
    put(top, 'crates/compared/specs/Answered.antt', ANSWERED)
    header = HEADER % '\n'.join('use Rattle.rules.specs.%s' % m for m in mods)
    blocks = ['Answered']
    for kind, (term, size) in KINDS.items():
        for at in range(0, len(cases[kind]), size):
            blocks.append('%s%d' % (kind.capitalize(), at))
            text = header
            for i, (case, answer, _) in enumerate(cases[kind][at:at + size], at):
                gives, shows = term(case, answer)
                text += EQUATION % {'i': i, 'gives': gives, 'shows': shows, 'names': ' '.join(names)}
            put(top, 'crates/compared/specs/%s.antt' % blocks[-1], text)
    put(top, 'crates/compared/specs/Lib.antt', ''.join('pub mod %s\n' % b for b in blocks))


def refused(output):
    """The equations that the check refused: kind, number and the reason's first words."""
    return re.findall(r'specs/([A-Z][a-z]+)\d+\.antt:\d+:\d+: error: `case(\d+)`: ([^\n]{0,100})', output)


def main():
    if len(sys.argv) != 8:
        sys.exit(__doc__)
    reference, generate, seeds = sys.argv[1:4]
    counts = dict(zip(KINDS, map(int, sys.argv[4:8])))
    cases = {k: answered(reference, generate, k, seeds, n) if n else [] for k, n in counts.items()}
    top = tempfile.mkdtemp(prefix='definitions-')
    try:
        write_repository(top, cases)
        got = subprocess.run(['rt', 'check'], cwd=os.path.join(top, 'crates', 'compared'), stdout=subprocess.PIPE, stderr=subprocess.STDOUT, text=True)
    finally:
        if 'KEEP' in os.environ:
            print('kept: ' + top)
        else:
            shutil.rmtree(top, ignore_errors=True)
    if got.returncode != 0:
        for kind, i, why in refused(got.stdout):
            print('not as the reference answers: %s   (%s)' % (cases[kind.lower()][int(i)][2], why))
        if not refused(got.stdout):
            print(got.stdout[:4000])
        sys.exit(1)
    met = {kind: len(of_kind) for kind, of_kind in cases.items()}
    print('definitions: %d cases as the reference answers them (%s)' % (sum(met.values()), ', '.join('%d %s' % (n, k) for k, n in met.items())))


main()
