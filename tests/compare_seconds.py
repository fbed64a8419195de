#!/usr/bin/env python3
"""compare_seconds.py REFERENCE GENERATE SEEDS COUNT

Runs crates/test_second_cases/out/test_second_cases (`bin/build test_second_cases` builds it) on COUNT generated cases of one second, and compares each answer byte
for byte with that of the independent reference program: the row's length or the refusal, the record handed back, the row; and the rest of
the lent buffer with what was lent. Says how many were accepted, how many met each refusal, and how many held a NaN or an infinity, and
fails where one of them never was. The cases of tests/seconds have recorded answers, and are held against these.

The program reads and prints numbers of 8 bytes, and this makes them of the reference's lines and back: a reader of text would have to be
proved too.
"""
import collections, os, struct, sys

sys.dont_write_bytecode = True  # no folder of compiled modules among the sources
from c_drivers import fail, must
from generated_cases import generated

ROOT = os.path.dirname(os.path.dirname(os.path.abspath(__file__)))
PROGRAM = os.path.join('crates', 'test_second_cases', 'out', 'test_second_cases')

REFUSALS = ['refused,%d,0' % number for number in [19, 20, 23, 24, 25, 26]]
HELD = ['held NaN', 'held infinity']
KINDS = ['accepted'] + REFUSALS + HELD

# Where a case has its held setpoint: whether there is one, and its bits.
HELD_TAG, HELD_BITS = 212, 213
SIGN, INFINITY = 2**63, 0x7ff0_0000_0000_0000

U8, U32, U64 = 2**8 - 1, 2**32 - 1, 2**64 - 1
BATTERY = [U32, U32, U64, U64, U64]
STATE = [4] + [U32] * 5 + [U64] * 2  # mode, remaining, four counts, energy, fuel
RECORD = [U32, U64, U32, U32, 1, U64] + STATE * 8 + [U64] * 9 + [U32] * 60
LENT = 4096  # bytes of the buffer of which each case lends a part
# The most that may stand at each place of a case: the station's counts, control, battery, sets and masks; the run's record; the inputs;
# how much of the buffer is lent.
MOST = [U32] * 2 + [U32] * 9 + BATTERY + [U32] * 16 * 8 + [U8] * 64 + RECORD + [U32] * 3 + [LENT]
CASE = struct.Struct('<%dQ' % len(MOST))
ANSWER = struct.Struct('<%dQ' % (3 + len(RECORD)))
FILLED = b'\xaa' * LENT  # what the program fills the buffer with before it lends it


def case_bytes(case):
    """A case of the generator as the program reads it; each number is held to its type here."""
    numbers = list(map(int, case.split()))
    if len(numbers) != len(MOST) or any(number > most for number, most in zip(numbers, MOST)):
        fail('a case that the program cannot read: %s' % case)
    return CASE.pack(*numbers)


def answer_line(numbers, lent):
    """An answer of the program as the reference prints it; a buffer that is not as it was beside the row is told instead."""
    refused, number, place = numbers[:3]
    size = 0 if refused else number
    if lent[size:] != FILLED[size:]:
        return 'buffer changed'
    outcome = 'refused,%d,%d' % (number, place) if refused else 'row,%d' % size
    return '%s;%s;%s' % (outcome, ' '.join(map(str, numbers[3:])), lent[:size].hex() or '-')


def answered(cases):
    """The program's answers to the cases, as lines."""
    printed = must([PROGRAM], input=b''.join(map(case_bytes, cases)))
    each = ANSWER.size + LENT
    if len(printed) != len(cases) * each:
        fail('%d bytes of answers to %d cases' % (len(printed), len(cases)))
    return [answer_line(ANSWER.unpack_from(printed, at), printed[at + ANSWER.size:at + each]) for at in range(0, len(printed), each)]


def held_kind(case):
    """`held NaN` or `held infinity`, where the case's setpoint is one."""
    numbers = case.split()
    bits = int(numbers[HELD_BITS]) % SIGN
    if int(numbers[HELD_TAG]) == 0 or bits < INFINITY:
        return []
    return [HELD[0] if bits > INFINITY else HELD[1]]


def what_was_met(case, answer):
    """The kinds of a case and its answer that are counted."""
    said = answer.split(';')[0]
    return ['accepted' if said.startswith('row,') else said] + held_kind(case)


def hold(commands, ours, theirs):
    """Ends the test at the first case that is answered otherwise; its command shows it."""
    if not len(commands) == len(ours) == len(theirs):
        fail('%d cases, %d answers, %d of the reference' % (len(commands), len(ours), len(theirs)))
    for at, (our, their) in enumerate(zip(ours, theirs), 1):
        if our != their:
            fail('case %d (%s) is answered\n%s\nand not\n%s' % (at, commands[at - 1], our, their))


def hold_recorded():
    """The recorded cases, against the answers that are recorded with them."""
    cases, answers = ([line.rstrip('\n') for line in open(os.path.join(ROOT, 'tests', 'seconds', name))] for name in ('cases', 'answers'))
    hold(['line %d of tests/seconds/cases' % number for number in range(1, len(cases) + 1)], answered(cases), answers)
    print('seconds: %d recorded cases, each answered as recorded' % len(cases))


def main():
    if len(sys.argv) != 5 or not sys.argv[4].isdecimal():
        sys.exit(__doc__)
    reference, generate = map(os.path.abspath, sys.argv[1:3])
    seeds, count = sys.argv[3], int(sys.argv[4])
    os.chdir(ROOT)
    if not os.path.exists(PROGRAM):
        fail('%s is not there; `bin/build test_second_cases` builds it' % PROGRAM)
    hold_recorded()
    commands, cases = zip(*generated(generate, 'seconds', seeds, count))
    text = ''.join(case + '\n' for case in cases).encode()
    theirs = must([reference, 'batch', 'seconds'], input=text).decode().splitlines()
    hold(commands, answered(cases), theirs)
    met = collections.Counter(kind for case, answer in zip(cases, theirs) for kind in what_was_met(case, answer))
    print('seconds: ' + ', '.join('%s: %d' % (kind, met[kind]) for kind in KINDS))
    for kind in KINDS:
        if met[kind] == 0:
            fail('no case with %s' % kind)
    print('seconds: %d cases, each answered as the reference answers it' % len(cases))


main()
