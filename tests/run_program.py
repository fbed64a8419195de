#!/usr/bin/env python3
"""run_program.py

Runs bin/run (`bin/build run_files test_run_small` builds what it runs) on good and bad files, and holds its standard output to document 01 byte
for byte, what it says on standard error to the words that a clerk needs, and its status to both. Then what lies around the rules: files
that cannot be opened, read or read twice, output that is not taken, a sample file that changes between the two passes, progress on a
terminal, and memory. The files are written to build/run-program.
"""
import filecmp, os, pty, resource, shutil, signal, struct, subprocess, sys, threading, time

sys.dont_write_bytecode = True  # no folder of compiled modules among the sources
from c_drivers import C11, must

ROOT = os.path.dirname(os.path.dirname(os.path.abspath(__file__)))
RUN = os.path.join('bin', 'run')
PROGRAM = os.path.join('crates', 'run_files', 'out', 'run_files')
SMALL = os.path.join('crates', 'test_run_small', 'out', 'test_run_small')
OUT = os.path.join('build', 'run-program')
STATION_A, SAMPLES_A, ROWS_A = (os.path.join('examples', 'station-a', name) for name in ('station', 'samples.csv', 'rows.csv'))
HEADINGS = b't,LoadP,PvAvailP,ShedLoadP\n'
ROW_HEADING = b't,load,shed,solar,charge,spill,give,diesel,unserved,on,sets,call,store\n'
SET_HEADING = b'set,run,starts,stops,energy,fuel\n'
LONGEST = 120  # seconds for one run; a run that never ends is a fault too
MOST_MEMORY = 4096  # KB

COMPLETE, REFUSED, NO_ANSWER = 0, 1, 2
NO_FILE, DIRECTORY, TOO_LONG, NO_SPACE = 'No such file or directory', 'Is a directory', 'File name too long', 'No space left on device'
UNWRITTEN = ['standard output could not be written', 'not to be used']
CHANGED = ['changed while it was being read', 'not to be used']
passed = 0


def fail(case, message):
    print('run: %s: %s' % (case, message))
    sys.exit(1)


def held(case, got, status, answer, said, told):
    """Standard output, status and words of one run; an `answer` of None is not looked at."""
    global passed
    printed, words = got
    if answer is not None and printed != answer:
        fail(case, 'standard output is %r and not %r; standard error is\n%s' % (printed[:400], answer[:400], words))
    if status is not None and status[0] != status[1]:
        fail(case, 'the status is %d and not %d; standard error is\n%s' % (status[0], status[1], words))
    for each in said:
        if each not in words:
            fail(case, 'standard error has no %r:\n%s' % (each, words))
    if not said and words:
        fail(case, 'standard error is not silent:\n%s' % words)
    if any(byte != 10 and not 32 <= byte < 127 for byte in told):
        fail(case, 'standard error has a byte that is not printable: %r' % told)
    passed += 1


def run(case, words, answer, said, status, output=None, given=None, command=RUN):
    """`answer` is all that standard output may have, and each of `said` has to stand in standard error, which is silent where there is none."""
    try:
        got = subprocess.run([command] + words, input=given, stdout=output or subprocess.PIPE, stderr=subprocess.PIPE, timeout=LONGEST)
    except subprocess.TimeoutExpired:
        fail(case, 'no end after %d s' % LONGEST)
    held(case, (got.stdout or b'', got.stderr.decode('utf-8', 'replace')), (got.returncode, status) if command == RUN else None, answer, said, got.stderr)


def complete(case, words, answer):
    """A whole run, from the shell and in tiny chunks."""
    run(case, words, answer, [], COMPLETE)
    run(case + ', in chunks of 11 bytes', words, answer, [], None, command=SMALL)


def refused(case, words, refusal, said):
    run(case, words, b'refused,%s\n' % refusal.encode(), said, REFUSED)
    run(case + ', in chunks of 11 bytes', words, b'refused,%s\n' % refusal.encode(), said, None, command=SMALL)


def unanswered(case, words, said, **more):
    run(case, words, b'', said, NO_ANSWER, **more)


def file_of(name, content):
    path = os.path.join(OUT, name)
    with open(path, 'wb') as f:
        f.write(content)
    return path


def content_of(path):
    with open(path, 'rb') as f:
        return f.read()


def sheet_of(seconds):
    """A sheet with a row for each second, whose cells are those of Station A's four rows in turn."""
    cells = [row.split(b',', 1)[1] for row in content_of(SAMPLES_A).split(b'\n')[1:5]]
    return HEADINGS + b''.join(b'%d,%s\n' % (second, cells[second % 4]) for second in range(seconds))


# ---- what is printed

def check_answers():
    rows = content_of(ROWS_A)
    samples = content_of(SAMPLES_A)
    complete('Station A', [STATION_A, SAMPLES_A, '5'], rows)
    complete('leading zeros in the seconds', [STATION_A, SAMPLES_A, '000000005'], rows)
    complete('lines that end in CR LF', [STATION_A, file_of('crlf.csv', samples.replace(b'\n', b'\r\n')), '5'], rows)
    complete('a last line without LF', [STATION_A, file_of('last.csv', samples[:-1]), '5'], rows)
    complete('0 seconds', [STATION_A, SAMPLES_A, '0'], ROW_HEADING + SET_HEADING + b'1,0,0,0,0,0\n2,0,0,0,0,0\n')
    seconds = subprocess.run([PROGRAM, STATION_A, SAMPLES_A, '3'], stdout=subprocess.PIPE).stdout.split(b'\n')
    if seconds[:4] != rows.split(b'\n')[:4] or seconds[4] + b'\n' != SET_HEADING or len(seconds) != 8:
        fail('3 seconds of a longer sheet', '%r' % seconds)
    complete('rows that are skipped', [STATION_A, file_of('skipped.csv', samples + b'2,99,99,9\n3,1,1,1\n'), '5'], rows)


def check_refusals():
    station = content_of(STATION_A)
    none = os.path.join(OUT, 'none')
    refused('a station of 164 bytes', [file_of('station', station[:164]), SAMPLES_A, '5'], '1,0', ['station file', 'number 1:', '165 to 676 bytes', 'bin/check'])
    refused('a station refused, no sample file', [file_of('station', b''), none, '5'], '1,0', ['station file', 'number 1:'])
    refused('a station refused, seconds malformed', [file_of('station', station + b'\1'), SAMPLES_A, 'x'], '3,0', ['station file', 'number 3:'])
    refused('a station without end', ['/dev/zero', SAMPLES_A, '5'], '1,0', ['station file', 'number 1:'])
    refused('a station of 677 bytes', [file_of('station', bytes(677)), SAMPLES_A, '5'], '1,0', ['number 1:'])
    refused('a station of 676 bytes', [file_of('station', bytes(676)), SAMPLES_A, '5'], '2,1', ['number 2, entry 1:'])
    refused('a rating', [file_of('station', station[:100] + struct.pack('<I', 0) + station[104:]), SAMPLES_A, '5'], '6,1', ['number 6, set 1:'])
    refused('an empty sample file', [STATION_A, file_of('empty.csv', b''), '5'], '16,1', ['sample file', 'number 16, line 1:', 'bin/check'])
    refused('no row', [STATION_A, file_of('norow.csv', HEADINGS), '5'], '22,0', ['sample file', 'number 22:'])
    refused('three cells', [STATION_A, file_of('cells.csv', content_of(SAMPLES_A) + b'4,1,1\n'), '5'], '17,6', ['sample file', 'number 17, line 6:'])
    refused('a malformed cell and malformed seconds', [STATION_A, file_of('cell.csv', HEADINGS + b'0,x,1,1\n'), 'x'], '18,2', ['sample file', 'number 18, line 2:'])
    refused('a line without end', [STATION_A, '/dev/zero', '5'], '11,1', ['sample file', 'number 11, line 1:'])
    late = file_of('late.csv', sheet_of(20000) + b'20000,1\n')
    refused('a refused line far into the file', [STATION_A, late, '1'], '17,20002', ['number 17, line 20002:'])
    for asked in ('', 'x', ' 5', '5 ', '+5', '-3', '5\n', '1e3', '0000000005', '9' * 10, '9' * 4095, '5' * 4096, '5' * 70000, '\xe9'):
        refused('%r seconds' % asked[:12], [STATION_A, SAMPLES_A, asked], '18,0', ['SECONDS', 'number 18:', '1 to 9 digits'])
    for asked in ('316224001', '999999999'):
        refused(asked + ' seconds', [STATION_A, SAMPLES_A, asked], '23,0', ['SECONDS', 'number 23:', '316224000'])


def check_copies():
    """The gate runs the programs on copies of Station A's files, which have to be those of the examples."""
    for crate in ('run_files', 'test_run_small'):
        for example, copy in ((STATION_A, 'data/station'), (SAMPLES_A, 'data/samples.csv'), (ROWS_A, 'stdout')):
            copy = os.path.join('crates', crate, copy)
            if not filecmp.cmp(example, copy, shallow=False):
                fail(copy, 'differs from ' + example)


# ---- around the rules

def check_arguments():
    usage = ['usage: run STATION SAMPLES SECONDS']
    for count in (0, 1, 2, 4, 5):
        words = [STATION_A, SAMPLES_A, '5', '-3', '6'][:count]
        unanswered('%d arguments' % count, words, usage)
        if count != 4:
            unanswered('%d arguments, without bin/run' % count, words, usage, command=PROGRAM)
    unanswered('another fourth argument, without bin/run', [STATION_A, SAMPLES_A, '5', '-4'], usage, command=PROGRAM)
    unanswered('a long fourth argument, without bin/run', [STATION_A, SAMPLES_A, '5', '-3' * 4000], usage, command=PROGRAM)


def check_files():
    none, long_path = os.path.join(OUT, 'none'), 'x' * 5000
    unanswered('no station file', [none, SAMPLES_A, '5'], ['station file', none, NO_FILE, 'run STATION SAMPLES SECONDS'])
    unanswered('no sample file', [STATION_A, none, '5'], ['sample file', none, NO_FILE])
    unanswered('no sample file and seconds malformed', [STATION_A, none, 'x'], ['sample file', none, NO_FILE])
    unanswered('a directory as station', [OUT, SAMPLES_A, '5'], ['station file', OUT, DIRECTORY])
    unanswered('a directory as samples', [STATION_A, OUT, '5'], ['sample file', OUT, DIRECTORY])
    unanswered('a station path of 5,000 bytes', [long_path, SAMPLES_A, '5'], ['station file', '4095 bytes', TOO_LONG])
    unanswered('a sample path of 5,000 bytes', [STATION_A, long_path, '5'], ['sample file', '4095 bytes', TOO_LONG])
    unanswered('an empty path', ['', SAMPLES_A, '5'], ['station file', NO_FILE])
    unanswered('a sample path of bytes that cannot be shown', [STATION_A, '\x07\n\xff', '5'], ['\\x07\\x0a', NO_FILE])
    barred = file_of('barred.csv', content_of(SAMPLES_A))
    os.chmod(barred, 0)
    if not os.access(barred, os.R_OK):
        unanswered('a sample file that may not be read', [STATION_A, barred, '5'], ['sample file', 'Permission denied'])
    unanswered('samples from a pipe', [STATION_A, '/dev/stdin', '5'], ['sample file', 'twice', 'Illegal seek', 'save them to a file'], given=content_of(SAMPLES_A))
    with open(STATION_A, 'rb') as station:
        got = subprocess.run([RUN, '/dev/stdin', SAMPLES_A, '5'], stdin=station, stdout=subprocess.PIPE, stderr=subprocess.PIPE)
    held('a station from standard input', (got.stdout, got.stderr.decode()), (got.returncode, COMPLETE), content_of(ROWS_A), [], got.stderr)


def hindered(words, **settings):
    """A run of the program with the calls of tests/run/hindered.c."""
    library = os.path.join(OUT, 'hindered.so')
    if not os.path.exists(library):
        must(C11 + ['-shared', '-fPIC', os.path.join('tests', 'run', 'hindered.c'), '-o', library])
    more = dict(os.environ, LD_PRELOAD=os.path.abspath(library), **settings)
    return subprocess.run([PROGRAM] + words, stdout=subprocess.PIPE, stderr=subprocess.PIPE, env=more, timeout=LONGEST)


def check_hindered_calls():
    """Station A takes six reads: the station and its end, and both passes over the samples with theirs. None that fails is an end."""
    unread = ['cannot be read', 'Input/output error']
    for call, which in ((1, 'station'), (2, 'station'), (3, 'sample'), (4, 'sample'), (5, 'sample'), (6, 'sample')):
        got = hindered([STATION_A, SAMPLES_A, '5'], FAIL_AT=str(call))
        words = unread + [which + ' file'] + (['not to be used'] if call > 4 else [])
        held('read %d fails' % call, (got.stdout, got.stderr.decode()), None, None if call == 6 else b'', words, got.stderr)
    if not content_of(ROWS_A).startswith(got.stdout) or SET_HEADING in got.stdout:
        fail('read 6 fails', 'standard output is %r' % got.stdout)
    got = hindered([STATION_A, SAMPLES_A, '5'], FAIL_AT='7')
    held('read 7 would fail', (got.stdout, got.stderr.decode()), None, content_of(ROWS_A), [], got.stderr)
    got = hindered([STATION_A, SAMPLES_A, '5'], MOST_TAKEN='7')
    held('writes that take 7 bytes', (got.stdout, got.stderr.decode()), None, content_of(ROWS_A), [], got.stderr)


def check_output():
    with open('/dev/full', 'wb') as full:
        for command in (RUN, PROGRAM, SMALL):
            unanswered('a full disk, ' + command, [STATION_A, SAMPLES_A, '5'], UNWRITTEN + [NO_SPACE], output=full, command=command)
            unanswered('a full disk and a long run, ' + command, [STATION_A, SAMPLES_A, '300000000'], UNWRITTEN + [NO_SPACE], output=full, command=command)
            unanswered('a full disk and a refusal, ' + command, [STATION_A, SAMPLES_A, 'x'], UNWRITTEN + [NO_SPACE], output=full, command=command)
    check_disk_that_fills()
    check_told_on_a_pipe_alone()
    check_closed_pipe()


def check_disk_that_fills():
    """The output may grow to 100,000 bytes, so that a later buffer is not taken."""
    path, most = os.path.join(OUT, 'filled'), 100000
    limited = lambda: (signal.signal(signal.SIGXFSZ, signal.SIG_IGN), resource.setrlimit(resource.RLIMIT_FSIZE, (most, most)))
    with open(path, 'wb') as out:
        got = subprocess.run([RUN, STATION_A, SAMPLES_A, '100000'], stdout=out, stderr=subprocess.PIPE, preexec_fn=limited, timeout=LONGEST)
    held('a disk that fills', (b'', got.stderr.decode()), (got.returncode, NO_ANSWER), b'', UNWRITTEN + ['File too large'], got.stderr)
    if os.path.getsize(path) != most:
        fail('a disk that fills', '%d bytes were written' % os.path.getsize(path))


def check_told_on_a_pipe_alone():
    """The word goes to descriptor 3 where it is a pipe: no file of the caller's is written to, nor one that the program reads."""
    station, samples, kept = file_of('told-station', content_of(STATION_A)), file_of('told.csv', content_of(SAMPLES_A)), file_of('kept', b'kept as it is\n')
    for seconds, answer in (('5', content_of(ROWS_A)), ('x', b'refused,18,0\n')):
        words = [PROGRAM, station, samples, seconds, '-3']
        got = subprocess.run(words, stdout=subprocess.PIPE, stderr=subprocess.PIPE, timeout=LONGEST)
        held('descriptor 3 not open', (got.stdout, ''), None, answer, [], b'')
        with open(kept, 'r+b') as three:
            got = subprocess.run(words, stdout=subprocess.PIPE, stderr=subprocess.PIPE, timeout=LONGEST, preexec_fn=lambda: os.dup2(three.fileno(), 3), close_fds=False)
        held('a file as descriptor 3', (got.stdout, ''), None, answer, [], b'')
        for path, content in ((station, content_of(STATION_A)), (samples, content_of(SAMPLES_A)), (kept, b'kept as it is\n')):
            if content_of(path) != content:
                fail('told on a pipe alone', '%s was written to' % path)
        # a named pipe: its reader has the word, and one who has gone is not waited for
        named = os.path.join(OUT, 'named')
        os.mkfifo(named)
        reader = os.open(named, os.O_RDONLY | os.O_NONBLOCK)
        writer = os.open(named, os.O_WRONLY)
        three = lambda: os.dup2(writer, 3)
        got = subprocess.run(words, stdout=subprocess.PIPE, stderr=subprocess.PIPE, timeout=LONGEST, preexec_fn=three, close_fds=False)
        held('a named pipe as descriptor 3', (got.stdout, os.read(reader, 100).decode()), None, answer, ['complete\n' if seconds == '5' else 'refused\n'], b'')
        os.close(reader)
        got = subprocess.run(words, stdout=subprocess.PIPE, stderr=subprocess.PIPE, timeout=LONGEST, preexec_fn=three, close_fds=False)
        held('a named pipe whose reader has gone', (got.stdout, ''), None, answer, [], b'')
        os.close(writer)
        os.remove(named)


def check_closed_pipe():
    """A reader that takes the first line of 300 million and goes: the run stops at once."""
    since = time.time()
    process = subprocess.Popen([RUN, STATION_A, SAMPLES_A, '300000000'], stdout=subprocess.PIPE, stderr=subprocess.PIPE)
    first = process.stdout.readline()
    process.stdout.close()
    told = process.stderr.read()
    process.wait(LONGEST)
    held('a closed pipe', (first, told.decode()), (process.returncode, NO_ANSWER), ROW_HEADING, UNWRITTEN + ['Broken pipe'], told)
    # the runtime ignores SIGPIPE, so that the program tells the write that failed by itself too; it has no status of its own
    process = subprocess.Popen([PROGRAM, STATION_A, SAMPLES_A, '300000000'], stdout=subprocess.PIPE, stderr=subprocess.PIPE)
    first = process.stdout.readline()
    process.stdout.close()
    told = process.stderr.read()
    process.wait(LONGEST)
    held('a closed pipe, without bin/run', (first, told.decode()), (process.returncode, 0), ROW_HEADING, UNWRITTEN + ['Broken pipe'], told)
    if time.time() - since > 20:
        fail('a closed pipe', 'it took %d s to stop' % (time.time() - since))


# ---- a sample file that changes between the passes

def position_of(pid, path):
    """How far a process has read a file, or None where it has not opened it."""
    folder = '/proc/%d/fd' % pid
    try:
        for fd in os.listdir(folder):
            if os.path.realpath(os.path.join(folder, fd)) == os.path.realpath(path):
                with open('/proc/%d/fdinfo/%s' % (pid, fd)) as f:
                    return int(f.readline().split()[1])
    except (FileNotFoundError, ProcessLookupError):
        pass
    return None


def await_second_pass(process, path):
    """Waits until the process has gone back to the start of the file."""
    before = 0
    while process.poll() is None:
        position = position_of(process.pid, path)
        if position is not None and position < before:
            return True
        before = position or before
    return False


def changed_run(case, path, change, said):
    """Runs the program and makes the change once its second pass has begun. The output has rows but no line of a set."""
    out = os.path.join(OUT, 'changed.rows')
    with open(out, 'wb') as rows:
        process = subprocess.Popen([PROGRAM, STATION_A, path, '20000000'], stdout=rows, stderr=subprocess.PIPE)
        if not await_second_pass(process, path):
            fail(case, 'no second pass was seen')
        change(path)
        told = process.stderr.read()
        process.wait(LONGEST)
    held(case, (b'', told.decode()), None, b'', said, told)
    with open(out, 'rb') as f:
        first = f.readline()
        f.seek(max(0, os.path.getsize(out) - 4096))
        last = f.read()
    if first != ROW_HEADING or SET_HEADING in last:
        fail(case, 'the output begins %r and ends %r' % (first, last[-200:]))


def write_at(path, back, content):
    with open(path, 'r+b') as f:
        f.seek(-back, os.SEEK_END)
        f.write(content)


def append(path, content):
    with open(path, 'ab') as f:
        f.write(content)


def check_changes():
    path = os.path.join(OUT, 'long.csv')
    sheet = sheet_of(2000000)
    last = b'2000000,40,10,0\n'
    file_of('long.csv', sheet + last)
    changed_run('a late byte that changed', path, lambda p: write_at(p, 4, b'2'), CHANGED + [path])
    file_of('long.csv', sheet + last)
    changed_run('two late bytes that changed places', path, lambda p: write_at(p, len(last), b'2000000,04,10,0\n'), CHANGED + [path])
    file_of('long.csv', sheet + last)
    changed_run('a row more', path, lambda p: append(p, b'2000001,40,10,0\n'), CHANGED + [path])
    file_of('long.csv', sheet + last)
    changed_run('a row less', path, lambda p: os.truncate(p, len(sheet)), CHANGED + [path])
    file_of('long.csv', sheet + last)
    changed_run('a line that is refused', path, lambda p: write_at(p, len(last), b'2000000,40,10,x\n'), CHANGED + [path])
    copied = file_of('appended.csv', content_of(SAMPLES_A))
    with open(copied, 'ab') as out:
        got = subprocess.run([RUN, STATION_A, copied, '300000000'], stdout=out, stderr=subprocess.PIPE, timeout=LONGEST)
    held('rows that are appended to the samples', (b'', got.stderr.decode()), (got.returncode, NO_ANSWER), b'', CHANGED, got.stderr)
    os.unlink(path)
    os.unlink(os.path.join(OUT, 'changed.rows'))


# ---- progress and memory

def on_terminal(words):
    """What a terminal on standard error is told, and the status."""
    master, slave = pty.openpty()
    told = []

    def listen():
        try:
            while True:
                told.append(os.read(master, 4096))
        except OSError:
            pass
    listener = threading.Thread(target=listen)
    listener.start()
    with open(os.devnull, 'wb') as nothing:
        process = subprocess.Popen([RUN] + words, stdout=nothing, stderr=slave)
        os.close(slave)
        status = process.wait(LONGEST)
    listener.join()
    os.close(master)
    return status, b''.join(told).replace(b'\r\n', b'\n')


def check_progress():
    large = os.path.join(OUT, 'large.csv')
    row = b'0,000040.000,000010.000,000000.000\n'
    with open(large, 'wb') as f:
        f.write(HEADINGS)
        for _ in range(260):
            f.write(row * (1000000 // len(row)))
    status, told = on_terminal([STATION_A, large, '1'])
    held('progress of a large file', (b'', told.decode()), (status, COMPLETE), b'', ['run: 256 MB read\n'], told)
    status, told = on_terminal([STATION_A, SAMPLES_A, '20000001'])
    held('progress of a long run', (b'', told.decode()), (status, COMPLETE), b'', ['run: 10', ' of 20000001 seconds worked\n', 'run: 20'], told)
    with open(os.devnull, 'wb') as nothing:
        run('no progress where nobody watches', [STATION_A, large, '10000001'], b'', [], COMPLETE, output=nothing)
    os.unlink(large)


def peak_of(pid):
    """The most memory that a process has needed since it was started, in KB; 0 of one that has just ended."""
    with open('/proc/%d/status' % pid) as f:
        return next((int(line.split()[1]) for line in f if line.startswith('VmHWM:')), 0)


def check_memory():
    """The last look is made while the program still has rows to write, since a pipe holds 64 KB at most."""
    peak = 0
    process = subprocess.Popen([PROGRAM, STATION_A, SAMPLES_A, '2000000'], stdout=subprocess.PIPE)
    while process.stdout.read(1000000):
        peak = max(peak, peak_of(process.pid))
    process.wait(LONGEST)
    if not 0 < peak < MOST_MEMORY:
        fail('memory of 2 million seconds', '%d KB' % peak)
    print('run: memory of 2 million seconds: %d KB' % peak)


os.chdir(ROOT)
for program in (PROGRAM, SMALL):
    if not os.path.exists(program):
        fail(program, 'not built; bin/build run_files test_run_small builds it')
shutil.rmtree(OUT, ignore_errors=True)
os.makedirs(OUT)
check_copies()
check_answers()
check_refusals()
check_arguments()
check_files()
check_hindered_calls()
check_output()
check_changes()
check_progress()
check_memory()
print('run: %d cases passed' % passed)
