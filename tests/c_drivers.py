"""What the tests of the C libraries share: programs that must succeed, and how the C drivers are built."""
import os, subprocess, sys

CC = os.environ.get('CC', 'cc')
WARNINGS = ['-Wall', '-Wextra', '-Wconversion', '-pedantic', '-Werror']
C11 = [CC, '-std=c11', '-O1', '-g', '-Iinclude'] + WARNINGS
SANITIZERS = ['-fsanitize=address,undefined', '-fno-sanitize-recover=all']
LONGEST = 300  # seconds for one program; a call that never ends is a fault too
NAME = os.path.splitext(os.path.basename(sys.argv[0]))[0].replace('compare_', '')


def fail(message):
    print('%s: %s' % (NAME, message))
    sys.exit(1)


def run(command, **more):
    try:
        return subprocess.run(command, stdout=subprocess.PIPE, stderr=subprocess.PIPE, timeout=LONGEST, **more)
    except subprocess.TimeoutExpired:
        fail('%s does not end' % command[0])


def must(command, **more):
    """What a program prints; one that fails ends the test with all that it said."""
    got = run(command, **more)
    if got.returncode != 0:
        said = (got.stdout[-1000:] + got.stderr[-3000:]).decode(errors='replace').strip()
        fail('%s failed with status %d\n%s' % (os.path.basename(command[0]), got.returncode, said))
    return got.stdout


def sanitizers(folder):
    """The flags of the sanitizers, where a program built with them compiles and runs here."""
    probe = os.path.join(folder, 'probe')
    with open(probe + '.c', 'w') as f:
        f.write('int main(void) { return 0; }\n')
    built = run(C11 + SANITIZERS + [probe + '.c', '-o', probe]).returncode == 0
    if built and run([probe]).returncode == 0:
        return SANITIZERS
    print('%s: %s cannot use %s here; the drivers are built without' % (NAME, CC, SANITIZERS[0]))
    return []
