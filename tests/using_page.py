#!/usr/bin/env python3
"""using_page.py RUN

Holds docs/USING.md to what it says: its Python program is run, its sheet saved, and the run program RUN (a command, of several words if
need be) must print for them the lines that the page shows, with `...` for rows that are left out, and refuse nothing. Each refusal
number of document 01 has its line in the page's table. The files are written to build/using-page.
"""
import os, re, shlex, subprocess, sys

ROOT = os.path.dirname(os.path.dirname(os.path.abspath(__file__)))
PAGE = os.path.join(ROOT, 'docs', 'USING.md')
OUT = os.path.join(ROOT, 'build', 'using-page')
NUMBERS = list(range(1, 9)) + list(range(11, 27))
LONGEST = 60  # seconds


def fail(message):
    print('using: %s' % message)
    sys.exit(1)


def block(page, language):
    """The one block of the page in a language."""
    found = re.findall(r'^```%s\n(.*?)^```$' % language, page, re.M | re.S)
    if len(found) != 1:
        fail('%d blocks of %s, and not one' % (len(found), language))
    return found[0]


def run(command):
    got = subprocess.run(command, cwd=OUT, stdout=subprocess.PIPE, timeout=LONGEST)
    if got.returncode != 0:
        fail('%s ended with status %d' % (command[0], got.returncode))
    return got.stdout.decode()


def hold_lines(shown, printed):
    """The page's lines are those of the run, where `...` stands for any further ones."""
    pattern = '(?:.*\n)+?'.join(map(re.escape, shown.split('...\n')))
    if not re.fullmatch(pattern, printed):
        fail('the run prints other lines than the page shows:\n%s' % printed)


def main():
    if len(sys.argv) != 2:
        sys.exit(__doc__)
    words = shlex.split(sys.argv[1])
    command = [os.path.abspath(words[0])] + words[1:]
    with open(PAGE, encoding='utf-8') as f:
        page = f.read()
    os.makedirs(OUT, exist_ok=True)
    for name, language in [('make_station.py', 'python'), ('samples.csv', 'csv')]:
        with open(os.path.join(OUT, name), 'w') as f:
            f.write(block(page, language))
    run([sys.executable, 'make_station.py'])
    asked = re.search(r'`bin/run station samples.csv ([0-9]+)`', page)
    if not asked:
        fail('the page does not say how its run is called')
    hold_lines(block(page, 'text'), run(command + ['station', 'samples.csv', asked.group(1)]))
    table = page[page.index('\n## Refusals\n'):page.index('\n## Limits\n')]
    numbers = {int(number) for number in re.findall(r'^\| ([0-9]+) \|', table, re.M)}
    if numbers != set(NUMBERS):
        fail('the table of refusals has %s' % sorted(numbers ^ set(NUMBERS)))
    print('using: the page\'s program, sheet and rows are right, and its table has the %d refusals' % len(NUMBERS))


main()
