"""Cases of the generator, of several seeds at once: the fixed one, whose cases never change, and one that each commit has anew."""
from c_drivers import fail, must

FURTHER = 2  # of a further seed one case for so many of the first


def generated(generate, kind, seeds, count):
    """COUNT cases of the first seed and half as many of each further one, each with the command that shows it alone."""
    found = []
    for place, seed in enumerate(seeds.split(',')):
        wanted = count if place == 0 else count // FURTHER
        lines = must([generate, kind, seed, str(wanted)]).decode().splitlines()
        if len(lines) != wanted:
            fail('%s %s %s gives %d cases, of %d asked for' % (generate, kind, seed, len(lines), wanted))
        found += [('%s %s %s %d | tail -1' % (generate, kind, seed, number), line) for number, line in enumerate(lines, 1)]
    return found
