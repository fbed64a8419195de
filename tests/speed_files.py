"""The files of the runs that bench/second and bench/run measure and compare_seconds_run.py and compare_runs.py compare.

For bench/second: two stations, and the sheet of the inputs that crates/measure_seconds/out/measure_seconds works with. The formulas are those of
crates/measure_seconds/src/inputs.rt, which follow from the second's number. For bench/run: a station of four sets, and sheets of its days
with a row a second and with a row an hour."""
import os, struct

STATION_A = os.path.join('examples', 'station-a', 'station')
HEADINGS = 't,LoadP,PvAvailP,ShedLoadP\n'


def scattered(number):
    return (number % 65536 * 25173 + 13849) % 65536


def wave(at, period):
    return at if at < period // 2 else period - at


def load_of(second):
    return 4000 + 100 * wave(second % 3600, 3600) + scattered(second) % 9973


def solar_of(second):
    return 30 * wave(second % 5400, 5400) * (scattered(second // 8) % 101) // 100


def sheddable_of(second):
    return load_of(second) * (scattered(second // 16) % 31) // 100


def kilowatts(watts):
    """A power as a cell has it, to the watt."""
    return '%d.%03d' % divmod(watts, 1000)


def row(second, powers):
    """A row of the sheet; the powers are load, solar offered and sheddable load in W."""
    return '%d,%s,%s,%s\n' % ((second,) + tuple(map(kilowatts, powers)))


def sheet(seconds):
    """The sample file with a row for each second."""
    return HEADINGS + ''.join(row(second, (load_of(second), solar_of(second), sheddable_of(second))) for second in range(seconds))


# ---- the largest station: 8 sets with 5 points each, and 64 configurations

CONTROL = [10000, 50, 30, 90, 30, 900, 60, 1, 0x0f]
BATTERY = (20000, 90, 1000000, 900000000, 100000000)
RATINGS = [8000, 12000, 16000, 20000, 24000, 28000, 32000, 36000]
# thousandths of the rating, and mL/h there for a set of 10 kW; the first step goes down
POINTS = [(0, 1200), (100, 1100), (250, 1500), (600, 2300), (1000, 3400)]


def curve(rating):
    """The five points of a set's fuel curve, as its station file has them."""
    return [number for load, rate in POINTS for number in (load, rate * rating // 10000)]


def genset(place, rating):
    """A set's sixteen numbers; every second set has a service, which it meets some times in a day."""
    interval, service = (9000 + 1000 * place, 600) if place % 2 else (0, 0)
    return [rating, 3 + 2 * place, 10 + 5 * place, interval, service, len(POINTS)] + curve(rating)


def rated(mask):
    return sum(rating for place, rating in enumerate(RATINGS) if mask >> place & 1)


def masks():
    """64 of the 255 masks, every fourth by their capacity, the smallest first: the first that covers is then the tightest."""
    return sorted(range(1, 256), key=lambda mask: (rated(mask), mask))[2::4][-64:]


def station_bytes(control, battery, sets, configurations):
    contents = [(1, 1, 32), (2, 1, 68), (3, len(sets), 100), (4, len(configurations), 100 + 64 * len(sets))]
    return (b''.join(struct.pack('<HHI', *entry) for entry in contents) + struct.pack('<9I', *control) + struct.pack('<IIQQQ', *battery)
            + b''.join(struct.pack('<16I', *numbers) for numbers in sets) + bytes(configurations))


def largest_station():
    return station_bytes(CONTROL, BATTERY, [genset(place, rating) for place, rating in enumerate(RATINGS)], masks())


def stations(folder):
    """Each station's name and path; the largest one is written into the folder."""
    largest = os.path.join(folder, 'largest-station')
    with open(largest, 'wb') as f:
        f.write(largest_station())
    return [('Station A (2 sets, 3 configurations)', STATION_A), ('8 sets, 64 configurations', largest)]


def write_sheet(folder, seconds):
    """The sheet's path, written into the folder."""
    path = os.path.join(folder, 'samples-%d.csv' % seconds)
    with open(path, 'w') as f:
        f.write(sheet(seconds))
    return path


# ---- a station of four sets, and its days

FOUR_RATINGS = [60000, 80000, 100000, 120000]
FOUR_CONTROL = [15000, 25, 30, 95, 10, 950, 300, 0, 0b0011]
FOUR_BATTERY = (50000, 92, 2000000000, 36000000000, 18000000000)  # 50 kW, 5.6 to 100 kWh, half full
FOUR_SERVICE = (250 * 3600, 4 * 3600)  # after 250 h of running, for 4 h
# Each pair, each three and all, by their ratings, and at last the larger two alone, for when the others are in service.
FOUR_MASKS = [0b0011, 0b0101, 0b0110, 0b1001, 0b1010, 0b1100, 0b0111, 0b1011, 0b1101, 0b1110, 0b1111, 0b1000, 0b0100]
DAY, HOUR = 86400, 3600


def four_sets():
    """Two to four sets run as the load goes; each has a curve of five points, and a service."""
    sets = [[rating, 20 + 10 * place, 60 + 30 * place, FOUR_SERVICE[0] + 20 * HOUR * place, FOUR_SERVICE[1], len(POINTS)] + curve(rating)
            for place, rating in enumerate(FOUR_RATINGS)]
    return station_bytes(FOUR_CONTROL, FOUR_BATTERY, sets, FOUR_MASKS)


def day_powers(second):
    """A village's load, highest at eight in the evening, its solar by day behind clouds that change each minute, and what may be shed."""
    load = 60000 + 6 * wave((second - 8 * HOUR) % DAY, DAY) + scattered(second) % 9973
    solar = 12 * max(0, wave(second % DAY, DAY) - DAY // 4) * (40 + scattered(second // 60) % 61) // 100
    return load, solar, load * (scattered(second // 16) % 21) // 100


def days_sheet(seconds, step):
    """The sample file of the village's days, with a row for each `step` seconds."""
    return HEADINGS + ''.join(row(second, day_powers(second)) for second in range(0, seconds, step))
