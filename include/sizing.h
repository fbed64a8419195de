/*
 * sizing.h: share of power, fuel rate and the checks of a station file and of a sample file, for a sizing screen.
 *
 * A station file describes a power station: its control values, its battery, its 1 to 8 diesel sets and its 1 to 64
 * configurations (which sets may run together). A sample file is a sheet of comma-separated lines: load, solar power and load that
 * may be shed, at seconds that rise. The library works on the bytes of such a file. Read the file into memory and lend those bytes
 * to the calls; every call checks all of them itself, so no call has to come before another.
 *
 * What holds for every call:
 *
 *   Safe for any input.  Any bytes, of any size, and any numbers get an answer. No input stops the program, and nothing outside
 *                        the file's bytes is read. The caller owes one thing: `station` or `samples` points to `size` readable
 *                        bytes. They need no alignment. The pointer may be NULL where `size` is 0.
 *   Nothing written.     The file's bytes are only read, and are not kept: they are the caller's again when the call returns.
 *                        There is no output buffer; the answer is returned by value.
 *   No state.            A call depends on its arguments alone and leaves nothing behind. Several threads may call at the same
 *                        time, on the same bytes too, as long as none of them changes the bytes during a call.
 *
 * Units: power is in whole watts (W), fuel rate in whole millilitres an hour (mL/h).
 *
 * Sets and masks: sets are counted from 1. A mask is a number whose bit 0 is set 1, bit 1 is set 2, up to bit 7 for set 8; so 5
 * names the sets 1 and 3. The capacity of a mask is the ratings of its sets, added up.
 *
 * To link (x86-64 Linux): `bin/build sizing` writes crates/sizing/out/libsizing.a, and then
 *
 *     cc -std=c11 -Iinclude screen.c crates/sizing/out/libsizing.a -o screen
 *
 * with the archive after the files that call it. examples/sizing/sizing_example.c is a whole program.
 */
#ifndef SIZING_H
#define SIZING_H

#include <stddef.h>
#include <stdint.h>

#ifdef __cplusplus
extern "C" {
#endif

/*
 * What every call answers: accepted, with a value, or refused, with a number and a place. 24 bytes, returned by value.
 */
typedef struct SizingAnswer {
    uint64_t number; /* 0: accepted. Else the number of the refusal: 1 to 8, or 11 to 22 (below). */
    uint64_t place;  /* Where the fault is, counted from 1; 0 where the refusal has no place, and where number is 0. */
    uint64_t value;  /* The answer where number is 0: W for a share, mL/h for a fuel rate, 0 for a check. 0 where refused. */
} SizingAnswer;

/*
 * The numbers. A station file is judged in the order 1, 2, 3, 4, 5, then set by set 6 before 7, then 8, and the first fault is the
 * answer; so 7 of set 1 is answered where set 2 has a 6. Offsets below are those of the file's bytes; all its numbers are
 * little-endian.
 *
 * A sample file is judged line by line from the top, and the first fault is the answer. The heading line: 11, 16, then heading by
 * heading 12, 13, 14, then 15. A row: 11, 17, then cell by cell in the file's order 18 before 19, then 20, then 21. Where all lines
 * are in order: 22.
 *
 * A line of a sample file ends at LF or at the end of the file; a last LF starts no further line. One CR just before the LF is
 * dropped; any other CR is part of its heading or cell, one at the end of the file too. An empty line is a line with one cell.
 */
enum {
    /* Accepted: `value` holds the answer. Place 0. */
    SIZING_ACCEPTED = 0,

    /* The size is no station file's: fewer than 165 or more than 676 bytes (none at all, too). Place 0. */
    SIZING_BAD_SIZE = 1,

    /*
     * The table of contents (bytes 0 to 31) is wrong. It has four entries of 8 bytes: kind (2 bytes), count (2), offset (4).
     * They must be: 1, 1, 32 (control); 2, 1, 68 (battery); 3, 1 to 8, 100 (sets, 64 bytes each); 4, 1 to 64, 100 + 64 x the number
     * of sets (configurations, 1 byte each). Place: the first wrong entry, 1 to 4.
     */
    SIZING_BAD_CONTENTS = 2,

    /* The contents are well formed but ask for another size than the file has: it was cut short, or has bytes left over. Place 0. */
    SIZING_SIZE_DIFFERS = 3,

    /*
     * A control value (from byte 32, nine 4-byte numbers) is out of its range: spinning reserve 0 to 50,000,000 W; solar coverage,
     * minimum load and shed each 0 to 100 %; shed delay 1 to 60 s; filter k 0 to 999; minimum seconds 0 to 86,400; maintain 0 or 1;
     * mask of the sets on line at the start, which names sets of the station only. Place 0.
     */
    SIZING_BAD_CONTROL = 4,

    /*
     * A battery value (from byte 68) is out of its range: power 0 to 50,000,000 W and efficiency 1 to 100 % (4 bytes each), then
     * least, most and start content in hundredths of a Ws (8 bytes each), with least <= start <= most <= 10,000,000,000,000.
     * Place 0.
     */
    SIZING_BAD_BATTERY = 5,

    /*
     * A number of a set that stands before its fuel curve is out of its range (the first six 4-byte numbers of the set's 64 bytes;
     * set 1 starts at byte 100): rating 1 to 10,000,000 W; warm-up and cool-down each 1 to 3,600 s; service interval 0 to
     * 100,000,000 s of running (0: never serviced); service time 1 to 2,592,000 s, but 0 where the interval is 0; number of curve
     * points 2 to 5. Place: the set, 1 to 8.
     */
    SIZING_BAD_SET = 6,

    /*
     * A set's fuel curve is wrong (five pairs of 4-byte numbers: load in thousandths of the rating 0 to 1,500, then mL/h 0 to
     * 10,000,000): a value is out of its range, the loads of the used points do not rise from each to the next, or a pair past the
     * used ones is not zero. Place: the set, 1 to 8.
     */
    SIZING_BAD_CURVE = 7,

    /*
     * With a place: that configuration of the file, 1 to 64, is zero or names a set that the station does not have.
     * With place 0 (share and fuel rate only): the file is good, but the call's own mask is zero, names a set that the station does
     * not have or, for the fuel rate, names more than one set.
     */
    SIZING_BAD_MASK = 8,

    /* A line of the sample file has more than 512 bytes without its LF; a CR before the LF counts. Place: the line, from 1. */
    SIZING_LINE_TOO_LONG = 11,

    /* A heading has no byte at all. Place: the line, which is 1. */
    SIZING_HEADING_BLANK = 12,

    /*
     * A heading is none of `t`, `LoadP`, `PvAvailP` and `ShedLoadP`. They are compared byte for byte: case, spaces and quotes matter.
     * Place: the line, which is 1.
     */
    SIZING_HEADING_UNKNOWN = 13,

    /* A heading is given twice; `t` too. Place: the line, which is 1. */
    SIZING_HEADING_TWICE = 14,

    /* One of the four headings is missing. Place: the line, which is 1. */
    SIZING_HEADING_MISSING = 15,

    /*
     * The first heading is not `t`: it is blank, or another, or has a byte order mark before it; or the file is empty. Place: the
     * line, which is 1.
     */
    SIZING_FIRST_HEADING = 16,

    /* A row has more or fewer cells than there are headings; an empty line is such a row. Place: the line. */
    SIZING_CELL_COUNT = 17,

    /*
     * A cell is malformed, or blank. A time has 1 to 9 digits; a power, in kW, has 1 to 6 digits, then nothing or a point and 1 to 3
     * digits. Leading zeros count as digits. Place: the line.
     */
    SIZING_CELL_MALFORMED = 18,

    /*
     * Sample check: a cell is over its limit, a time above 316,223,999 s or a power above 50,000 kW. Place: the line.
     * Share and fuel rate: the power asked for is above the capacity of the mask. Place 0.
     */
    SIZING_POWER_TOO_HIGH = 19,
    SIZING_OVER_LIMIT = 19,

    /* A row's sheddable load is above its load. Place: the line. */
    SIZING_SHEDDABLE_ABOVE_LOAD = 20,

    /* The first row's time is not 0. Place: the line, which is 2. */
    SIZING_FIRST_TIME = 21,

    /* The heading line is in order and no row follows it. Place 0. */
    SIZING_NO_ROW = 22
};

/*
 * Checks the bytes of a station file.
 *
 *   station  the file's bytes, only read; may be NULL where size is 0
 *   size     how many they are; any size
 *
 * Answers number 0 with value 0 for a good file, else the first fault, 1 to 8, with its place (never 8 with place 0).
 */
SizingAnswer sizing_check_station(const uint8_t *station, size_t size);

/*
 * The part of a power that one set takes, when the sets of the mask carry that power together in proportion to their ratings.
 * Shares are whole watts, each within one watt of its exact proportion, and those of a mask's sets add up to the power exactly.
 *
 *   station  the file's bytes, only read; may be NULL where size is 0
 *   size     how many they are; any size
 *   mask     the sets that carry the power
 *   power    the power that they carry together, in W
 *   set      the set asked about, counted from 1
 *
 * Answers the set's watts in value; 0 W for a set that is not in the mask, be it 0 or one that the station does not have.
 * Refused, in this order: as sizing_check_station refuses the file; 8 with place 0 for the mask; 19 for the power.
 */
SizingAnswer sizing_share(const uint8_t *station, size_t size, uint64_t mask, uint64_t power, uint64_t set);

/*
 * The fuel that one set burns in an hour at a power, read from its fuel curve: on the straight line through the two points around
 * the load (past the first or last point the line goes on), never below zero, rounded down.
 *
 *   station  the file's bytes, only read; may be NULL where size is 0
 *   size     how many they are; any size
 *   mask     the one set, as a mask: 1 for set 1, 2 for set 2, 4 for set 3
 *   power    the power that it gives, in W
 *
 * Answers mL/h in value; it may be as great as 15,000,000,000, which takes more than 32 bits.
 * Refused, in this order: as sizing_check_station refuses the file; 8 with place 0 for the mask, which more than one set makes wrong
 * too; 19 for the power.
 */
SizingAnswer sizing_fuel_rate(const uint8_t *station, size_t size, uint64_t mask, uint64_t power);

/*
 * Checks the bytes of a sample file: a heading line and at least one row, whose first time is 0. A row whose time is not above that
 * of the last row that was taken is checked like any other and then left out; it is no fault.
 *
 *   samples  the file's bytes, only read; may be NULL where size is 0
 *   size     how many they are; any size
 *
 * Answers number 0 with value 0 for a good file, else the first fault, 11 to 22, with its line as the place (0 for 22).
 */
SizingAnswer sizing_check_samples(const uint8_t *samples, size_t size);

#ifdef __cplusplus
}
#endif

#endif
