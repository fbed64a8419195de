/* The known answers: what document 01 gives, written down here and not asked of any program when the test runs. */
#ifndef KNOWN_TABLE_H
#define KNOWN_TABLE_H

#include <stddef.h>
#include <stdint.h>

#include "ask.h"

/* The stations that the cases start from; sizing_known.c builds all but the first, which is a file. */
typedef enum Base {
    STATION_A, /* examples/station-a/station: 2 sets of 100,000 and 60,000 W, 3 configurations */
    LEAST,     /* 1 set, 2 points, 1 configuration: 165 bytes */
    THREE,     /* 3 sets, 3 points each, 5 configurations: 297 bytes */
    FULL,      /* 8 sets, 5 points each, 64 configurations: 676 bytes */
    BASES
} Base;

/* A number put into the station's bytes; width 0 puts nothing. */
typedef struct Patch {
    size_t at;
    size_t width;
    uint64_t value;
} Patch;

/* Where the numbers of a station stand; sets, points and configurations count from 1, fields from 0. */
#define ENTRY(entry) (8 * ((size_t)(entry) - 1))
#define CONTROL(field) (32 + 4 * (size_t)(field))
#define BATTERY(offset) (68 + (size_t)(offset))
#define SET(set, field) (100 + 64 * ((size_t)(set) - 1) + 4 * (size_t)(field))
#define LOAD(set, point) SET(set, 6 + 2 * ((point) - 1))
#define RATE(set, point) SET(set, 7 + 2 * ((point) - 1))
#define THREE_CONFIGURATION(configuration) (292 + (size_t)(configuration) - 1)
#define FULL_CONFIGURATION(configuration) (612 + (size_t)(configuration) - 1)
#define MOST UINT64_MAX

/* A station that is refused, by the check and by both other calls alike, or accepted by the check (number 0). */
typedef struct Checked {
    const char *what;
    Base base;
    int longer; /* bytes more, or fewer, than the base has */
    Patch patches[2];
    uint64_t number;
    uint64_t place;
} Checked;

static const Checked checks[] = {
    {"Station A", STATION_A, 0, {{0, 0, 0}}, 0, 0},
    {"the least station, 165 bytes", LEAST, 0, {{0, 0, 0}}, 0, 0},
    {"three sets", THREE, 0, {{0, 0, 0}}, 0, 0},
    {"the largest station, 676 bytes", FULL, 0, {{0, 0, 0}}, 0, 0},
    {"164 bytes", LEAST, -1, {{0, 0, 0}}, 1, 0},
    {"677 bytes", FULL, 1, {{0, 0, 0}}, 1, 0},
    {"no bytes", LEAST, -165, {{0, 0, 0}}, 1, 0},
    {"one byte", LEAST, -164, {{0, 0, 0}}, 1, 0},
    {"100,676 bytes", FULL, 100000, {{0, 0, 0}}, 1, 0},
    {"kind of entry 1", THREE, 0, {{ENTRY(1), 2, 2}}, 2, 1},
    {"kind of entry 2", THREE, 0, {{ENTRY(2), 2, 0}}, 2, 2},
    {"kind of entry 3", THREE, 0, {{ENTRY(3), 2, 259}}, 2, 3},
    {"kind of entry 4", THREE, 0, {{ENTRY(4), 2, 3}}, 2, 4},
    {"count of entry 1 is 0", THREE, 0, {{ENTRY(1) + 2, 2, 0}}, 2, 1},
    {"count of entry 2 is 2", THREE, 0, {{ENTRY(2) + 2, 2, 2}}, 2, 2},
    {"no set", THREE, 0, {{ENTRY(3) + 2, 2, 0}}, 2, 3},
    {"9 sets", FULL, 0, {{ENTRY(3) + 2, 2, 9}}, 2, 3},
    {"259 sets", THREE, 0, {{ENTRY(3) + 2, 2, 259}}, 2, 3},
    {"no configuration", THREE, 0, {{ENTRY(4) + 2, 2, 0}}, 2, 4},
    {"65 configurations", FULL, 0, {{ENTRY(4) + 2, 2, 65}}, 2, 4},
    {"offset of entry 1", THREE, 0, {{ENTRY(1) + 4, 4, 33}}, 2, 1},
    {"offset of entry 2", THREE, 0, {{ENTRY(2) + 4, 4, 67}}, 2, 2},
    {"offset of entry 3 by its last byte", THREE, 0, {{ENTRY(3) + 7, 1, 1}}, 2, 3},
    {"offset of entry 4", THREE, 0, {{ENTRY(4) + 4, 4, 0}}, 2, 4},
    {"a set more in the contents, so that entry 4's offset is wrong", THREE, 0, {{ENTRY(3) + 2, 2, 4}}, 2, 4},
    {"a byte more than the contents", THREE, 1, {{0, 0, 0}}, 3, 0},
    {"a byte fewer than the contents", THREE, -1, {{0, 0, 0}}, 3, 0},
    {"a configuration more in the contents", THREE, 0, {{ENTRY(4) + 2, 2, 6}}, 3, 0},
    {"a control value", THREE, 0, {{CONTROL(1), 4, 101}}, 4, 0},
    {"a battery value", THREE, 0, {{BATTERY(4), 4, 0}}, 5, 0},
    {"a number of set 2", THREE, 0, {{SET(2, 0), 4, 0}}, 6, 2},
    {"one point", THREE, 0, {{SET(3, 5), 4, 1}}, 6, 3},
    {"6 points", FULL, 0, {{SET(8, 5), 4, 6}}, 6, 8},
    {"the pairs of set 3", THREE, 0, {{LOAD(3, 2), 4, 0}}, 7, 3},
    {"a used pair that counts as unused", THREE, 0, {{SET(2, 5), 4, 2}}, 7, 2},
    {"the load of an unused pair", THREE, 0, {{LOAD(2, 4), 4, 1}}, 7, 2},
    {"the rate of the last unused pair", THREE, 0, {{RATE(1, 5), 4, 1}}, 7, 1},
    {"configuration 4 is zero", THREE, 0, {{THREE_CONFIGURATION(4), 1, 0}}, 8, 4},
    {"configuration 5 has a set 4", THREE, 0, {{THREE_CONFIGURATION(5), 1, 9}}, 8, 5},
    {"configuration 64", FULL, 0, {{FULL_CONFIGURATION(64), 1, 0}}, 8, 64},
    {"1 before 2", LEAST, -1, {{ENTRY(1), 2, 9}}, 1, 0},
    {"entry 2 before entry 4", THREE, 0, {{ENTRY(4), 2, 9}, {ENTRY(2), 2, 9}}, 2, 2},
    {"2 before 3", THREE, 1, {{ENTRY(4), 2, 9}}, 2, 4},
    {"3 before 4", THREE, 1, {{CONTROL(1), 4, 101}}, 3, 0},
    {"4 before 5", THREE, 0, {{BATTERY(4), 4, 0}, {CONTROL(8), 4, 8}}, 4, 0},
    {"5 before 6", THREE, 0, {{SET(1, 0), 4, 0}, {BATTERY(4), 4, 0}}, 5, 0},
    {"7 of set 1 before 6 of set 2", THREE, 0, {{SET(2, 0), 4, 0}, {LOAD(1, 2), 4, 0}}, 7, 1},
    {"6 of set 1 before 7 of set 2", THREE, 0, {{LOAD(2, 2), 4, 0}, {SET(1, 0), 4, 0}}, 6, 1},
    {"6 before 7 of one set", THREE, 0, {{LOAD(2, 2), 4, 0}, {SET(2, 0), 4, 0}}, 6, 2},
    {"6 before 8", THREE, 0, {{THREE_CONFIGURATION(1), 1, 0}, {SET(3, 1), 4, 0}}, 6, 3},
    {"7 before 8", THREE, 0, {{THREE_CONFIGURATION(1), 1, 0}, {LOAD(3, 2), 4, 0}}, 7, 3},
    {"configuration 2 before configuration 5", THREE, 0, {{THREE_CONFIGURATION(5), 1, 0}, {THREE_CONFIGURATION(2), 1, 8}}, 8, 2},
};

/* A number of a station and its range: both ends are accepted, and beside them the refusal is given. */
typedef struct Edge {
    const char *what;
    Base base;
    Patch first; /* another number that is put before */
    size_t at;
    size_t width;
    uint64_t least;
    uint64_t greatest;
    uint64_t number;
    uint64_t place;
} Edge;

static const Edge edges[] = {
    {"spinning reserve", THREE, {0, 0, 0}, CONTROL(0), 4, 0, 50000000, 4, 0},
    {"solar coverage", THREE, {0, 0, 0}, CONTROL(1), 4, 0, 100, 4, 0},
    {"minimum load", THREE, {0, 0, 0}, CONTROL(2), 4, 0, 100, 4, 0},
    {"shed", THREE, {0, 0, 0}, CONTROL(3), 4, 0, 100, 4, 0},
    {"shed delay", THREE, {0, 0, 0}, CONTROL(4), 4, 1, 60, 4, 0},
    {"filter k", THREE, {0, 0, 0}, CONTROL(5), 4, 0, 999, 4, 0},
    {"minimum seconds", THREE, {0, 0, 0}, CONTROL(6), 4, 0, 86400, 4, 0},
    {"maintain", THREE, {0, 0, 0}, CONTROL(7), 4, 0, 1, 4, 0},
    {"sets on line at the start, of 3", THREE, {0, 0, 0}, CONTROL(8), 4, 0, 7, 4, 0},
    {"sets on line at the start, of 8", FULL, {0, 0, 0}, CONTROL(8), 4, 0, 255, 4, 0},
    {"battery power", THREE, {0, 0, 0}, BATTERY(0), 4, 0, 50000000, 5, 0},
    {"efficiency", THREE, {0, 0, 0}, BATTERY(4), 4, 1, 100, 5, 0},
    {"least content", THREE, {0, 0, 0}, BATTERY(8), 8, 0, 1000000, 5, 0},
    {"most content", THREE, {0, 0, 0}, BATTERY(16), 8, 1000000, 10000000000000, 5, 0},
    {"start content", THREE, {0, 0, 0}, BATTERY(24), 8, 1000, 9000000, 5, 0},
    {"rating", THREE, {0, 0, 0}, SET(2, 0), 4, 1, 10000000, 6, 2},
    {"warm-up", THREE, {0, 0, 0}, SET(3, 1), 4, 1, 3600, 6, 3},
    {"cool-down", FULL, {0, 0, 0}, SET(8, 2), 4, 1, 3600, 6, 8},
    {"service interval beside a service time", THREE, {SET(2, 4), 4, 5}, SET(2, 3), 4, 1, 100000000, 6, 2},
    {"service interval beside no service time", THREE, {0, 0, 0}, SET(2, 3), 4, 0, 0, 6, 2},
    {"service time beside an interval", THREE, {SET(2, 3), 4, 5}, SET(2, 4), 4, 1, 2592000, 6, 2},
    {"service time beside no interval", THREE, {0, 0, 0}, SET(2, 4), 4, 0, 0, 6, 2},
    {"load of the first point", FULL, {0, 0, 0}, LOAD(7, 1), 4, 0, 249, 7, 7},
    {"load of a point between", FULL, {0, 0, 0}, LOAD(6, 3), 4, 251, 749, 7, 6},
    {"load of the last of 5 points", FULL, {0, 0, 0}, LOAD(5, 5), 4, 751, 1500, 7, 5},
    {"load of the last of 3 points", THREE, {0, 0, 0}, LOAD(3, 3), 4, 251, 1500, 7, 3},
    {"mL/h of the first point", THREE, {0, 0, 0}, RATE(2, 1), 4, 0, 10000000, 7, 2},
    {"mL/h of the last point", FULL, {0, 0, 0}, RATE(4, 5), 4, 0, 10000000, 7, 4},
    {"configuration of 1 set", LEAST, {0, 0, 0}, 164, 1, 1, 1, 8, 1},
    {"configuration of 3 sets", THREE, {0, 0, 0}, THREE_CONFIGURATION(3), 1, 1, 7, 8, 3},
};

/* What the share or the fuel rate of a good station answers. */
typedef enum Call { SHARE, FUEL_RATE } Call;

typedef struct Asked {
    const char *what;
    Base base;
    Patch patches[4];
    Call call;
    Query query;
    SizingAnswer answer;
} Asked;

/* Two pairs at loads 1499 and 1500 of the one set, where a line is as steep as it can be. */
#define STEEP(first_rate, second_rate) \
    {{LOAD(1, 1), 4, 1499}, {RATE(1, 1), 4, first_rate}, {LOAD(1, 2), 4, 1500}, {RATE(1, 2), 4, second_rate}}

static const Asked questions[] = {
    {"P2, set 1", STATION_A, {{0, 0, 0}}, SHARE, {3, 25000, 1}, {0, 0, 15625}},
    {"P2, set 2", STATION_A, {{0, 0, 0}}, SHARE, {3, 25000, 2}, {0, 0, 9375}},
    {"P3, set 1", THREE, {{0, 0, 0}}, SHARE, {7, 1, 1}, {0, 0, 0}},
    {"P3, set 2", THREE, {{0, 0, 0}}, SHARE, {7, 1, 2}, {0, 0, 0}},
    {"P3, set 3", THREE, {{0, 0, 0}}, SHARE, {7, 1, 3}, {0, 0, 1}},
    {"P4", STATION_A, {{0, 0, 0}}, FUEL_RATE, {1, 15625, 0}, {0, 0, 5906}},
    {"P5", LEAST, {{LOAD(1, 1), 4, 500}, {RATE(1, 1), 4, 0}, {LOAD(1, 2), 4, 1000}, {RATE(1, 2), 4, 10000}}, FUEL_RATE, {1, 0, 0}, {0, 0, 0}},
    {"at a point itself", THREE, {{0, 0, 0}}, FUEL_RATE, {4, 2500, 0}, {0, 0, 2000}},
    {"the greatest fuel rate", LEAST, STEEP(10000000, 0), FUEL_RATE, {1, 0, 0}, {0, 0, 15000000000}},
    {"a steep curve far below its first point", LEAST, STEEP(0, 10000000), FUEL_RATE, {1, 10000, 0}, {0, 0, 0}},
    {"two sets of three", THREE, {{0, 0, 0}}, SHARE, {5, 3, 3}, {0, 0, 2}},
    {"a set between that is not in the mask", THREE, {{0, 0, 0}}, SHARE, {5, 3, 2}, {0, 0, 0}},
    {"all of 8 sets", FULL, {{0, 0, 0}}, SHARE, {255, 80000, 8}, {0, 0, 10000}},
    {"set 0", STATION_A, {{0, 0, 0}}, SHARE, {3, 25000, 0}, {0, 0, 0}},
    {"set 3 of 2", STATION_A, {{0, 0, 0}}, SHARE, {3, 25000, 3}, {0, 0, 0}},
    {"set 9", STATION_A, {{0, 0, 0}}, SHARE, {3, 25000, 9}, {0, 0, 0}},
    {"set 65, whose low 6 bits are set 1's", STATION_A, {{0, 0, 0}}, SHARE, {3, 25000, 65}, {0, 0, 0}},
    {"set 257, whose low byte is set 1's", STATION_A, {{0, 0, 0}}, SHARE, {3, 25000, 257}, {0, 0, 0}},
    {"set 2^32 + 1", STATION_A, {{0, 0, 0}}, SHARE, {3, 25000, 4294967297}, {0, 0, 0}},
    {"set 2^64 - 1", STATION_A, {{0, 0, 0}}, SHARE, {3, 25000, MOST}, {0, 0, 0}},
    {"mask 0", STATION_A, {{0, 0, 0}}, SHARE, {0, 0, 1}, {8, 0, 0}},
    {"mask 0, fuel rate", STATION_A, {{0, 0, 0}}, FUEL_RATE, {0, 0, 0}, {8, 0, 0}},
    {"a mask with set 3 of 2", STATION_A, {{0, 0, 0}}, SHARE, {5, 0, 1}, {8, 0, 0}},
    {"a mask with set 3 of 2, fuel rate", STATION_A, {{0, 0, 0}}, FUEL_RATE, {4, 0, 0}, {8, 0, 0}},
    {"a mask with bit 8", FULL, {{0, 0, 0}}, SHARE, {257, 0, 1}, {8, 0, 0}},
    {"a mask with bit 8, fuel rate", FULL, {{0, 0, 0}}, FUEL_RATE, {256, 0, 0}, {8, 0, 0}},
    {"a mask with bit 32", FULL, {{0, 0, 0}}, SHARE, {4294967297, 0, 1}, {8, 0, 0}},
    {"a mask with bit 63", FULL, {{0, 0, 0}}, SHARE, {UINT64_C(1) << 63 | 1, 0, 1}, {8, 0, 0}},
    {"a mask of bit 63, fuel rate", FULL, {{0, 0, 0}}, FUEL_RATE, {UINT64_C(1) << 63, 0, 0}, {8, 0, 0}},
    {"mask 2^64 - 1", FULL, {{0, 0, 0}}, SHARE, {MOST, 0, 1}, {8, 0, 0}},
    {"two sets for the fuel rate", STATION_A, {{0, 0, 0}}, FUEL_RATE, {3, 0, 0}, {8, 0, 0}},
    {"8 before 19", STATION_A, {{0, 0, 0}}, SHARE, {4, MOST, 1}, {8, 0, 0}},
    {"8 before 19, fuel rate", STATION_A, {{0, 0, 0}}, FUEL_RATE, {3, MOST, 0}, {8, 0, 0}},
    {"power at capacity", STATION_A, {{0, 0, 0}}, SHARE, {3, 160000, 2}, {0, 0, 60000}},
    {"power above capacity", STATION_A, {{0, 0, 0}}, SHARE, {3, 160001, 2}, {19, 0, 0}},
    {"power above capacity, of a set not in the mask", STATION_A, {{0, 0, 0}}, SHARE, {1, 100001, 2}, {19, 0, 0}},
    {"power above capacity, of set 0", STATION_A, {{0, 0, 0}}, SHARE, {1, 100001, 0}, {19, 0, 0}},
    {"mask 0, of set 0", STATION_A, {{0, 0, 0}}, SHARE, {0, 0, 0}, {8, 0, 0}},
    {"power at capacity, fuel rate", STATION_A, {{0, 0, 0}}, FUEL_RATE, {2, 60000, 0}, {0, 0, 16500}},
    {"power above capacity, fuel rate", STATION_A, {{0, 0, 0}}, FUEL_RATE, {2, 60001, 0}, {19, 0, 0}},
    {"power 2^32", STATION_A, {{0, 0, 0}}, SHARE, {3, 4294967296, 1}, {19, 0, 0}},
    {"power 2^64 - 1", STATION_A, {{0, 0, 0}}, SHARE, {3, MOST, 1}, {19, 0, 0}},
    {"power 2^64 - 1, fuel rate", STATION_A, {{0, 0, 0}}, FUEL_RATE, {1, MOST, 0}, {19, 0, 0}},
};

#endif
