/*
 * sizing_known STATION-A: holds the library's answers against the tables of known ones (known_table.h, known_samples.h), each on a
 * file beside pages that may not be touched. Prints how many answers hold, or the first that does not and exit status 1.
 */
#include <inttypes.h>
#include <stdio.h>
#include <stdlib.h>
#include <string.h>

#include "ask.h"
#include "guarded.h"
#include "known_samples.h"
#include "known_table.h"

enum { WRONG = 1, NOT_READ = 2, LARGEST = 676, LONGEST = LARGEST + 100000, LONGEST_SHEET = 4000000 };

#define COUNT(table) (sizeof(table) / sizeof(table)[0])

_Static_assert(sizeof(SizingAnswer) == 24, "an answer has three numbers of 64 bits");

/* A station's bytes, with room for those past its end that a case asks for. */
typedef struct Station {
    size_t size;
    uint8_t bytes[LONGEST];
} Station;

/* A sample file's bytes while it is put together. */
typedef struct SampleFile {
    size_t size;
    uint8_t bytes[LONGEST_SHEET];
} SampleFile;

static Station bases[BASES];
static SampleFile sample_file;
static unsigned long held = 0;

/* Puts a little-endian number. */
static void put(Station *station, Patch patch)
{
    for (size_t index = 0; index < patch.width; index++) {
        station->bytes[patch.at + index] = (uint8_t)(patch.value >> 8 * index);
    }
}

static void put_row(Station *station, size_t at, size_t width, size_t count, const uint64_t *values)
{
    for (size_t index = 0; index < count; index++) {
        put(station, (Patch){at + width * index, width, values[index]});
    }
}

/* A good station of sets of 10,000 W each, with points at loads 0, 250, 500, .. and 1,000, 2,000, 3,000, .. mL/h. */
static void build(Station *station, uint64_t sets, uint64_t configurations, uint64_t points)
{
    const uint64_t offsets[4] = {32, 68, 100, 100 + 64 * sets};
    const uint64_t counts[4] = {1, 1, sets, configurations};
    for (size_t entry = 0; entry < 4; entry++) {
        put(station, (Patch){8 * entry, 2, entry + 1});
        put(station, (Patch){8 * entry + 2, 2, counts[entry]});
        put(station, (Patch){8 * entry + 4, 4, offsets[entry]});
    }
    put_row(station, CONTROL(0), 4, 9, (const uint64_t[]){10000, 50, 40, 90, 1, 0, 3, 0, 1});
    put_row(station, BATTERY(0), 4, 2, (const uint64_t[]){20000, 90});
    put_row(station, BATTERY(8), 8, 3, (const uint64_t[]){1000, 9000000, 1000000});
    for (uint64_t set = 1; set <= sets; set++) {
        put_row(station, SET(set, 0), 4, 6, (const uint64_t[]){10000, 2, 1, 0, 0, points});
        for (uint64_t point = 1; point <= points; point++) {
            put_row(station, LOAD(set, point), 4, 2, (const uint64_t[]){250 * (point - 1), 1000 * point});
        }
    }
    station->size = (size_t)(offsets[3] + configurations);
    memset(station->bytes + offsets[3], 1, (size_t)configurations);
}

static bool read_station(Station *station, const char *name)
{
    FILE *file = fopen(name, "rb");
    if (file == NULL) {
        perror(name);
        return false;
    }
    station->size = fread(station->bytes, 1, LARGEST + 1, file);
    bool whole = ferror(file) == 0 && station->size <= LARGEST;
    fclose(file);
    if (!whole) {
        fprintf(stderr, "%s: not read, or too long for a station\n", name);
    }
    return whole;
}

/* Ends the program at the first answer that is not the known one. */
static void hold(const char *what, const char *call, SizingAnswer got, SizingAnswer known)
{
    if (got.number == known.number && got.place == known.place && got.value == known.value) {
        held++;
        return;
    }
    printf("%s: sizing_%s answers number %" PRIu64 ", place %" PRIu64 ", value %" PRIu64 " and not %" PRIu64 ", %" PRIu64 ", %" PRIu64 "\n",
           what, call, got.number, got.place, got.value, known.number, known.place, known.value);
    exit(WRONG);
}

/* The library's answers, which are to be the same whichever side of the station is guarded. */
static Answers ask(const char *what, const Station *station, Query query)
{
    Answers answers;
    if (!ask_station(what, station->bytes, station->size, query, &answers)) {
        exit(WRONG);
    }
    return answers;
}

/* The check's answer; the other two calls give a station's refusal first, whatever else is wrong, and else that of mask 0. */
static void hold_check(const char *what, const Station *station, uint64_t number, uint64_t place)
{
    SizingAnswer check = {number, place, 0};
    SizingAnswer call = number == 0 ? (SizingAnswer){SIZING_BAD_MASK, 0, 0} : check;
    Answers answers = ask(what, station, (Query){0, MOST, 0});
    hold(what, "check_station", answers.check, check);
    hold(what, "share", answers.share, call);
    hold(what, "fuel_rate", answers.rate, call);
}

static void hold_checks(void)
{
    static Station station;
    for (size_t index = 0; index < COUNT(checks); index++) {
        const Checked *row = &checks[index];
        station = bases[row->base];
        station.size = (size_t)((long)station.size + row->longer);
        for (size_t patch = 0; patch < COUNT(row->patches); patch++) {
            put(&station, row->patches[patch]);
        }
        hold_check(row->what, &station, row->number, row->place);
    }
}

/* One value of an edge's number: accepted, or refused as the edge says. */
static void hold_value(const Edge *edge, uint64_t value, bool accepted)
{
    static Station station;
    char what[128];
    snprintf(what, sizeof what, "%s of %" PRIu64, edge->what, value);
    station = bases[edge->base];
    put(&station, edge->first);
    put(&station, (Patch){edge->at, edge->width, value});
    hold_check(what, &station, accepted ? 0 : edge->number, accepted ? 0 : edge->place);
}

static void hold_edges(void)
{
    for (size_t index = 0; index < COUNT(edges); index++) {
        const Edge *edge = &edges[index];
        hold_value(edge, edge->least, true);
        hold_value(edge, edge->greatest, true);
        hold_value(edge, edge->greatest + 1, false);
        hold_value(edge, MOST >> (64 - 8 * edge->width), false);
        if (edge->least > 0) {
            hold_value(edge, edge->least - 1, false);
        }
    }
}

static void hold_questions(void)
{
    static Station station;
    for (size_t index = 0; index < COUNT(questions); index++) {
        const Asked *row = &questions[index];
        station = bases[row->base];
        for (size_t patch = 0; patch < COUNT(row->patches); patch++) {
            put(&station, row->patches[patch]);
        }
        Answers answers = ask(row->what, &station, row->query);
        hold(row->what, "check_station", answers.check, (SizingAnswer){0, 0, 0});
        if (row->call == SHARE) {
            hold(row->what, "share", answers.share, row->answer);
        } else {
            hold(row->what, "fuel_rate", answers.rate, row->answer);
        }
    }
}

/* Puts bytes at the end of the sample file. */
static void add(Bytes more)
{
    if (more.size > LONGEST_SHEET - sample_file.size) {
        fprintf(stderr, "sizing_known: a sample file of the table is longer than there is room for\n");
        exit(NOT_READ);
    }
    memcpy(sample_file.bytes + sample_file.size, more.text, more.size);
    sample_file.size += more.size;
}

/* The check's answer for the sample file that was put together. */
static void hold_sample_file(const char *what, uint64_t number, uint64_t place)
{
    SizingAnswer answer;
    if (!ask_samples(what, sample_file.bytes, sample_file.size, &answer)) {
        exit(WRONG);
    }
    hold(what, "check_samples", answer, (SizingAnswer){number, place, 0});
}

static void hold_sheets(void)
{
    for (size_t index = 0; index < COUNT(sheets); index++) {
        sample_file.size = 0;
        add(sheets[index].file);
        hold_sample_file(sheets[index].what, sheets[index].number, sheets[index].place);
    }
    for (size_t index = 0; index < COUNT(long_sheets); index++) {
        const LongSheet *row = &long_sheets[index];
        sample_file.size = 0;
        add(row->before);
        for (size_t time = 0; time < row->times; time++) {
            add(row->repeated);
        }
        add(row->after);
        hold_sample_file(row->what, row->number, row->place);
    }
}

/* One cell in one spot of a sheet. */
static void hold_cell(const Spot *spot, const KnownCell *known)
{
    char what[128];
    snprintf(what, sizeof what, "%s, the cell `%s`", spot->what, known->cell.text);
    sample_file.size = 0;
    add(spot->before);
    add(known->cell);
    add(spot->after);
    hold_sample_file(what, known->number, known->number == 0 ? 0 : spot->line);
}

static void hold_cells(void)
{
    for (size_t spot = 0; spot < COUNT(power_spots); spot++) {
        for (size_t cell = 0; cell < COUNT(powers); cell++) {
            /* At the end of a line one CR before the LF is no part of the cell: the sheets have those cases. */
            bool ends_in_cr = powers[cell].cell.size != 0 && powers[cell].cell.text[powers[cell].cell.size - 1] == '\r';
            if (!ends_in_cr || power_spots[spot].after.size == 0 || power_spots[spot].after.text[0] != '\n') {
                hold_cell(&power_spots[spot], &powers[cell]);
            }
        }
    }
    for (size_t spot = 0; spot < COUNT(time_spots); spot++) {
        for (size_t cell = 0; cell < COUNT(times); cell++) {
            if (spot != 0 || times[cell].number != 0) {
                hold_cell(&time_spots[spot], &times[cell]);
            }
        }
    }
}

int main(int count, char **arguments)
{
    if (count != 2) {
        fprintf(stderr, "usage: sizing_known STATION-A   (the file examples/station-a/station)\n");
        return NOT_READ;
    }
    if (!read_station(&bases[STATION_A], arguments[1])) {
        return NOT_READ;
    }
    build(&bases[LEAST], 1, 1, 2);
    build(&bases[THREE], 3, 5, 3);
    build(&bases[FULL], 8, 64, 5);
    guarded_start();
    hold_checks();
    hold_edges();
    hold_questions();
    unsigned long of_stations = held;
    hold_sheets();
    hold_cells();
    guarded_end();
    printf("%lu known answers hold, %lu of them of sample files\n", held, held - of_stations);
    return EXIT_SUCCESS;
}
