/*
 * print_rows ROWS BUFFER FIGURES: reads what a run printed (the file ROWS) into memory, each row as 13 numbers, and then does nothing but
 * print it again on standard output, one printf a row. Writes `PROCESSOR SECONDS` of the printing alone, to the last flush, to the file
 * FIGURES: the processor time that it took and the time that passed. BUFFER is the size of standard output's buffer in bytes, 0 for the
 * C library's own.
 */
#define _DEFAULT_SOURCE
#include <inttypes.h>
#include <stdio.h>
#include <stdlib.h>
#include <string.h>
#include <time.h>

enum { FAILED = 2, ROW_NUMBERS = 13, SET_NUMBERS = 6, MOST_SETS = 8 };

#define ROW_HEADINGS "t,load,shed,solar,charge,spill,give,diesel,unserved,on,sets,call,store\n"
#define SET_HEADINGS "set,run,starts,stops,energy,fuel\n"

/* A row of a run; the store alone can be above 32 bits. */
typedef struct Row {
    uint32_t t, load, shed, solar, charge, spill, give, diesel, unserved, on, sets, call;
    uint64_t store;
} Row;

typedef struct Run {
    Row *rows;
    size_t count;
    uint64_t sets[MOST_SETS][SET_NUMBERS];
    size_t set_count;
} Run;

static void fail(const char *what)
{
    fprintf(stderr, "print_rows: %s\n", what);
    exit(FAILED);
}

/* The whole file, with a NUL after it. */
static char *contents(const char *path)
{
    FILE *file = fopen(path, "rb");
    if (file == NULL || fseek(file, 0, SEEK_END) != 0)
        fail("the rows cannot be opened");
    long size = ftell(file);
    rewind(file);
    char *text = size < 0 ? NULL : malloc((size_t)size + 1);
    if (text == NULL || fread(text, 1, (size_t)size, file) != (size_t)size)
        fail("the rows cannot be read");
    fclose(file);
    text[size] = '\0';
    return text;
}

/* Reads a line of so many numbers; the place after its LF. */
static const char *numbers(const char *at, uint64_t *into, size_t count)
{
    for (size_t number = 0; number < count; number++) {
        char *end;
        into[number] = strtoull(at, &end, 10);
        if (end == at || *end != (number + 1 < count ? ',' : '\n'))
            fail("a line is no row and no set's");
        at = end + 1;
    }
    return at;
}

static const char *heading(const char *at, const char *wanted)
{
    if (strncmp(at, wanted, strlen(wanted)) != 0)
        fail("a heading is missing");
    return at + strlen(wanted);
}

static Row row_of(const uint64_t *n)
{
    return (Row){(uint32_t)n[0], (uint32_t)n[1], (uint32_t)n[2], (uint32_t)n[3], (uint32_t)n[4],  (uint32_t)n[5], (uint32_t)n[6],
                 (uint32_t)n[7], (uint32_t)n[8], (uint32_t)n[9], (uint32_t)n[10], (uint32_t)n[11], n[12]};
}

static Run read_run(const char *path)
{
    char *text = contents(path);
    size_t lines = 0;
    for (const char *at = text; *at != '\0'; at++)
        lines += *at == '\n';
    Run run = {.rows = calloc(lines + 1, sizeof(Row))};
    if (run.rows == NULL)
        fail("no memory for the rows");
    const char *at = heading(text, ROW_HEADINGS);
    while (*at != 's') {
        uint64_t row[ROW_NUMBERS];
        at = numbers(at, row, ROW_NUMBERS);
        run.rows[run.count++] = row_of(row);
    }
    at = heading(at, SET_HEADINGS);
    while (*at != '\0' && run.set_count < MOST_SETS)
        at = numbers(at, run.sets[run.set_count++], SET_NUMBERS);
    free(text);
    return run;
}

static void print_run(const Run *run)
{
    printf(ROW_HEADINGS);
    for (size_t at = 0; at < run->count; at++) {
        const Row *r = &run->rows[at];
        printf("%" PRIu32 ",%" PRIu32 ",%" PRIu32 ",%" PRIu32 ",%" PRIu32 ",%" PRIu32 ",%" PRIu32 ",%" PRIu32 ",%" PRIu32 ",%" PRIu32
               ",%" PRIu32 ",%" PRIu32 ",%" PRIu64 "\n",
               r->t, r->load, r->shed, r->solar, r->charge, r->spill, r->give, r->diesel, r->unserved, r->on, r->sets, r->call, r->store);
    }
    printf(SET_HEADINGS);
    for (size_t at = 0; at < run->set_count; at++) {
        const uint64_t *s = run->sets[at];
        printf("%" PRIu64 ",%" PRIu64 ",%" PRIu64 ",%" PRIu64 ",%" PRIu64 ",%" PRIu64 "\n", s[0], s[1], s[2], s[3], s[4], s[5]);
    }
}

static double seconds_of(clockid_t clock)
{
    struct timespec time;
    clock_gettime(clock, &time);
    return (double)time.tv_sec + (double)time.tv_nsec / 1e9;
}

int main(int count, char **arguments)
{
    if (count != 4)
        fail("usage: print_rows ROWS BUFFER FIGURES");
    Run run = read_run(arguments[1]);
    size_t buffer = (size_t)strtoull(arguments[2], NULL, 10);
    if (buffer > 0 && setvbuf(stdout, NULL, _IOFBF, buffer) != 0)
        fail("no such buffer");
    double processor = seconds_of(CLOCK_PROCESS_CPUTIME_ID), passed = seconds_of(CLOCK_MONOTONIC);
    print_run(&run);
    if (fflush(stdout) != 0)
        fail("standard output cannot be written");
    processor = seconds_of(CLOCK_PROCESS_CPUTIME_ID) - processor;
    passed = seconds_of(CLOCK_MONOTONIC) - passed;
    FILE *figures = fopen(arguments[3], "w");
    if (figures == NULL || fprintf(figures, "%.6f %.6f\n", processor, passed) < 0 || fclose(figures) != 0)
        fail("the figures cannot be written");
    return 0;
}
