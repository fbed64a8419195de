/*
 * chunked_cases ROWS BYTES SIZE..: feeds sample files to the streamed reader in chunks of each size.
 *
 * Cases are on standard input, one a line, the file in hex, as the reference's `batch sheets` reads them (reference/README.md). Each
 * is answered by one line for each size, in the order of the sizes.
 * `accepted N LAST` has how many rows were taken and the time of the last. Where the file has at most ROWS rows, and rows times its
 * bytes are at most BYTES, all its rows follow as `t:load:solar:sheddable`, each pulled out of the chunks by itself, from the file's
 * beginning.
 * `refused,n,p` is all where the file has more than BYTES bytes. Else rows are pulled one after the other up to the first that is not
 * found, at most ROWS + 1 of them, and so many that pulls times the file's bytes are at most BYTES. Where one was not found, ` N`
 * follows with how many were, else ` many`; then the rows that were.
 * The file is lent read-only before a page that may not be touched. It is then lent once more after such a page, and asked about at
 * one of the sizes, which the cases take in turn. Exit status 1 where that is answered otherwise or a call touches what it may not.
 */
#define _DEFAULT_SOURCE
#include <inttypes.h>
#include <stdbool.h>
#include <stdint.h>
#include <stdio.h>
#include <stdlib.h>
#include <string.h>

#include "case_text.h"
#include "chunked.h"
#include "guarded.h"

enum { MOST_SIZES = 512, MOST_PULLS = 64 };

_Static_assert(sizeof(ChunkedAnswer) == 32, "the check's answer has four numbers of 64 bits");
_Static_assert(sizeof(ChunkedRow) == 40, "a row has five numbers of 64 bits");

/* The arguments. */
static uint64_t most_rows = 0;
static uint64_t most_bytes = 0;
static uint64_t sizes[MOST_SIZES];
static size_t size_count = 0;

/* A file that is lent, and one of the sizes. */
typedef struct Fed {
    const char *name;
    Side side;
    const uint8_t *samples;
    size_t length;
    uint64_t size;
} Fed;

static void note(const Fed *fed, const char *call)
{
    char name[128];
    snprintf(name, sizeof name, "%s, chunks of %" PRIu64, fed->name, fed->size);
    guarded_note(name, fed->side, call);
}

/* Whether a row is what the header promises: one that was found, or zeros alone. */
static bool as_promised(const ChunkedRow *row)
{
    return row->found == 1 || (row->found | row->at | row->load | row->solar | row->sheddable) == 0;
}

static void write_row(FILE *out, const ChunkedRow *row)
{
    fprintf(out, " %" PRIu64 ":%" PRIu64 ":%" PRIu64 ":%" PRIu64, row->at, row->load, row->solar, row->sheddable);
}

/* What breaks the header's promises is written as what it is, so that the comparison finds it. */
static void write_broken(FILE *out, uint64_t index, const ChunkedRow *row)
{
    fprintf(out, " broken:%" PRIu64 ":%" PRIu64, index, row->found);
}

/* Writes every row of an accepted file. */
static void write_rows(FILE *out, const Fed *fed, uint64_t rows)
{
    note(fed, "chunked_rows");
    for (uint64_t index = 0; index <= rows; index++) {
        ChunkedRow row = chunked_rows(fed->samples, fed->length, fed->size, index);
        bool past = index == rows;
        if (!as_promised(&row) || (row.found == 1) == past) {
            write_broken(out, index, &row);
        }
        if (!past) {
            write_row(out, &row);
        }
    }
}

/* How many rows of a refused file are pulled at most. */
static uint64_t most_pulls(size_t length)
{
    uint64_t allowed = length == 0 ? UINT64_MAX : most_bytes / length;
    return allowed <= most_rows ? allowed : most_rows + 1;
}

/* Writes how many rows a refused file has before the refused line, and those that were pulled. */
static void write_rows_before(FILE *out, const Fed *fed)
{
    ChunkedRow rows[MOST_PULLS];
    uint64_t pulls = most_pulls(fed->length);
    uint64_t found = 0;
    if (pulls == 0) {
        return;
    }
    note(fed, "chunked_rows");
    for (; found < pulls; found++) {
        rows[found] = chunked_rows(fed->samples, fed->length, fed->size, found);
        if (rows[found].found != 1) {
            break;
        }
    }
    if (found == pulls) {
        fprintf(out, " many");
    } else {
        fprintf(out, " %" PRIu64, found);
    }
    for (uint64_t index = 0; index < found; index++) {
        write_row(out, &rows[index]);
    }
    if (found < pulls && !as_promised(&rows[found])) {
        write_broken(out, found, &rows[found]);
    }
}

static void write_answer(FILE *out, const Fed *fed)
{
    note(fed, "chunked_check");
    ChunkedAnswer answer = chunked_check(fed->samples, fed->length, fed->size);
    bool accepted = answer.number == 0;
    bool broken = accepted ? answer.place != 0 : (answer.rows | answer.last) != 0;
    if (broken) {
        fprintf(out, "broken,%" PRIu64 ",%" PRIu64 ",%" PRIu64 ",%" PRIu64, answer.number, answer.place, answer.rows, answer.last);
    } else if (!accepted) {
        fprintf(out, "refused,%" PRIu64 ",%" PRIu64, answer.number, answer.place);
        write_rows_before(out, fed);
    } else {
        fprintf(out, "accepted %" PRIu64 " %" PRIu64, answer.rows, answer.last);
        /* The bound on rows comes first, so that the product is small. */
        if (answer.rows <= most_rows && answer.rows * fed->length <= most_bytes) {
            write_rows(out, fed, answer.rows);
        }
    }
    fputc('\n', out);
}

/* The line of one case at a size; the caller frees it. */
static char *line_of(const Fed *fed)
{
    char *line = NULL;
    size_t written = 0;
    FILE *out = open_memstream(&line, &written);
    if (out != NULL) {
        write_answer(out, fed);
    }
    if (out == NULL || fclose(out) != 0) {
        perror("chunked_cases");
        exit(NOT_READ);
    }
    return line;
}

/* Whether the file is answered so too where it stands after the page. */
static bool steady_after_page(const char *name, const uint8_t *bytes, size_t length, uint64_t size, const char *line)
{
    const uint8_t *start = guarded_lend(BEFORE, bytes, length);
    /* Here no bytes are lent as NULL, which the header allows. */
    Fed fed = {name, BEFORE, length == 0 ? NULL : start, length, size};
    char *again = line_of(&fed);
    bool steady = strcmp(line, again) == 0;
    if (!steady) {
        fprintf(stderr, "%s, chunks of %" PRIu64 " is answered in two ways, first\n%sthen\n%s", name, size, line, again);
    }
    free(again);
    return steady;
}

static bool answer_sheet(Text line, unsigned long case_number, uint8_t *bytes)
{
    char name[64];
    size_t length = 0;
    if (!read_hex(line, bytes, &length)) {
        for (size_t index = 0; index < size_count; index++) {
            printf("malformed\n");
        }
        return true;
    }
    snprintf(name, sizeof name, "chunked_cases: case %lu", case_number);
    Fed fed = {name, AFTER, guarded_lend(AFTER, bytes, length), length, 0};
    size_t again_at = case_number % size_count;
    char *again_line = NULL;
    for (size_t index = 0; index < size_count; index++) {
        fed.size = sizes[index];
        char *line = line_of(&fed);
        fputs(line, stdout);
        if (index == again_at) {
            again_line = line;
        } else {
            free(line);
        }
    }
    bool steady = steady_after_page(name, bytes, length, sizes[again_at], again_line);
    free(again_line);
    return steady;
}

int main(int count, char **arguments)
{
    bool read = count >= 4 && count <= 3 + MOST_SIZES;
    for (int index = 1; read && index < count; index++) {
        uint64_t number = 0;
        read = read_number((Text){arguments[index], strlen(arguments[index])}, &number);
        if (index == 1) {
            most_rows = number;
        } else if (index == 2) {
            most_bytes = number;
        } else {
            sizes[size_count++] = number;
        }
    }
    if (!read || most_rows >= MOST_PULLS) {
        fprintf(stderr, "usage: chunked_cases ROWS BYTES SIZE..   (under %d rows, up to %d sizes; cases on standard input)\n", MOST_PULLS,
                MOST_SIZES);
        return NOT_READ;
    }
    guarded_start();
    int status = answer_lines("chunked_cases", answer_sheet);
    guarded_end();
    return status;
}
