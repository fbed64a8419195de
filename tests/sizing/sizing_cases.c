/*
 * sizing_cases KIND: answers cases through the library, of the kind `stations` or `samples`.
 *
 * Cases are on standard input, one a line, and answers on standard output, one a line, as the reference's `batch KIND` reads and
 * prints them (reference/README.md), so that the two can be compared byte for byte: for stations `HEX MASK POWER SET`, answered
 * `CHECK SHARE RATE`, and for samples `HEX`, answered `CHECK`.
 * Exit status 1 where a case is answered in two ways or a call touches what it may not.
 */
#include <inttypes.h>
#include <stdbool.h>
#include <stdint.h>
#include <stdio.h>
#include <string.h>

#include "ask.h"
#include "case_text.h"
#include "guarded.h"

/* Prints an answer, and shows one that breaks the header's promise of zeros as what it is, so that the comparison finds it. */
static void print_answer(SizingAnswer answer, bool is_check)
{
    bool accepted = answer.number == SIZING_ACCEPTED;
    bool broken = accepted ? answer.place != 0 || (is_check && answer.value != 0) : answer.value != 0;
    if (broken) {
        printf("broken,%" PRIu64 ",%" PRIu64 ",%" PRIu64, answer.number, answer.place, answer.value);
    } else if (!accepted) {
        printf("refused,%" PRIu64 ",%" PRIu64, answer.number, answer.place);
    } else if (is_check) {
        printf("accepted");
    } else {
        printf("%" PRIu64, answer.value);
    }
}

static void name_case(char name[64], unsigned long case_number)
{
    snprintf(name, 64, "sizing_cases: case %lu", case_number);
}

static bool answer_station(Text line, unsigned long case_number, uint8_t *bytes)
{
    char name[64];
    size_t size = 0;
    Query query;
    Answers answers;
    /* Each field is taken in its turn, and none may be left after the fourth. */
    size_t spaces = 0;
    for (size_t index = 0; index < line.length; index++) {
        spaces += line.at[index] == ' ' ? 1 : 0;
    }
    bool read = spaces == 3 && read_hex(take_field(&line), bytes, &size) && read_number(take_field(&line), &query.mask) &&
                read_number(take_field(&line), &query.power) && read_number(take_field(&line), &query.set);
    if (!read) {
        printf("malformed\n");
        return true;
    }
    name_case(name, case_number);
    bool steady = ask_station(name, bytes, size, query, &answers);
    print_answer(answers.check, true);
    putchar(' ');
    print_answer(answers.share, false);
    putchar(' ');
    print_answer(answers.rate, false);
    putchar('\n');
    return steady;
}

static bool answer_samples(Text line, unsigned long case_number, uint8_t *bytes)
{
    char name[64];
    size_t size = 0;
    SizingAnswer answer;
    if (!read_hex(line, bytes, &size)) {
        printf("malformed\n");
        return true;
    }
    name_case(name, case_number);
    bool steady = ask_samples(name, bytes, size, &answer);
    print_answer(answer, true);
    putchar('\n');
    return steady;
}

int main(int count, char **arguments)
{
    bool stations = count == 2 && strcmp(arguments[1], "stations") == 0;
    bool samples = count == 2 && strcmp(arguments[1], "samples") == 0;
    if (!stations && !samples) {
        fprintf(stderr, "usage: sizing_cases stations   or   sizing_cases samples   (cases on standard input)\n");
        return NOT_READ;
    }
    guarded_start();
    int status = answer_lines("sizing_cases", stations ? answer_station : answer_samples);
    guarded_end();
    return status;
}
