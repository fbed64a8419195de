/*
 * sizing_example STATION MASK POWER
 *
 * Reads a station file and prints, for each set of the mask, the watts that it takes of the power and the fuel that it burns at
 * that share; or why the library refuses. A refusal is an answer too: the exit status is 0. A wrong call or a file that cannot be
 * read is a message on standard error and exit status 2. To build and run it, from the repository's top folder:
 *
 *     bin/build sizing
 *     mkdir -p build
 *     cc -std=c11 -Iinclude examples/sizing/sizing_example.c crates/sizing/out/libsizing.a -o build/sizing_example
 *     build/sizing_example examples/station-a/station 3 25000
 */
#include <errno.h>
#include <inttypes.h>
#include <stdbool.h>
#include <stdint.h>
#include <stdio.h>
#include <stdlib.h>
#include <string.h>

#include "sizing.h"

enum {
    LARGEST_STATION = 676,           /* bytes of the largest station file */
    MOST_READ = LARGEST_STATION + 1, /* one more than that is enough for the library to refuse a larger file */
    MOST_SETS = 8,
    FAILED = 2
};

/* A refusal's number in words. */
static const char *words(SizingAnswer answer)
{
    switch (answer.number) {
    case SIZING_BAD_SIZE: return "the station file has fewer than 165 or more than 676 bytes";
    case SIZING_BAD_CONTENTS: return "an entry of the station file's table of contents is wrong";
    case SIZING_SIZE_DIFFERS: return "the station file's size is not the one that its contents ask for";
    case SIZING_BAD_CONTROL: return "a control value is out of its range";
    case SIZING_BAD_BATTERY: return "a battery value is out of its range";
    case SIZING_BAD_SET: return "a number of a set is out of its range";
    case SIZING_BAD_CURVE: return "the fuel curve of a set is wrong";
    case SIZING_BAD_MASK:
        return answer.place == 0 ? "the mask asked for names no set, or one that the station does not have"
                                 : "a configuration names no set, or one that the station does not have";
    case SIZING_POWER_TOO_HIGH: return "the power asked for is above the capacity of the mask's sets";
    default: return "a refusal that this program does not know";
    }
}

/* What a refusal's place counts, where it has one. */
static const char *place_name(uint64_t number)
{
    switch (number) {
    case SIZING_BAD_CONTENTS: return "entry";
    case SIZING_BAD_SET:
    case SIZING_BAD_CURVE: return "set";
    case SIZING_BAD_MASK: return "configuration";
    default: return "place";
    }
}

static void print_refusal(SizingAnswer answer)
{
    printf("refused: %s (number %" PRIu64 ", place %" PRIu64, words(answer), answer.number, answer.place);
    if (answer.place != 0) {
        printf(": %s %" PRIu64, place_name(answer.number), answer.place);
    }
    printf(")\n");
}

/* Prints each set of the mask, which the library has accepted, or the first refusal. */
static void print_sets(const uint8_t *station, size_t size, uint64_t mask, uint64_t power)
{
    for (unsigned set = 1; set <= MOST_SETS; set++) {
        uint64_t alone = UINT64_C(1) << (set - 1);
        if ((mask & alone) == 0) {
            continue;
        }
        SizingAnswer share = sizing_share(station, size, mask, power, set);
        if (share.number != SIZING_ACCEPTED) {
            print_refusal(share);
            return;
        }
        SizingAnswer rate = sizing_fuel_rate(station, size, alone, share.value);
        if (rate.number != SIZING_ACCEPTED) {
            print_refusal(rate);
            return;
        }
        printf("set %u: %" PRIu64 " W, %" PRIu64 " mL/h\n", set, share.value, rate.value);
    }
}

/* Checks the file, then the mask and the power, then prints the sets. */
static void answer_query(const uint8_t *station, size_t size, uint64_t mask, uint64_t power)
{
    SizingAnswer check = sizing_check_station(station, size);
    if (check.number != SIZING_ACCEPTED) {
        print_refusal(check);
        return;
    }
    /* Set 0 is in no mask, so this asks whether mask and power are right and nothing else. */
    SizingAnswer query = sizing_share(station, size, mask, power, 0);
    if (query.number != SIZING_ACCEPTED) {
        print_refusal(query);
        return;
    }
    print_sets(station, size, mask, power);
}

/* Reads up to MOST_READ bytes of a file; false, with a message that names the file, where it cannot be read. */
static bool read_station(const char *name, uint8_t bytes[MOST_READ], size_t *size)
{
    FILE *file = fopen(name, "rb");
    if (file == NULL) {
        fprintf(stderr, "sizing_example: %s: %s\n", name, strerror(errno));
        return false;
    }
    errno = 0;
    *size = fread(bytes, 1, MOST_READ, file);
    bool failed = ferror(file) != 0;
    if (failed) {
        fprintf(stderr, "sizing_example: %s: %s\n", name, errno == 0 ? "cannot be read" : strerror(errno));
    }
    fclose(file);
    return !failed;
}

/* A decimal number of 64 bits; digits only, since strtoull would take signs and spaces too. */
static bool read_number(const char *text, uint64_t *number)
{
    if (text[0] == '\0' || strspn(text, "0123456789") != strlen(text)) {
        return false;
    }
    errno = 0;
    unsigned long long read = strtoull(text, NULL, 10);
    *number = (uint64_t)read;
    return errno == 0 && read <= UINT64_MAX;
}

int main(int count, char **arguments)
{
    uint64_t mask = 0;
    uint64_t power = 0;
    if (count != 4 || !read_number(arguments[2], &mask) || !read_number(arguments[3], &power)) {
        fprintf(stderr, "usage: sizing_example STATION MASK POWER   (a file, a mask of sets, watts; the last two whole numbers)\n");
        return FAILED;
    }
    uint8_t station[MOST_READ];
    size_t size = 0;
    if (!read_station(arguments[1], station, &size)) {
        return FAILED;
    }
    answer_query(station, size, mask, power);
    if (fflush(stdout) != 0) {
        fprintf(stderr, "sizing_example: standard output: %s\n", strerror(errno));
        return FAILED;
    }
    return EXIT_SUCCESS;
}
