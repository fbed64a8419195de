/* The calls of the library on a file that stands beside pages that may not be touched. */
#ifndef ASK_H
#define ASK_H

#include <stdbool.h>
#include <stddef.h>
#include <stdint.h>

#include "sizing.h"

/* What a mask, a power and a set's number are asked of a station. */
typedef struct Query {
    uint64_t mask;
    uint64_t power;
    uint64_t set;
} Query;

/* The three answers of one station case. */
typedef struct Answers {
    SizingAnswer check;
    SizingAnswer share;
    SizingAnswer rate;
} Answers;

/*
 * Asks the library twice, once with the station's last byte just before a page that may not be touched and once with its first
 * byte just after one. False, with a message, where the two do not agree. `name` is the case's name in messages.
 */
bool ask_station(const char *name, const uint8_t *station, size_t size, Query query, Answers *answers);

/* The same for the check of a sample file. */
bool ask_samples(const char *name, const uint8_t *samples, size_t size, SizingAnswer *answer);

#endif
