/*
 * chunked.h: the streamed reader of a sample file, fed in chunks of any size. For tests alone: the programs feed the reader as the
 * system hands the file over, and here the caller says where the chunks end.
 *
 * `samples` points to `length` readable bytes, which are only read; it may be NULL where `length` is 0. They are fed in chunks of
 * `size` bytes, of which the last may be shorter; a size of 0 counts as 1. No answer depends on the size.
 */
#ifndef CHUNKED_H
#define CHUNKED_H

#include <stddef.h>
#include <stdint.h>

/* What the check of a sample file answers. */
typedef struct ChunkedAnswer {
    uint64_t number; /* 0: accepted. Else the number of the refusal, 11 to 22. */
    uint64_t place;  /* The line of the refusal, counted from 1; 0 for 22, and where number is 0. */
    uint64_t rows;   /* How many rows were taken, skipped ones left out; 0 where refused. */
    uint64_t last;   /* The time of the last of them; 0 where refused. */
} ChunkedAnswer;

/* A row as it is pulled out of the chunks. */
typedef struct ChunkedRow {
    uint64_t found;     /* 1, or 0 where there is no such row; then all else is 0. */
    uint64_t at;        /* Its time in s. */
    uint64_t load;      /* W, as the two below. */
    uint64_t solar;
    uint64_t sheddable;
} ChunkedRow;

ChunkedAnswer chunked_check(const uint8_t *samples, size_t length, uint64_t size);

/*
 * The row with an index, counted from 0 over the rows that are not skipped. A refused file has the rows of the lines before the
 * refused one.
 */
ChunkedRow chunked_rows(const uint8_t *samples, size_t length, uint64_t size, uint64_t row);

#endif
