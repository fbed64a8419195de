/* Cases as text, one a line, as the reference's `batch` reads them (reference/README.md). */
#ifndef CASE_TEXT_H
#define CASE_TEXT_H

#include <stdbool.h>
#include <stddef.h>
#include <stdint.h>

/* Part of a line. */
typedef struct Text {
    const char *at;
    size_t length;
} Text;

/* Takes the text up to the next space, or all of it; what is left, without the space, stays. */
Text take_field(Text *rest);

/* A number of 64 bits in digits; a plus before it is taken, as the reference takes one. */
bool read_number(Text text, uint64_t *number);

/* The bytes of some lower-case hex, `-` for none, into a buffer of half the text's length. */
bool read_hex(Text text, uint8_t *bytes, size_t *size);

/*
 * Answers one line, whose bytes `bytes` has room for. False where the library answered it in two ways. A line that is no case is
 * answered `malformed`.
 */
typedef bool AnswerLine(Text line, unsigned long case_number, uint8_t *bytes);

/* What a program of cases ends with: 0, or one of these. */
enum { UNSTEADY = 1, NOT_READ = 2 };

/* Answers every line of standard input; `program` is the program's name in messages. The program's exit status. */
int answer_lines(const char *program, AnswerLine *answer_line);

#endif
