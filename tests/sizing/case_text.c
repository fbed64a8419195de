#define _DEFAULT_SOURCE
#include "case_text.h"

#include <stdio.h>
#include <stdlib.h>
#include <string.h>

Text take_field(Text *rest)
{
    const char *space = rest->length == 0 ? NULL : memchr(rest->at, ' ', rest->length);
    Text field = {rest->at, space == NULL ? rest->length : (size_t)(space - rest->at)};
    size_t gone = space == NULL ? field.length : field.length + 1;
    rest->at += gone;
    rest->length -= gone;
    return field;
}

bool read_number(Text text, uint64_t *number)
{
    size_t index = text.length > 1 && text.at[0] == '+' ? 1 : 0;
    *number = 0;
    if (text.length == 0) {
        return false;
    }
    for (; index < text.length; index++) {
        if (text.at[index] < '0' || text.at[index] > '9') {
            return false;
        }
        uint64_t digit = (uint64_t)(text.at[index] - '0');
        if (*number > (UINT64_MAX - digit) / 10) {
            return false;
        }
        *number = 10 * *number + digit;
    }
    return true;
}

/* The value of a lower-case hex digit, or -1. */
static int hex_value(char digit)
{
    if (digit >= '0' && digit <= '9') {
        return digit - '0';
    }
    return digit >= 'a' && digit <= 'f' ? digit - 'a' + 10 : -1;
}

bool read_hex(Text text, uint8_t *bytes, size_t *size)
{
    *size = 0;
    if (text.length == 1 && text.at[0] == '-') {
        return true;
    }
    if (text.length == 0 || text.length % 2 != 0) {
        return false;
    }
    for (size_t index = 0; index < text.length; index += 2) {
        int high = hex_value(text.at[index]);
        int low = hex_value(text.at[index + 1]);
        if (high < 0 || low < 0) {
            return false;
        }
        bytes[(*size)++] = (uint8_t)(16 * high + low);
    }
    return true;
}

int answer_lines(const char *program, AnswerLine *answer_line)
{
    char *line = NULL;
    size_t allocated = 0;
    bool steady = true;
    unsigned long case_number = 0;
    ssize_t length;
    while ((length = getline(&line, &allocated, stdin)) > 0) {
        Text text = {line, (size_t)length - (line[length - 1] == '\n' ? 1 : 0)};
        uint8_t *bytes = malloc(text.length / 2 + 1);
        if (bytes == NULL) {
            perror(program);
            return NOT_READ;
        }
        steady = answer_line(text, ++case_number, bytes) && steady;
        free(bytes);
    }
    bool failed = ferror(stdin) != 0 || fflush(stdout) != 0;
    free(line);
    if (failed) {
        perror(program);
        return NOT_READ;
    }
    return steady ? EXIT_SUCCESS : UNSTEADY;
}
