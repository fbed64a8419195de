/* Bytes lent to a call of a library, read-only and beside pages that may not be touched. */
#ifndef GUARDED_H
#define GUARDED_H

#include <stddef.h>
#include <stdint.h>

/* Where the page that may not be touched lies: just after the last byte that is lent, or just before the first. */
typedef enum Side { AFTER, BEFORE, SIDES } Side;

/* Says what is wrong, with the case's name, when a call touches what it may not; called once, before the first bytes are lent. */
void guarded_start(void);

/*
 * Copies the bytes, of any number, to where they may be lent. They can be read there and not written, with a page that may not be
 * touched on the side asked for, and one not far from the other side. What was lent before is gone.
 */
const uint8_t *guarded_lend(Side side, const uint8_t *bytes, size_t size);

/* Says which call is under way, for the message where it touches what it may not. `name` is the case's name. */
void guarded_note(const char *name, Side side, const char *call);

/* Gives the pages back. */
void guarded_end(void);

#endif
