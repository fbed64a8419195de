/*
 * The address sanitizer watches only code that it was built into, and the library is not built with it. So the bytes are put where
 * the machine itself stops a wrong access: right before a page without access, then right after one, and read-only in both.
 */
#define _DEFAULT_SOURCE
#include "guarded.h"

#include <signal.h>
#include <stdbool.h>
#include <stdio.h>
#include <stdlib.h>
#include <string.h>
#include <sys/mman.h>
#include <unistd.h>

enum { TRAPPED = 1, NO_MEMORY = 2 };

/* One page without access, `room` bytes, one page without access. Of the room only the pages that hold what is lent are open. */
static uint8_t *mapped = NULL;
static size_t page = 0;
static size_t room = 0;
static uint8_t *opened = NULL;
static size_t opened_size = 0;

/* What is under way, for the message of the trap; the handler may read these only. */
static char doing[256];
static const uint8_t *volatile lent = NULL;
static volatile size_t lent_size = 0;

static void say(const char *text)
{
    /* A message that cannot be written has nobody to read it. */
    ssize_t written = write(STDERR_FILENO, text, strlen(text));
    (void)written;
}

/* Names the case and ends the program, since a trapped call cannot be gone on with. */
static void trapped(int signal_number, siginfo_t *info, void *context)
{
    uintptr_t at = (uintptr_t)info->si_addr;
    uintptr_t from = (uintptr_t)lent;
    (void)context;
    say(doing);
    if (signal_number == SIGSEGV && at >= from && at - from < lent_size) {
        say(": the call wrote to the bytes that it was lent\n");
    } else if (signal_number == SIGSEGV && at >= (uintptr_t)mapped && at < (uintptr_t)mapped + room + 2 * page) {
        say(": the call reached outside the bytes that it was lent\n");
    } else {
        say(": the call was stopped by a signal\n");
    }
    _exit(TRAPPED);
}

void guarded_start(void)
{
    const int signals[] = {SIGSEGV, SIGBUS, SIGILL, SIGFPE, SIGABRT};
    struct sigaction action;
    memset(&action, 0, sizeof action);
    action.sa_sigaction = trapped;
    action.sa_flags = SA_SIGINFO;
    sigemptyset(&action.sa_mask);
    for (size_t index = 0; index < sizeof signals / sizeof signals[0]; index++) {
        sigaction(signals[index], &action, NULL);
    }
}

static void must(bool held, const char *what)
{
    if (!held) {
        perror(what);
        exit(NO_MEMORY);
    }
}

/* Changes what may be done with the pages that are open. */
static void allow(int rights)
{
    if (opened_size != 0) {
        must(mprotect(opened, opened_size, rights) == 0, "mprotect");
    }
}

void guarded_end(void)
{
    if (mapped != NULL) {
        must(munmap(mapped, room + 2 * page) == 0, "munmap");
    }
    mapped = NULL;
    room = 0;
    opened_size = 0;
}

/* Makes room for bytes of some number, with at least one to spare, and its two pages without access. */
static void make_room(size_t size)
{
    if (mapped != NULL && size < room) {
        return;
    }
    guarded_end();
    page = (size_t)sysconf(_SC_PAGESIZE);
    /* Twice what is asked for, so that cases of rising size do not each map anew. */
    room = (2 * size / page + 2) * page;
    void *got = mmap(NULL, room + 2 * page, PROT_NONE, MAP_PRIVATE | MAP_ANONYMOUS, -1, 0);
    must(got != MAP_FAILED, "mmap");
    mapped = got;
}

const uint8_t *guarded_lend(Side side, const uint8_t *bytes, size_t size)
{
    make_room(size);
    allow(PROT_NONE);
    opened_size = (size / page + 1) * page;
    opened = side == AFTER ? mapped + page + room - opened_size : mapped + page;
    allow(PROT_READ | PROT_WRITE);
    /* Other bytes on each side: an answer that depends on what is around the bytes differs between the two. */
    memset(opened, side == AFTER ? 0xa5 : 0x5a, opened_size);
    uint8_t *start = side == AFTER ? opened + opened_size - size : opened;
    if (size != 0) {
        memcpy(start, bytes, size);
    }
    allow(PROT_READ);
    lent = start;
    lent_size = size;
    return start;
}

void guarded_note(const char *name, Side side, const char *call)
{
    snprintf(doing, sizeof doing, "%s, page without access %s the bytes, %s", name, side == AFTER ? "after" : "before", call);
}
