/*
 * sheet year             writes a sample file of about 300 MB: a year of a logger's rows, one at every second to fourth second
 * sheet skipped BYTES    writes a sample file of so many bytes or a few more, of which all rows but two are skipped
 *
 * On standard output; always the same bytes, since nothing but whole numbers and a fixed start go into them.
 */
#include <inttypes.h>
#include <stdint.h>
#include <stdio.h>
#include <stdlib.h>
#include <string.h>

enum { DAY = 86400, YEAR = 365 * DAY, LAST_TIME = 316223999 };

static uint64_t state = 20261115;

/* A number below a limit that looks random. */
static uint32_t below(uint32_t limit)
{
    state = state * UINT64_C(6364136223846793005) + UINT64_C(1442695040888963407);
    return (uint32_t)((state >> 33) % limit);
}

/* The load in kW to the watt, the others to a tenth of a kW, as loggers write them. */
static void write_row(uint32_t time, uint32_t load, uint32_t solar, uint32_t sheddable)
{
    printf("%" PRIu32 ",%" PRIu32 ".%03" PRIu32, time, load / 1000, load % 1000);
    printf(",%" PRIu32 ".%" PRIu32 ",%" PRIu32 ".%" PRIu32 "\n", solar / 1000, solar / 100 % 10, sheddable / 1000, sheddable / 100 % 10);
}

/* A row of a station of some 1.5 MW: load by day, sun from six to six under passing clouds, an eighth of the load sheddable. */
static void write_usual_row(uint32_t time)
{
    uint32_t second = time % DAY;
    uint32_t from_noon = second < DAY / 2 ? DAY / 2 - second : second - DAY / 2;
    uint32_t load = 900000 + (DAY / 2 - from_noon) * 10 + below(90000);
    uint32_t sun = from_noon < DAY / 4 ? (DAY / 4 - from_noon) * 33 : 0;
    write_row(time, load, sun - sun / 100 * below(40), load / 8);
}

int main(int count, char **arguments)
{
    static char buffer[1 << 20];
    setvbuf(stdout, buffer, _IOFBF, sizeof buffer);
    const char *heading = "t,LoadP,PvAvailP,ShedLoadP\n";
    if (count == 2 && strcmp(arguments[1], "year") == 0) {
        fputs(heading, stdout);
        for (uint32_t time = 0; time < YEAR; time += 2 + below(3)) {
            write_usual_row(time);
        }
    } else if (count == 3 && strcmp(arguments[1], "skipped") == 0) {
        uint64_t bytes = strtoull(arguments[2], NULL, 10);
        fputs(heading, stdout);
        write_usual_row(0);
        write_usual_row(LAST_TIME);
        /* One row many times: the row's own size is what counts here, and not how fast this program writes. */
        const char *row = "12345678,1234.5,678.9,154.3\n";
        for (uint64_t written = 0; written < bytes; written += strlen(row)) {
            fputs(row, stdout);
        }
    } else {
        fprintf(stderr, "usage: sheet year   or   sheet skipped BYTES\n");
        return 2;
    }
    if (fflush(stdout) != 0 || ferror(stdout) != 0) {
        perror("sheet");
        return 2;
    }
    return 0;
}
