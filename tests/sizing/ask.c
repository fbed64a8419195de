#include "ask.h"

#include <inttypes.h>
#include <stdio.h>

#include "guarded.h"

/* The bytes where they may be lent. The second time no bytes are lent as NULL, which the header allows. */
static const uint8_t *lend(Side side, const uint8_t *bytes, size_t size)
{
    const uint8_t *start = guarded_lend(side, bytes, size);
    return side == BEFORE && size == 0 ? NULL : start;
}

static bool same(const char *name, const char *call, SizingAnswer one, SizingAnswer other)
{
    if (one.number == other.number && one.place == other.place && one.value == other.value) {
        return true;
    }
    fprintf(stderr, "%s: %s answers the same case first %" PRIu64 ",%" PRIu64 ",%" PRIu64 ", then %" PRIu64 ",%" PRIu64 ",%" PRIu64 "\n",
            name, call, one.number, one.place, one.value, other.number, other.place, other.value);
    return false;
}

static Answers ask_station_beside(const char *name, Side side, const uint8_t *bytes, size_t size, Query query)
{
    Answers answers;
    const uint8_t *station = lend(side, bytes, size);
    guarded_note(name, side, "sizing_check_station");
    answers.check = sizing_check_station(station, size);
    guarded_note(name, side, "sizing_share");
    answers.share = sizing_share(station, size, query.mask, query.power, query.set);
    guarded_note(name, side, "sizing_fuel_rate");
    answers.rate = sizing_fuel_rate(station, size, query.mask, query.power);
    return answers;
}

bool ask_station(const char *name, const uint8_t *station, size_t size, Query query, Answers *answers)
{
    *answers = ask_station_beside(name, AFTER, station, size, query);
    Answers again = ask_station_beside(name, BEFORE, station, size, query);
    bool checks = same(name, "sizing_check_station", answers->check, again.check);
    bool shares = same(name, "sizing_share", answers->share, again.share);
    bool rates = same(name, "sizing_fuel_rate", answers->rate, again.rate);
    return checks && shares && rates;
}

static SizingAnswer ask_samples_beside(const char *name, Side side, const uint8_t *bytes, size_t size)
{
    const uint8_t *samples = lend(side, bytes, size);
    guarded_note(name, side, "sizing_check_samples");
    return sizing_check_samples(samples, size);
}

bool ask_samples(const char *name, const uint8_t *samples, size_t size, SizingAnswer *answer)
{
    *answer = ask_samples_beside(name, AFTER, samples, size);
    return same(name, "sizing_check_samples", *answer, ask_samples_beside(name, BEFORE, samples, size));
}
