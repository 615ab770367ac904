/* What the tests of a set share beside check.h: what is typed on it. */
#include "check.h"

static void type(gibbonplate_set *set, const char *text)
{
    uint8_t outbox[GIBBONPLATE_MIN_OUTBOX];
    gibbonplate_answer answer;

    while (*text)
        CHECK(gibbonplate_feed(set, (uint8_t)*text++, false, outbox, sizeof outbox, &answer) == GIBBONPLATE_ACCEPTED);
}
