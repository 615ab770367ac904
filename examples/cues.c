/* Prints the cue stack of a call before the call: of each stage its first sample, its samples and its seconds.
 * cc -Iinclude examples/cues.c target/staticlib/libgibbonplate.a -o cues && ./cues 5551234 48000 */
#include "gibbonplate.h"
#include <stdio.h>
#include <string.h>

static const char *const names[] = {"OffHook", "DialTone", "Dialling", "Ringback", "Ci", "Ansam", "CmJm", "Cj", "Training"};

/* A whole number in decimal digits. 0, which is no rate, for any other word. */
static uint32_t whole(const char *word)
{
    uint32_t number = 0;
    size_t i;

    for (i = 0; i < 9 && word[i] >= '0' && word[i] <= '9'; i++)
        number = number * 10 + (uint32_t)(word[i] - '0');
    return word[i] == '\0' ? number : 0;
}

/* Seconds to four places, the last one rounded; width is that of the whole seconds. */
static void put_seconds(int width, uint32_t samples, uint32_t rate)
{
    uint64_t parts = ((uint64_t)samples * 10000 + rate / 2) / rate;

    printf("%*u.%04u", width, (unsigned)(parts / 10000), (unsigned)(parts % 10000));
}

static int declined(const char *why)
{
    fprintf(stderr, "cues: %s\n", why);
    return 1;
}

int main(int count, char **words)
{
    const uint8_t *digits;
    size_t len;
    uint32_t rate, stage, first = 1; /* of the samples, the first is 1 */

    if (count != 3)
        return declined("two words are needed, the number and the rate: cues 5551234 48000");
    digits = (const uint8_t *)words[1];
    len = strlen(words[1]);
    rate = whole(words[2]);
    switch (gibbonplate_plan_refusal(digits, len, rate)) {
    case GIBBONPLATE_ACCEPTED:
        break;
    case GIBBONPLATE_BAD_RATE:
        return declined("the rate has to be a whole number from 8000 to 192000");
    default:
        return declined("the number has more than 76 bytes");
    }
    printf("stage  name         first   samples   seconds\n");
    for (stage = 1; stage <= 9; stage++) {
        uint32_t samples = gibbonplate_stage_samples(digits, len, rate, stage);

        printf("%5u  %-9s%9u%10u", (unsigned)stage, names[stage - 1], (unsigned)first, (unsigned)samples);
        put_seconds(5, samples, rate);
        printf("\n");
        first += samples;
    }
    printf("   10  Connected%9u\n", (unsigned)first);
    printf("T is %u samples, ", (unsigned)gibbonplate_total_samples(digits, len, rate));
    put_seconds(1, first - 1, rate);
    printf(" seconds\n");
    return fflush(stdout) == 0 ? 0 : 1;
}
