/*
 * Listens for the cues of calls of 76 digits.
 *
 *     cues RANDOM [SEED]   at the rates that are used, the limits and odd ones, and at RANDOM other ones
 *
 * A call is played sample by sample and heard. In Dialling a gap is zeros, and so is a tone's first sample,
 * which fresh oscillators make; its second is none. So a digit begins with the sample before the first that
 * sounds, and that has to be its cue. Exits with 1 where one is not.
 */
#include "typing.h"

static void dial(gibbonplate_set *set, uint32_t rate)
{
    char digits[GIBBONPLATE_MAX_DIGITS + 1] = {0};
    int i;

    for (i = 0; i < GIBBONPLATE_MAX_DIGITS; i++)
        digits[i] = "123A456B789C*0#D"[below(16)];
    CHECK(gibbonplate_new(set, rate) == GIBBONPLATE_ACCEPTED);
    type(set, "ATDT");
    type(set, digits);
    type(set, "\r");
}

static void heard(const gibbonplate_set *set, uint32_t position, uint64_t number)
{
    uint64_t sample;
    uint8_t key[2];

    if (gibbonplate_cue(set, position, &sample, key) == GIBBONPLATE_ACCEPTED && sample == number)
        return;
    fprintf(stderr, "tests/c/cues.c: at %u digit %u is heard from sample %llu, and its cue is %llu\n", (unsigned)gibbonplate_rate(set),
            (unsigned)position, (unsigned long long)number, (unsigned long long)sample);
    exit(1);
}

static void listen(uint32_t rate)
{
    gibbonplate_set set;
    float sample;
    uint8_t key[2];
    uint32_t digit = 0;
    int quiet = 2;

    dial(&set, rate);
    while (gibbonplate_stage(&set) < 4) {
        CHECK(gibbonplate_process_out(&set, &sample, 1, key) == GIBBONPLATE_ACCEPTED);
        if (gibbonplate_stage(&set) != 3)
            continue;
        /* A gap has more than one zero; a tone may pass through one. */
        if (sample == 0) {
            quiet++;
            continue;
        }
        if (quiet > 1)
            heard(&set, digit++, gibbonplate_m(&set) - 1);
        quiet = 0;
    }
    if (digit != GIBBONPLATE_MAX_DIGITS) {
        fprintf(stderr, "tests/c/cues.c: at %u %u digits are heard\n", (unsigned)rate, (unsigned)digit);
        exit(1);
    }
}

int main(int count, char **words)
{
    static const uint32_t rates[] = {8000, 8001, 11025, 22050, 44100, 48000, 96000, 191999, 192000};
    long i, random = count > 1 ? atol(words[1]) : 0;

    if (count > 2)
        seed += strtoull(words[2], NULL, 10);
    for (i = 0; i < (long)(sizeof rates / sizeof *rates); i++)
        listen(rates[i]);
    for (i = 0; i < random; i++)
        listen(8000 + below(184001));
    printf("the cues of 76 digits are their first samples, at %zu rates and %ld random ones\n", sizeof rates / sizeof *rates, random);
    return 0;
}
