/*
 * Times the earpiece beside the float fill of the same stages, and where SPANDSP is defined beside spandsp's DTMF generator.
 *
 *     earpiece ROUNDS
 *
 * ns a sample, the best of ROUNDS, in buffers of 2,048 samples; and what passing over costs by itself. It reports, and judges nothing.
 */
#define _DEFAULT_SOURCE
#include "gibbonplate.h"
#include <stdio.h>
#include <stdlib.h>
#include <string.h>
#include <time.h>
#ifdef SPANDSP
#include <spandsp.h>
#endif

enum { LENGTH = 2048, RATE = 44100 };

/* Keys that repeat only after long: 697 and 1209 at 44,100. */
static const char DIGITS[] = "1111111";
static const uint8_t *digits = (const uint8_t *)DIGITS;
static const size_t count = sizeof DIGITS - 1;
static int16_t out[LENGTH];
static float sound[LENGTH];

static double now(void)
{
    struct timespec t;

    clock_gettime(CLOCK_MONOTONIC, &t);
    return (double)t.tv_sec * 1e9 + (double)t.tv_nsec;
}

static double earpiece(uint64_t pass, size_t length, long rounds)
{
    double best = 1e18;

    while (rounds-- > 0) {
        double start = now();

        gibbonplate_earpiece(digits, count, RATE, pass, out, length);
        start = now() - start;
        best = start < best ? start : best;
    }
    return best;
}

/* The set's fill from the same sample on. */
static double fill(uint64_t pass, long rounds)
{
    gibbonplate_set set, at;
    gibbonplate_answer answer;
    uint8_t outbox[4], key[2];
    char line[96];
    double best = 1e18;
    size_t i;

    gibbonplate_new(&set, RATE);
    snprintf(line, sizeof line, "ATDT%s\r", DIGITS);
    for (i = 0; line[i]; i++)
        gibbonplate_feed(&set, (uint8_t)line[i], false, outbox, sizeof outbox, &answer);
    while (pass > 0) {
        size_t part = pass < LENGTH ? (size_t)pass : (size_t)LENGTH;

        gibbonplate_process_out(&set, sound, part, key);
        pass -= part;
    }
    while (rounds-- > 0) {
        double start;

        at = set;
        start = now();
        gibbonplate_process_out(&at, sound, LENGTH, key);
        start = now() - start;
        best = start < best ? start : best;
    }
    return best;
}

#ifdef SPANDSP
/* At 8,000, the one rate that it has. */
static double spandsp(long rounds)
{
    static int16_t heard[LENGTH];
    double best = 1e18;

    while (rounds-- > 0) {
        dtmf_tx_state_t *tx = dtmf_tx_init(NULL);
        double start;

        dtmf_tx_set_timing(tx, 2000, 50);
        dtmf_tx_put(tx, "1", -1);
        dtmf_tx(tx, heard, 160);
        start = now();
        dtmf_tx(tx, heard, LENGTH);
        start = now() - start;
        best = start < best ? start : best;
        dtmf_tx_free(tx);
    }
    return best;
}
#endif

int main(int argc, char **argv)
{
    long rounds = argc > 1 ? strtol(argv[1], NULL, 10) : 25;
    uint64_t tone = gibbonplate_stage_samples(digits, count, RATE, 1), dial = tone + gibbonplate_stage_samples(digits, count, RATE, 2),
             ring = dial + gibbonplate_stage_samples(digits, count, RATE, 3);
    struct {
        const char *name;
        uint64_t pass;
    } places[] = {{"dial tone", tone + 1000}, {"a key", dial + 1000}, {"ringback", ring + 1000}};
    size_t i;

    rounds *= 40;
    printf("earpiece, ns a sample at %d, buffers of %d   earpiece   float fill\n", RATE, LENGTH);
    for (i = 0; i < sizeof places / sizeof *places; i++)
        printf("  %-41s %11.2f %12.2f\n", places[i].name, earpiece(places[i].pass, LENGTH, rounds) / LENGTH, fill(places[i].pass, rounds) / LENGTH);
#ifdef SPANDSP
    printf("  spandsp's DTMF, a key at 8000 %23.2f\n", spandsp(rounds) / LENGTH);
#else
    printf("  passed over: spandsp's headers are not installed\n");
#endif
    printf("one sample, all before it passed over: %.0f ns in dial tone, %.0f in the second ring, %.0f past T\n", earpiece(tone + 1000, 1, rounds),
           earpiece(ring + 39 * (uint64_t)RATE / 10, 1, rounds), earpiece(UINT64_MAX, 1, rounds));
    return 0;
}
