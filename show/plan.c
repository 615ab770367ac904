/*
 * The cues of a call before the call, as CSV: the events of docs/CUES.md with the sample and the time at which each is
 * heard. The stages are the plan's; a key is lit from the sample that a set cues for it, to the last one that a set
 * plays with it.
 */
#include "change.h"
#include "gibbonplate.h"
#include "options.h"
#include <stdio.h>
#include <string.h>

typedef struct {
    uint32_t rate, cues;
    gibbonplate_set set; /* which plays the call, up to the last key that was looked for */
} plan;

/* A cue at a sample, of which the call's first is 1. */
static void print_cue(plan *p, const char *event, uint64_t sample)
{
    uint64_t ms = ((sample - 1) * 2000 / p->rate + 1) / 2;

    printf("%u,%s,%.6f,%02u:%02u:%02u.%03u,%llu\n", ++p->cues, event, (double)(sample - 1) / p->rate,
           (unsigned)(ms / 3600000), (unsigned)(ms / 60000 % 60), (unsigned)(ms / 1000 % 60), (unsigned)(ms % 1000),
           (unsigned long long)sample);
}

/* Plays on to where a sample is the next. */
static void play_to(plan *p, uint64_t sample)
{
    static float samples[4096];
    uint8_t key[2];

    while (gibbonplate_m(&p->set) + 1 < sample) {
        uint64_t left = sample - 1 - gibbonplate_m(&p->set);

        gibbonplate_process_out(&p->set, samples, left < 4096 ? (size_t)left : 4096, key);
    }
}

static void print_keys(plan *p, uint32_t digits)
{
    uint32_t i;

    for (i = 0; i < digits; i++) {
        uint64_t sample;
        uint8_t key[2];
        char event[8];
        float played;

        gibbonplate_cue(&p->set, i, &sample, key);
        snprintf(event, sizeof event, "key %c", show_keypad[key[0] * 4 + key[1]]);
        print_cue(p, event, sample);
        play_to(p, sample);
        do
            gibbonplate_process_out(&p->set, &played, 1, key);
        while (key[0] != GIBBONPLATE_NO_KEY);
        print_cue(p, "key off", gibbonplate_m(&p->set));
    }
}

static void dial(plan *p, const char *number)
{
    uint8_t outbox[GIBBONPLATE_MIN_OUTBOX];
    gibbonplate_answer answer;
    const char *part[] = {"ATDT", number, "\r"};
    size_t i, j;

    gibbonplate_new(&p->set, p->rate);
    for (i = 0; i < 3; i++)
        for (j = 0; part[i][j]; j++)
            gibbonplate_feed(&p->set, (uint8_t)part[i][j], false, outbox, sizeof outbox, &answer);
}

static void print_call(plan *p, const char *number)
{
    uint8_t digits[GIBBONPLATE_MAX_DIGITS];
    uint64_t sample = 1;
    uint32_t stage;
    char event[16];

    puts("cue,event,seconds,time,sample");
    print_cue(p, "dialling", sample);
    for (stage = 1; stage <= 9; stage++) {
        uint32_t samples = gibbonplate_stage_samples((const uint8_t *)number, strlen(number), p->rate, stage);

        if (!samples)
            continue;
        snprintf(event, sizeof event, "icon %u", stage);
        print_cue(p, event, sample);
        if (stage == 3)
            print_keys(p, (uint32_t)gibbonplate_digits(&p->set, digits));
        sample += samples;
    }
    print_cue(p, "connected", sample);
    print_cue(p, "icon 10", sample);
    print_cue(p, "up", sample);
}

bool plan_print(const char *number, uint32_t rate)
{
    plan p = {.rate = rate};

    if (gibbonplate_plan_refusal((const uint8_t *)number, strlen(number), rate) != GIBBONPLATE_ACCEPTED) {
        fputs("show: the number has more than 76 bytes\n", stderr);
        return false;
    }
    dial(&p, number);
    print_call(&p, number);
    return fflush(stdout) == 0;
}
