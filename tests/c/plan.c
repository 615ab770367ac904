/*
 * Tries the length of a call before the call, from C and from C++.
 *
 *     plan facts TIMES [SEED]                the refusals and their order, the bytes that are dropped, null, and
 *                                            TIMES numbers at random: the counts add up to T within its bounds
 *     plan script TIMES SEED INPUT ANSWERS   writes lines for `tap --ext` that play calls, TIMES of them at random, along
 *                                            their planned counts, and what it has to answer: an empty fill before a
 *                                            stage's first sample, one before its last and one behind it tell its edges
 *
 * The digits lie against a page that may not be touched. Exits with 1 where something is not as it should be.
 */
#include "check.h"

static const char KEYS[] = "0123456789ABCDabcd*#";

/* A key, or now and then any byte from some least one on. */
static uint8_t some_byte(uint32_t least)
{
    return below(4) ? (uint8_t)KEYS[below(sizeof KEYS - 1)] : (uint8_t)(least + below(256 - least));
}

/* The bytes again, so that the one behind the last may not be touched. */
static const uint8_t *walled(const uint8_t *bytes, size_t len)
{
    static uint8_t *end;
    size_t page = (size_t)sysconf(_SC_PAGESIZE);

    if (end == NULL) {
        void *start = mmap(NULL, 2 * page, PROT_READ | PROT_WRITE, MAP_PRIVATE | MAP_ANONYMOUS, -1, 0);

        CHECK(start != MAP_FAILED);
        end = (uint8_t *)start + page;
        CHECK(mprotect(end, page, PROT_NONE) == 0);
    }
    CHECK(len <= page);
    if (len > 0)
        memcpy(end - len, bytes, len);
    return end - len;
}

/* ---- facts */

static void same(const char *digits, const char *as, uint32_t rate)
{
    size_t len = strlen(digits), length = strlen(as);
    uint32_t stage;

    CHECK(gibbonplate_plan_refusal((const uint8_t *)digits, len, rate) == 0);
    for (stage = 0; stage <= 11; stage++)
        CHECK(gibbonplate_stage_samples((const uint8_t *)digits, len, rate, stage) ==
              gibbonplate_stage_samples((const uint8_t *)as, length, rate, stage));
    CHECK(gibbonplate_total_samples((const uint8_t *)digits, len, rate) ==
          gibbonplate_total_samples((const uint8_t *)as, length, rate));
}

static void declined(uint8_t refusal, const uint8_t *digits, size_t len, uint32_t rate)
{
    uint32_t stage;

    CHECK(gibbonplate_plan_refusal(digits, len, rate) == refusal);
    for (stage = 0; stage <= 11; stage++)
        CHECK(gibbonplate_stage_samples(digits, len, rate, stage) == 0);
    CHECK(gibbonplate_total_samples(digits, len, rate) == 0);
}

/* How many of the bytes are keys once letters are raised. */
static uint32_t keys(const uint8_t *digits, size_t len)
{
    uint32_t count = 0;
    size_t i;

    for (i = 0; i < len; i++)
        count += digits[i] != 0 && strchr(KEYS, digits[i]) != NULL;
    return count;
}

static void planned(const uint8_t *digits, size_t len, uint32_t rate)
{
    uint64_t total = gibbonplate_total_samples(digits, len, rate), sum = 0, middle = (1175 + 24 * (uint64_t)keys(digits, len)) * rate;
    uint32_t stage;

    CHECK(gibbonplate_plan_refusal(digits, len, rate) == 0);
    for (stage = 1; stage <= 9; stage++) {
        uint32_t samples = gibbonplate_stage_samples(digits, len, rate, stage);

        CHECK(samples > 0);
        sum += samples;
    }
    CHECK(sum == total);
    CHECK(middle <= 120 * total + 120 && 120 * total <= middle + 720);
    CHECK(gibbonplate_stage_samples(digits, len, rate, 0) == 0);
    CHECK(gibbonplate_stage_samples(digits, len, rate, 10) == 0);
    CHECK(gibbonplate_stage_samples(digits, len, rate, 0xffffffff) == 0);
}

static void facts(long times)
{
    uint8_t many[78];
    long i;

    memset(many, '1', sizeof many);
    /* 01's cases at 8,000 */
    CHECK(gibbonplate_stage_samples(NULL, 0, 8000, 1) == 400);
    CHECK(gibbonplate_stage_samples(NULL, 0, 8000, 3) == 1);
    CHECK(gibbonplate_stage_samples(many, 2, 8000, 3) == 3200);
    CHECK(gibbonplate_stage_samples(many, 3, 8000, 3) == 4801);
    CHECK(gibbonplate_total_samples(many, 3, 8000) == 83138);
    /* null with length 0 is a call with no digits */
    CHECK(gibbonplate_plan_refusal(NULL, 0, 8000) == 0);
    CHECK(gibbonplate_plan_refusal(NULL, 0, 7999) == 1);
    CHECK(gibbonplate_total_samples(NULL, 0, 48000) == gibbonplate_total_samples(many, 0, 48000));
    planned(NULL, 0, 192000);
    /* small letters are raised, other bytes dropped */
    same("abcd", "ABCD", 44100);
    same("555-1234", "5551234", 48000);
    same("efgh ,.\n\x80\xff", "", 8000);
    same("*#", "12", 96000);
    /* the rate first, then the bytes, keys or not */
    declined(1, many, 1, 7999);
    declined(1, many, 1, 0);
    declined(1, many, 1, 192001);
    declined(1, many, 1, 0xffffffff);
    declined(1, many, 77, 7999);
    declined(10, many, 77, 8000);
    declined(10, walled(many, 78), 78, 192000);
    planned(many, 76, 192000);
    memset(many, '-', sizeof many);
    declined(10, many, 77, 48000);
    planned(many, 76, 48000);
    for (i = 0; i < times; i++) {
        size_t len = below(77), j;

        for (j = 0; j < len; j++)
            many[j] = some_byte(0);
        planned(walled(many, len), len, 8000 + below(184001));
    }
    printf("plan: the refusals, and %ld numbers at random\n", times);
}

/* ---- calls for tap */

static FILE *input, *answers;

static void fill(uint32_t samples, unsigned state, unsigned stage, uint32_t *m)
{
    *m += samples;
    fprintf(input, "F,%u\n", (unsigned)samples);
    fprintf(answers, "0,%u,%u,%u\n", state, stage, (unsigned)*m);
}

static void played(const uint8_t *digits, size_t len, uint32_t rate)
{
    uint32_t m = 0, stage, left;
    size_t i;

    fprintf(input, "R,%u\n", (unsigned)rate);
    fprintf(answers, "0,0,0,0\n");
    for (i = 0; i < 4 + len; i++) {
        fprintf(input, "T,%u,0\n", i < 4 ? (unsigned)"ATDT"[i] : (unsigned)digits[i - 4]);
        fprintf(answers, "0,0,0,0\n");
    }
    fprintf(input, "T,13,0\n");
    fprintf(answers, "0,1,0,0\n");
    for (stage = 1; stage <= 9; stage++) {
        fill(0, 1, stage, &m);
        for (left = gibbonplate_stage_samples(digits, len, rate, stage) - 1; left > 0; left -= left < 65536 ? left : 65536)
            fill(left < 65536 ? left : 65536, 1, stage, &m);
        fill(0, 1, stage, &m);
        fill(1, 1, stage, &m);
    }
    CHECK(m == gibbonplate_total_samples(digits, len, rate));
    fill(0, 3, 0, &m);
}

static void script(long times, const char *lines, const char *expected)
{
    static const struct {
        const char *digits;
        uint32_t rate;
    } calls[] = {{"5551234", 48000}, {"", 8000}, {"123", 8000}, {"147*#abD0", 44100}, {"9", 192000}, {"x-y", 11025}, {"12", 16001}};
    uint8_t digits[76];
    size_t len, j;
    long i;

    input = fopen(lines, "w");
    answers = fopen(expected, "w");
    CHECK(input != NULL && answers != NULL);
    for (j = 0; j < sizeof calls / sizeof *calls; j++)
        played((const uint8_t *)calls[j].digits, strlen(calls[j].digits), calls[j].rate);
    memset(digits, '7', sizeof digits);
    played(digits, sizeof digits, 192000);
    for (i = 0; i < times; i++) {
        /* a return would end the line */
        len = below(20);
        for (j = 0; j < len; j++)
            digits[j] = some_byte('\r' + 1);
        played(walled(digits, len), len, 8000 + below(below(8) ? 41000 : 184001));
    }
    CHECK(fclose(input) == 0 && fclose(answers) == 0);
    printf("plan: %ld calls to play\n", times + 8);
}

int main(int count, char **words)
{
    if (count > 3 && strtoull(words[3], NULL, 10) != 0)
        seed *= 2 * strtoull(words[3], NULL, 10) + 1;
    if (count >= 3 && count <= 4 && strcmp(words[1], "facts") == 0)
        facts(atol(words[2]));
    else if (count == 6 && strcmp(words[1], "script") == 0)
        script(atol(words[2]), words[4], words[5]);
    else {
        fprintf(stderr, "usage: plan facts TIMES [SEED] | plan script TIMES SEED INPUT ANSWERS\n");
        return 2;
    }
    return 0;
}
