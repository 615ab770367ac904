/*
 * Tries the earpiece from C and from C++.
 *
 *     earpiece facts TIMES [SEED]             the refusals and their order, what a declined call leaves, null, the ends of what can be
 *                                             passed over, and TIMES calls at random: in pieces as at once
 *     earpiece beside DIGITS RATE             every sample beside a set's own of the same call: in dial tone, keys and ringback no
 *                                             further from it than the wave's entries lie apart, 0 in gaps and elsewhere
 *     earpiece samples DIGITS RATE PASS COUNT writes COUNT samples to standard output, lowest byte first
 *
 * Buffers lie against a page that may not be touched. Exits with 1 where something is not as it should be.
 */
#include "check.h"

enum { MOST = GIBBONPLATE_MAX_FILL, MARK = 0x5a5a };

/* A buffer of so many samples, marked, with a page behind it that may not be touched. */
static int16_t *walled(size_t count)
{
    static char *end;
    size_t page = (size_t)sysconf(_SC_PAGESIZE), room = (sizeof(int16_t) * (MOST + 1) / page + 1) * page, i;
    int16_t *out;

    if (end == NULL) {
        void *start = mmap(NULL, room + page, PROT_READ | PROT_WRITE, MAP_PRIVATE | MAP_ANONYMOUS, -1, 0);

        CHECK(start != MAP_FAILED);
        end = (char *)start + room;
        CHECK(mprotect(end, page, PROT_NONE) == 0);
    }
    CHECK(count <= MOST + 1);
    out = (int16_t *)(void *)(end - sizeof(int16_t) * count);
    for (i = 0; i < count; i++)
        out[i] = MARK;
    return out;
}

static void declined(uint8_t refusal, const uint8_t *digits, size_t len, uint32_t rate, uint64_t pass, size_t count)
{
    int16_t *out = walled(count);
    size_t i;

    CHECK(gibbonplate_earpiece(digits, len, rate, pass, out, count) == refusal);
    for (i = 0; i < count; i++)
        CHECK(out[i] == MARK);
}

static void silent(const uint8_t *digits, size_t len, uint32_t rate, uint64_t pass, size_t count)
{
    int16_t *out = walled(count);
    size_t i;

    CHECK(gibbonplate_earpiece(digits, len, rate, pass, out, count) == 0);
    for (i = 0; i < count; i++)
        CHECK(out[i] == 0);
}

/* A call in two pieces is the call at once; so is one asked for a second time. */
static void joined(const uint8_t *digits, size_t len, uint32_t rate, uint64_t pass, size_t first, size_t second)
{
    static int16_t whole[MOST];
    int16_t *out;

    CHECK(gibbonplate_earpiece(digits, len, rate, pass, whole, first + second) == 0);
    out = walled(second);
    CHECK(gibbonplate_earpiece(digits, len, rate, pass + first, out, second) == 0);
    CHECK(memcmp(out, whole + first, sizeof *out * second) == 0);
    out = walled(first);
    CHECK(gibbonplate_earpiece(digits, len, rate, pass, out, first) == 0);
    CHECK(memcmp(out, whole, sizeof *out * first) == 0);
}

static const uint32_t RATES[] = {8000, 11025, 44100, 48000, 96000, 192000};
static const char KEYS[] = "0123456789ABCDabcd*#";

static void facts(long times)
{
    uint8_t many[77];
    uint32_t total;
    long i;

    memset(many, '1', sizeof many);
    /* 1 before 10, both before 3 */
    declined(1, many, 77, 7999, 0, MOST + 1);
    declined(1, many, 77, 192001, 5, 10);
    declined(1, NULL, 0, 0, 0, 3);
    declined(10, many, 77, 8000, 0, MOST + 1);
    declined(10, many, 77, 192000, 0, 1);
    declined(3, many, 76, 8000, 0, MOST + 1);
    declined(3, NULL, 0, 192000, UINT64_MAX, MOST + 1);
    CHECK(gibbonplate_earpiece(many, 77, 8000, 0, NULL, 0) == 10);
    CHECK(gibbonplate_earpiece(many, 76, 8000, 0, NULL, 0) == 0);
    CHECK(gibbonplate_earpiece(NULL, 0, 8000, 0, NULL, 0) == 0);
    /* small letters are raised, other bytes dropped */
    for (i = 0; i < 2; i++) {
        static int16_t as[3200];
        int16_t *out = walled(3200);

        CHECK(gibbonplate_earpiece((const uint8_t *)(i ? "aD" : "5 5"), i ? 2 : 3, 8000, 8400, out, 3200) == 0);
        CHECK(gibbonplate_earpiece((const uint8_t *)(i ? "Ad" : "55"), 2, 8000, 8400, as, 3200) == 0);
        CHECK(memcmp(out, as, sizeof as) == 0);
    }
    /* from T on there is nothing but zeros, and before dial tone too */
    total = gibbonplate_total_samples(many, 3, 8000);
    silent(many, 3, 8000, total - 1, 2);
    silent(many, 3, 8000, total, MOST);
    silent(many, 3, 8000, total + 1, 1);
    silent(many, 3, 8000, UINT64_MAX, MOST);
    silent(many, 3, 8000, UINT64_MAX - 1, 2);
    silent(many, 3, 8000, 0x10000000, 100);
    silent(many, 3, 8000, 0x100000000, 100);
    silent(many, 3, 8000, 0, 401);
    for (i = 0; i < times; i++) {
        uint8_t digits[76];
        size_t len = below(4) ? below(4) : below(77), k, first = below(4) ? below(700) : below(MOST + 1), second = below(MOST + 1 - (uint32_t)first);
        uint32_t rate = below(2) ? 8000 + below(184001) : RATES[below(6)];

        for (k = 0; k < len; k++)
            digits[k] = (uint8_t)KEYS[below(sizeof KEYS - 1)];
        joined(digits, len, rate, below(8) ? below(gibbonplate_total_samples(digits, len, rate) + 100) : UINT64_MAX - MOST, first, second);
    }
    printf("the earpiece declines and plays as it should, %ld calls in pieces as at once\n", times);
}

/* Beside the set's own samples. The wave's entries are up to a 1,024th of a turn late, and two tones are 0.9 high. */
static void beside(const char *digits, uint32_t rate)
{
    static float sound[512];
    static int16_t out[512];
    gibbonplate_set set;
    gibbonplate_answer answer;
    uint8_t outbox[4], key[2];
    char line[96];
    uint64_t at = 0, total = gibbonplate_total_samples((const uint8_t *)digits, strlen(digits), rate), first, last;
    uint32_t stage;
    float before = 1;
    size_t i;

    first = gibbonplate_stage_samples((const uint8_t *)digits, strlen(digits), rate, 1);
    last = first;
    for (stage = 2; stage <= 4; stage++)
        last += gibbonplate_stage_samples((const uint8_t *)digits, strlen(digits), rate, stage);
    CHECK(gibbonplate_new(&set, rate) == 0);
    snprintf(line, sizeof line, "ATDT%s\r", digits);
    for (i = 0; line[i]; i++)
        CHECK(gibbonplate_feed(&set, (uint8_t)line[i], false, outbox, sizeof outbox, &answer) == 0);
    while (at < total) {
        CHECK(gibbonplate_process_out(&set, sound, 512, key) == 0);
        CHECK(gibbonplate_earpiece((const uint8_t *)digits, strlen(digits), rate, at, out, 512) == 0);
        for (i = 0; i < 512; i++, at++) {
            float apart = (float)out[i] / 32768.0f - sound[i];

            /* one sample of a tone may be 0.0 by itself; two in a row are a gap's */
            if (at < first || at >= last || (sound[i] == 0.0f && before == 0.0f))
                CHECK(out[i] == 0);
            else
                CHECK(-0.012f < apart && apart < 0.012f);
            before = sound[i];
        }
    }
    printf("the earpiece is beside the set's own samples: %s at %lu\n", digits, (unsigned long)rate);
}

static void samples(const char *digits, uint32_t rate, uint64_t pass, size_t count)
{
    while (count > 0) {
        size_t part = count < MOST ? count : (size_t)MOST, i;
        int16_t *out = walled(part);

        CHECK(gibbonplate_earpiece((const uint8_t *)digits, strlen(digits), rate, pass, out, part) == 0);
        for (i = 0; i < part; i++) {
            putchar((uint16_t)out[i] & 255);
            putchar((uint16_t)out[i] >> 8);
        }
        pass += part;
        count -= part;
    }
}

int main(int argc, char **argv)
{
    if (argc >= 3 && strcmp(argv[1], "facts") == 0) {
        if (argc > 3)
            seed += strtoul(argv[3], NULL, 10);
        facts(strtol(argv[2], NULL, 10));
    } else if (argc == 4 && strcmp(argv[1], "beside") == 0)
        beside(argv[2], (uint32_t)strtoul(argv[3], NULL, 10));
    else if (argc == 6 && strcmp(argv[1], "samples") == 0)
        samples(argv[2], (uint32_t)strtoul(argv[3], NULL, 10), strtoull(argv[4], NULL, 10), strtoul(argv[5], NULL, 10));
    else
        return 2;
    return fflush(stdout) != 0;
}
