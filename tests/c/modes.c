/*
 * The processor's float modes.
 *
 *     modes calls TIMES [SEED]   with flush-to-zero and denormals-are-zero on, as some audio hosts set them, whole calls are bit for bit
 *                                those without: samples, sets, keys, cues and rings, the sender once the line is up, plan and earpiece
 *     modes rounding             with another rounding mode they are not, which the header says with the figures that are counted here
 *
 * Exits with 1 where something is not as it should be.
 */
#include "typing.h"
#include <fenv.h>
#include <xmmintrin.h>

enum { FLUSH_TO_ZERO = 0x8000, DENORMALS_ARE_ZERO = 0x0040, FLUSHED = FLUSH_TO_ZERO | DENORMALS_ARE_ZERO };

static void flushed(bool on)
{
    _mm_setcsr(on ? _mm_getcsr() | FLUSHED : _mm_getcsr() & ~(unsigned)FLUSHED);
}

/* What a set tells and what it fills. */
typedef struct {
    gibbonplate_set set;
    float samples[4096];
    uint8_t key[2], cue_key[2], ring;
    uint64_t cue;
} panel;

static void dial(panel *p, uint32_t rate, const char *digits)
{
    memset(p, 0, sizeof *p);
    CHECK(gibbonplate_new(&p->set, rate) == 0);
    type(&p->set, "ATDT");
    type(&p->set, digits);
    type(&p->set, "\r");
}

static void turn(panel *p, size_t len, uint32_t position, uint8_t byte)
{
    gibbonplate_answer answer;

    CHECK(gibbonplate_process_out(&p->set, p->samples, len, p->key) == 0);
    CHECK(gibbonplate_advance_time(&p->set, 1000, false, &answer) == 0);
    gibbonplate_ring(&p->set, &p->ring);
    gibbonplate_cue(&p->set, position, &p->cue, p->cue_key);
    if (gibbonplate_state(&p->set) == GIBBONPLATE_CONNECTED)
        gibbonplate_queue_byte(&p->set, byte);
}

/* One call, and half a second of the line once it is up. */
static size_t call(uint32_t rate, const char *digits)
{
    static panel plain, other;
    static int16_t heard[2][4096];
    size_t count = 0, after = 0;
    uint32_t stage, total = gibbonplate_total_samples((const uint8_t *)digits, strlen(digits), rate);

    dial(&plain, rate, digits);
    flushed(true);
    dial(&other, rate, digits);
    CHECK(gibbonplate_total_samples((const uint8_t *)digits, strlen(digits), rate) == total);
    flushed(false);
    for (stage = 1; stage <= 9; stage++) {
        uint32_t samples = gibbonplate_stage_samples((const uint8_t *)digits, strlen(digits), rate, stage);
        flushed(true);
        CHECK(gibbonplate_stage_samples((const uint8_t *)digits, strlen(digits), rate, stage) == samples);
        flushed(false);
    }
    while (after < rate / 2) {
        size_t len = below(8) == 0 ? below(17) : below(4097);
        uint32_t position = below(76);
        uint8_t byte = (uint8_t)random64();

        turn(&plain, len, position, byte);
        flushed(true);
        turn(&other, len, position, byte);
        CHECK((_mm_getcsr() & FLUSHED) == FLUSHED);
        flushed(false);
        CHECK(memcmp(&plain, &other, sizeof plain) == 0);
        CHECK(gibbonplate_earpiece((const uint8_t *)digits, strlen(digits), rate, count, heard[0], len) == 0);
        flushed(true);
        CHECK(gibbonplate_earpiece((const uint8_t *)digits, strlen(digits), rate, count, heard[1], len) == 0);
        flushed(false);
        CHECK(memcmp(heard[0], heard[1], sizeof heard[0]) == 0);
        count += len;
        after += gibbonplate_state(&plain.set) == GIBBONPLATE_CONNECTED ? len : 0;
    }
    CHECK(gibbonplate_m(&plain.set) >= total && gibbonplate_m(&plain.set) <= total + 4096);
    return count;
}

static void calls(size_t times)
{
    static const uint32_t rates[] = {8000, 11025, 22050, 44100, 48000, 96000, 192000};
    static const char keys[] = "0123456789ABCD*#";
    size_t samples = 0, i;

    for (i = 0; i < times; i++) {
        char digits[GIBBONPLATE_MAX_DIGITS + 1];
        size_t count = below(8) == 0 ? below(GIBBONPLATE_MAX_DIGITS + 1) : below(12), k;

        for (k = 0; k < count; k++)
            digits[k] = keys[below(16)];
        digits[count] = 0;
        samples += call(i < sizeof rates / sizeof *rates ? rates[i] : 8000 + below(184001), digits);
    }
    printf("flush-to-zero and denormals-are-zero: %zu calls, %zu samples, bit for bit as without\n", times, samples);
}

/* The samples of 123 at 8,000, made one by one, how many there are in all nine stages, and how many in Dialling. */
typedef struct {
    float samples[90000];
    uint32_t total, dialling;
} counts;

static void count(counts *c)
{
    gibbonplate_set set;
    uint8_t key[2];

    CHECK(gibbonplate_new(&set, 8000) == 0);
    type(&set, "ATDT123\r");
    for (c->total = c->dialling = 0; c->total < 90000; c->total++) {
        CHECK(gibbonplate_process_out(&set, &c->samples[c->total], 1, key) == 0);
        if (gibbonplate_state(&set) != GIBBONPLATE_DIALLING)
            return;
        c->dialling += gibbonplate_stage(&set) == 3;
    }
    CHECK(!"the call ends");
}

static void rounding(void)
{
    static const struct {
        int mode;
        const char *name;
        uint32_t dialling, total;
    } modes[] = {{FE_TONEAREST, "to nearest", 4801, 83138},
                 {FE_UPWARD, "up", 4800, 83134},
                 {FE_DOWNWARD, "down", 4801, 83138},
                 {FE_TOWARDZERO, "towards zero", 4801, 83138}};
    static counts nearest, other;
    size_t i;

    count(&nearest);
    for (i = 0; i < sizeof modes / sizeof *modes; i++) {
        const uint8_t *digits = (const uint8_t *)"123";
        uint32_t planned, all, differ = 0, n;

        CHECK(fesetround(modes[i].mode) == 0);
        count(&other);
        planned = gibbonplate_stage_samples(digits, 3, 8000, 3);
        all = gibbonplate_total_samples(digits, 3, 8000);
        CHECK(fesetround(FE_TONEAREST) == 0);
        for (n = 0; n < other.total; n++)
            differ += memcmp(&nearest.samples[n], &other.samples[n], sizeof(float)) != 0;
        printf("rounded %s: 123 at 8,000 has %u samples in Dialling, T is %u, and %u of its samples are not those rounded to nearest\n",
               modes[i].name, other.dialling, other.total, differ);
        CHECK(other.dialling == modes[i].dialling && other.total == modes[i].total && planned == other.dialling && all == other.total);
        CHECK((differ == 0) == (i == 0));
    }
}

int main(int argc, char **argv)
{
    if (argc == 2 && strcmp(argv[1], "rounding") == 0) {
        rounding();
    } else if ((argc == 3 || argc == 4) && strcmp(argv[1], "calls") == 0) {
        if (argc == 4)
            seed ^= strtoull(argv[3], NULL, 10) * 0x9E3779B97F4A7C15;
        calls(strtoull(argv[2], NULL, 10));
    } else {
        fprintf(stderr, "modes: it takes calls TIMES [SEED], or rounding\n");
        return 1;
    }
    return 0;
}
