/*
 * Tries the queue and the sender of a line that is up: queue [TIMES [SEED]]
 *
 * In every state 256 bytes wait and the next is declined with 12, all as it was; dial, answer, hang-up and a lost carrier empty the queue, and
 * nothing else does. Once the line is up a place is free with the sample at which a frame begins, ten symbols after the one before. What is
 * heard is the same however the buffers are cut, at nine rates and TIMES random ones, and so is the set then. Exits with 1 where it is not so.
 */
#include "typing.h"
#include <math.h>

enum { HEARD = 20000, BYTES = 24 };

static float samples[GIBBONPLATE_MAX_FILL + 1];
static uint8_t key[2];

static void passes(gibbonplate_set *set, uint64_t ns, bool carrier)
{
    gibbonplate_answer answer;

    CHECK(gibbonplate_advance_time(set, ns, carrier, &answer) == 0);
}

/* From data mode to command mode. */
static void escape(gibbonplate_set *set)
{
    passes(set, 1000000000, false);
    type(set, "+++");
    passes(set, 1000000000, false);
    CHECK(gibbonplate_mode(set) == 'C');
}

static void plays(gibbonplate_set *set, size_t count)
{
    while (count > 0) {
        size_t len = count < GIBBONPLATE_MAX_FILL ? count : GIBBONPLATE_MAX_FILL;
        CHECK(gibbonplate_process_out(set, samples, len, key) == 0);
        count -= len;
    }
}

/* A set in one of the states; in Dialling with some of the call played. */
static gibbonplate_set in_state(uint8_t state, uint32_t rate)
{
    gibbonplate_set set;

    CHECK(gibbonplate_new(&set, rate) == 0);
    if (state == GIBBONPLATE_ANSWERING)
        type(&set, "ATA\r");
    if (state == GIBBONPLATE_DIALLING || state == GIBBONPLATE_CONNECTED)
        type(&set, "ATDT1\r");
    if (state == GIBBONPLATE_DIALLING)
        plays(&set, 1000);
    if (state == GIBBONPLATE_CONNECTED) {
        plays(&set, gibbonplate_total_samples((const uint8_t *)"1", 1, rate));
        CHECK(gibbonplate_process_out(&set, NULL, 0, key) == 0);
    }
    CHECK(gibbonplate_state(&set) == state);
    return set;
}

/* Declined with 12, and all as it was. */
static bool full(gibbonplate_set *set)
{
    gibbonplate_set was = *set;
    uint8_t refusal = gibbonplate_queue_byte(set, 'x');

    CHECK(refusal == 0 || (refusal == GIBBONPLATE_QUEUE_FULL && memcmp(set, &was, sizeof was) == 0));
    *set = was;
    return refusal == GIBBONPLATE_QUEUE_FULL;
}

/* So many more can be queued. */
static void fits(gibbonplate_set *set, int count)
{
    uint8_t state = gibbonplate_state(set), stage = gibbonplate_stage(set), mode = gibbonplate_mode(set);
    uint32_t m = gibbonplate_m(set);

    for (; count > 0; count--)
        CHECK(gibbonplate_queue_byte(set, (uint8_t)below(256)) == 0);
    CHECK(full(set));
    CHECK(gibbonplate_state(set) == state && gibbonplate_stage(set) == stage && gibbonplate_mode(set) == mode && gibbonplate_m(set) == m);
}

static void emptied(void)
{
    static const char *const lines[] = {"ATH\r", "ath0\r", "ATA\r", "ATDT\r", "atdt5551234\r"}, *const others[] = {"AT\r", "ATZ\r", "ATI\r", "ATX\r", "ATO\r", "ATS12=50\r", "ATS12?\r"};
    uint8_t state;
    size_t i;

    for (state = 0; state <= 3; state++) {
        gibbonplate_set with = in_state(state, 8000), set;

        fits(&with, GIBBONPLATE_MAX_QUEUE);
        for (i = 0; i < sizeof lines / sizeof *lines; i++) {
            set = with;
            if (gibbonplate_mode(&set) == 'D')
                escape(&set);
            CHECK(full(&set));
            type(&set, lines[i]);
            fits(&set, GIBBONPLATE_MAX_QUEUE);
        }
        for (i = 0; i < sizeof others / sizeof *others; i++) {
            set = with;
            if (gibbonplate_mode(&set) == 'D')
                escape(&set);
            type(&set, others[i]);
            passes(&set, 700000000, false);
            CHECK(gibbonplate_force_data_mode(&set) == 0);
            type(&set, "a+\r");
            CHECK(full(&set));
        }
        set = with;
        passes(&set, 1, true);
        passes(&set, 699999999, false);
        CHECK(full(&set));
        passes(&set, 1, false);
        if (state == GIBBONPLATE_IDLE)
            CHECK(full(&set));
        else
            fits(&set, GIBBONPLATE_MAX_QUEUE);
        CHECK(gibbonplate_state(&set) == GIBBONPLATE_IDLE && gibbonplate_new(&set, 8000) == 0);
        fits(&set, GIBBONPLATE_MAX_QUEUE);
        set = with;
        CHECK(gibbonplate_new(&set, 1) == 1);
        fits(&set, GIBBONPLATE_MAX_QUEUE);
    }
    printf("in every state %d wait and no more, and the calls that empty the queue are dial, answer, hang-up and a lost carrier\n", GIBBONPLATE_MAX_QUEUE);
}

/* What is queued while dialling is there when the line is up, however that comes; then a place is free with each frame's first sample. */
static void freed(uint32_t rate)
{
    static const size_t past[] = {0, 1, 9};
    gibbonplate_set set;
    size_t i, n;
    int frame;

    for (i = 0; i < sizeof past / sizeof *past; i++) {
        double phase = 0;
        set = in_state(GIBBONPLATE_DIALLING, rate);
        fits(&set, GIBBONPLATE_MAX_QUEUE);
        plays(&set, gibbonplate_total_samples((const uint8_t *)"1", 1, rate) - 1000);
        CHECK(gibbonplate_state(&set) == GIBBONPLATE_DIALLING && full(&set));
        CHECK(gibbonplate_process_out(&set, samples, past[i], key) == 0 && gibbonplate_state(&set) == GIBBONPLATE_CONNECTED);
        for (n = 0; n < past[i]; n++)
            CHECK(samples[n] == 0);
        CHECK(full(&set));
        CHECK(gibbonplate_process_out(&set, NULL, 0, key) == 0 && full(&set));
        for (frame = 0; frame < 3; frame++) {
            int symbols = 0;
            CHECK(gibbonplate_process_out(&set, samples, 1, key) == 0 && (frame > 0 || samples[0] == 0));
            CHECK(!full(&set));
            fits(&set, 1);
            /* the rest of its ten symbols */
            for (phase += 300.0 / rate; symbols < 10; phase += 300.0 / rate) {
                if (phase >= 1) {
                    phase -= 1;
                    if (++symbols == 10)
                        break;
                }
                CHECK(full(&set) && gibbonplate_process_out(&set, samples, 1, key) == 0);
            }
            CHECK(full(&set));
        }
    }
}

/* The first samples: a fresh oscillator at 0, on mark or, with a byte waiting, on a start bit's space; nothing over 0.7. */
static void first(uint32_t rate)
{
    const double tau = 2 * 3.14159265358979323846;
    int waits, n;

    for (waits = 0; waits < 2; waits++) {
        gibbonplate_set set = in_state(GIBBONPLATE_CONNECTED, rate), was;
        uint32_t m = gibbonplate_m(&set);
        float most = 0;

        if (waits)
            CHECK(gibbonplate_queue_byte(&set, 0xA5) == 0);
        was = set;
        samples[0] = 3;
        CHECK(gibbonplate_process_out(&set, samples, GIBBONPLATE_MAX_FILL + 1, key) == 3 && samples[0] == 3 && memcmp(&set, &was, sizeof set) == 0);
        CHECK(gibbonplate_process_out(&set, NULL, 0, key) == 0 && memcmp(&set, &was, sizeof set) == 0);
        CHECK(gibbonplate_process_out(&set, samples, GIBBONPLATE_MAX_FILL, key) == 0);
        CHECK(key[0] == GIBBONPLATE_NO_KEY && key[1] == GIBBONPLATE_NO_KEY);
        for (n = 0; n < (int)(rate / 300); n++)
            CHECK(fabs(samples[n] - 0.7 * sin(tau * (waits ? 1070 : 1270) * n / rate)) < 1e-6);
        for (n = 0; n < GIBBONPLATE_MAX_FILL; n++)
            most = fabsf(samples[n]) > most ? fabsf(samples[n]) : most;
        CHECK(most <= 0.7f && most > 0.699f);
        CHECK(gibbonplate_m(&set) == m && gibbonplate_stage(&set) == 0 && gibbonplate_state(&set) == GIBBONPLATE_CONNECTED);
    }
}

/* Bytes queued at places of the wave, which is played sample by sample and in buffers cut at random: the same samples, and the same set. */
static void cut(uint32_t rate)
{
    static float one[HEARD], other[HEARD];
    gibbonplate_set up = in_state(GIBBONPLATE_CONNECTED, rate), single = up, set;
    size_t at[BYTES], made, i, times;
    uint8_t byte[BYTES];

    for (i = 0; i < BYTES; i++) {
        at[i] = (i ? at[i - 1] : 0) + (below(2) ? 0 : below(3) ? below(2 * HEARD / BYTES) : rate / 300);
        byte[i] = (uint8_t)below(256);
    }
    for (made = 0, i = 0; made < HEARD; made++) {
        for (; i < BYTES && at[i] == made; i++)
            CHECK(gibbonplate_queue_byte(&single, byte[i]) == 0);
        CHECK(gibbonplate_process_out(&single, one + made, 1, key) == 0);
    }
    for (times = 0; times < 20; times++) {
        set = up;
        for (made = 0, i = 0; made < HEARD;) {
            size_t len = below(5) == 0 ? 0 : below(3) == 0 ? below(20) : below(5000);
            for (; i < BYTES && at[i] == made; i++)
                CHECK(gibbonplate_queue_byte(&set, byte[i]) == 0);
            if (i < BYTES && len > at[i] - made)
                len = at[i] - made;
            if (len > HEARD - made)
                len = HEARD - made;
            CHECK(gibbonplate_process_out(&set, other + made, len, key) == 0);
            made += len;
        }
        CHECK(memcmp(one, other, sizeof one) == 0 && memcmp(&set, &single, sizeof set) == 0);
    }
}

int main(int argc, char **argv)
{
    static const uint32_t rates[] = {8000, 8001, 9600, 11025, 22050, 44100, 48000, 96000, 192000};
    size_t times = argc > 1 ? strtoull(argv[1], NULL, 10) : 8, i;

    if (argc > 2)
        seed ^= strtoull(argv[2], NULL, 10) * 0x9E3779B97F4A7C15;
    emptied();
    for (i = 0; i < sizeof rates / sizeof *rates + times; i++) {
        uint32_t rate = i < sizeof rates / sizeof *rates ? rates[i] : 8000 + (uint32_t)below(184001);
        first(rate);
        cut(rate);
        if (i < 6)
            freed(rate);
    }
    printf("at %zu rates the sender's first samples, and %d of them the same however the buffers are cut, with %d bytes queued between\n", i, HEARD, BYTES);
    return 0;
}
