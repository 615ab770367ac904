/*
 * Holds the key that a fill gives against what is heard: lit [TIMES [SEED]]
 *
 * A call to all sixteen keys, in an order that changes, is played sample by sample. What is lit over a run of
 * samples is held against those samples alone: a Goertzel filter for each of Q.23's eight frequencies tells the
 * row and the column, which nothing but the samples says; a run with no key in Dialling is all zeros. Then the
 * same call is played in fills of any length, empty ones too: each gives the key of its last sample. At nine
 * rates and TIMES random ones. Exits with 1 where a key is not the one that is heard.
 */
#include "typing.h"
#include <math.h>

static const char *const keypad = "123A456B789C*0#D";
static const double rows[4] = {697, 770, 852, 941}, columns[4] = {1209, 1336, 1477, 1633};

static void wrong(uint32_t rate, size_t sample, const char *what)
{
    fprintf(stderr, "tests/c/lit.c: at %u, sample %zu: %s\n", (unsigned)rate, sample, what);
    exit(1);
}

/* How much of a frequency there is in the samples. */
static double goertzel(const float *samples, size_t count, double hertz, uint32_t rate)
{
    double turn = 2 * cos(2 * 3.14159265358979323846 * hertz / rate), one = 0, two = 0;
    size_t i;

    for (i = 0; i < count; i++) {
        double next = samples[i] + turn * one - two;
        two = one;
        one = next;
    }
    return one * one + two * two - turn * one * two;
}

/* Which of four it is; 4 where it does not stand out. */
static int strongest(const float *samples, size_t count, const double hertz[4], uint32_t rate)
{
    double power[4];
    int best = 0, i;

    for (i = 0; i < 4; i++) {
        power[i] = goertzel(samples, count, hertz[i], rate);
        if (power[i] > power[best])
            best = i;
    }
    for (i = 0; i < 4; i++)
        if (i != best && power[i] * 4 > power[best])
            return 4;
    return best;
}

static void listen(uint32_t rate)
{
    static float samples[1000000];
    static uint8_t keys[1000000][2], stages[1000000];
    gibbonplate_set dialled, set;
    char digits[17];
    size_t count = 0, at, i, digit = 0;

    strcpy(digits, keypad);
    for (i = 15; i > 0; i--) {
        size_t j = below(i + 1);
        char was = digits[i];
        digits[i] = digits[j];
        digits[j] = was;
    }
    if (gibbonplate_new(&dialled, rate) != GIBBONPLATE_ACCEPTED)
        exit(1);
    type(&dialled, "ATDT");
    type(&dialled, digits);
    type(&dialled, "\r");

    for (set = dialled; count < sizeof samples / sizeof *samples && gibbonplate_stage(&set) < 4; count++) {
        if (gibbonplate_process_out(&set, &samples[count], 1, keys[count]) != GIBBONPLATE_ACCEPTED)
            wrong(rate, count + 1, "the fill is declined");
        stages[count] = gibbonplate_stage(&set);
    }
    for (at = 0; at < count; at = i) {
        bool lit = keys[at][0] != GIBBONPLATE_NO_KEY;

        for (i = at; i < count && memcmp(keys[i], keys[at], 2) == 0 && stages[i] == stages[at]; i++)
            if (stages[i] == 3 && !lit && samples[i] != 0)
                wrong(rate, i + 1, "it sounds, and no key is lit");
        if (!lit && keys[at][1] == GIBBONPLATE_NO_KEY)
            continue;
        if (keys[at][0] > 3 || keys[at][1] > 3 || stages[at] != 3)
            wrong(rate, at + 1, "it is no key of Dialling");
        if (i - at + 1 < rate / 10 || i - at > rate / 10 + 1)
            wrong(rate, at + 1, "the key is not lit for a tenth of a second");
        if (strongest(samples + at, i - at, rows, rate) != keys[at][0] || strongest(samples + at, i - at, columns, rate) != keys[at][1])
            wrong(rate, at + 1, "the key that is lit is not the one that is heard");
        if (digit == 16 || keypad[4 * keys[at][0] + keys[at][1]] != digits[digit++])
            wrong(rate, at + 1, "the key that is lit is not the digit");
    }
    if (digit != 16)
        wrong(rate, count, "not every digit was lit");

    for (set = dialled, at = 0; at < count;) {
        static float again[65536];
        uint8_t key[2];
        size_t len = below(6) == 0 ? 0 : below(4) == 0 ? below(17) : below(rate / 4);

        if (len > count - at)
            len = count - at;
        if (gibbonplate_process_out(&set, again, len, key) != GIBBONPLATE_ACCEPTED)
            wrong(rate, at, "the fill is declined");
        at += len;
        if (len == 0 ? key[0] != GIBBONPLATE_NO_KEY || key[1] != GIBBONPLATE_NO_KEY : memcmp(key, keys[at - 1], 2) != 0)
            wrong(rate, at, "a longer fill does not give the key of its last sample");
    }
}

int main(int count, char **words)
{
    static const uint32_t rates[] = {8000, 8001, 11025, 22050, 44100, 48000, 96000, 191999, 192000};
    long i, random = count > 1 ? atol(words[1]) : 0;

    if (count > 2)
        seed += strtoull(words[2], NULL, 10);
    for (i = 0; i < (long)(sizeof rates / sizeof *rates); i++)
        listen(rates[i]);
    for (i = 0; i < random; i++)
        listen((uint32_t)(8000 + below(184001)));
    printf("the keys that are lit are the sixteen that are heard, at %zu rates and %ld random ones\n", sizeof rates / sizeof *rates, random);
    return 0;
}
