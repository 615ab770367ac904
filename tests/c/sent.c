/*
 * Writes what is heard once the line is up, as raw floats: sent DIGITS RATE BUFFER SAMPLES [AT,BYTE]...
 *
 * The call is played to its end, and the line taken up by an empty fill. A byte is queued before the sample AT,
 * from 0 and in order, with -1 while the call is still dialled; buffers are as long as BUFFER says, but end where
 * a byte is to be queued. Exits with 1 where a call is declined.
 */
#include "typing.h"

static void expect(bool so, const char *what)
{
    if (!so) {
        fprintf(stderr, "tests/c/sent.c: %s\n", what);
        exit(1);
    }
}

/* Queues the bytes whose time has come, and answers how many have. */
static int queued(gibbonplate_set *set, char **plan, int count, long long now)
{
    int at = 0;

    for (; at < count && strtoll(plan[at], NULL, 10) <= now; at++)
        expect(gibbonplate_queue_byte(set, (uint8_t)strtoul(strchr(plan[at], ',') + 1, NULL, 10)) == GIBBONPLATE_ACCEPTED, "a byte is not queued");
    return at;
}

int main(int argc, char **argv)
{
    static float samples[GIBBONPLATE_MAX_FILL];
    gibbonplate_set set;
    uint8_t key[2];
    size_t left, buffer;
    long long made = 0, end;
    int next = 5;

    expect(argc >= 5, "it takes DIGITS RATE BUFFER SAMPLES [AT,BYTE]...");
    buffer = strtoull(argv[3], NULL, 10);
    end = strtoll(argv[4], NULL, 10);
    expect(buffer > 0 && buffer <= GIBBONPLATE_MAX_FILL, "a buffer has 1 to 65536 samples");
    expect(gibbonplate_new(&set, (uint32_t)strtoul(argv[2], NULL, 10)) == GIBBONPLATE_ACCEPTED, "the rate is declined");
    type(&set, "ATDT");
    type(&set, argv[1]);
    type(&set, "\r");
    for (left = gibbonplate_total_samples((const uint8_t *)argv[1], strlen(argv[1]), gibbonplate_rate(&set)); left > 0;) {
        size_t len = left < GIBBONPLATE_MAX_FILL ? left : GIBBONPLATE_MAX_FILL;
        expect(gibbonplate_process_out(&set, samples, len, key) == GIBBONPLATE_ACCEPTED, "a fill is declined");
        left -= len;
    }
    next += queued(&set, argv + next, argc - next, -1);
    expect(gibbonplate_process_out(&set, samples, 0, key) == GIBBONPLATE_ACCEPTED && gibbonplate_state(&set) == GIBBONPLATE_CONNECTED, "the line is not up");
    while (made < end) {
        long long stop;
        size_t len = buffer;

        next += queued(&set, argv + next, argc - next, made);
        stop = next < argc ? strtoll(argv[next], NULL, 10) : end;
        if (stop > end)
            stop = end;
        if ((long long)len > stop - made)
            len = (size_t)(stop - made);
        expect(gibbonplate_process_out(&set, samples, len, key) == GIBBONPLATE_ACCEPTED, "a fill in Connected is declined");
        expect(fwrite(samples, sizeof *samples, len, stdout) == len, "the samples cannot be written");
        made += (long long)len;
    }
    return fflush(stdout) == 0 ? 0 : 1;
}
