/* Plays a call to 5551234 into call.f32, 48,000 float samples a second, in buffers of 256.
 * cc -Iinclude examples/callback.c target/staticlib/libgibbonplate.a -o callback */
#include "gibbonplate.h"
#include <stdio.h>

int main(void)
{
    gibbonplate_set set;
    gibbonplate_answer answer;
    uint8_t outbox[GIBBONPLATE_MIN_OUTBOX];
    uint8_t key[2];
    float samples[256];
    FILE *file = fopen("call.f32", "wb");

    gibbonplate_new(&set, 48000);
    for (const char *typed = "ATDT5551234\r"; *typed; typed++)
        gibbonplate_feed(&set, (uint8_t)*typed, false, outbox, sizeof outbox, &answer);
    while (file && gibbonplate_state(&set) == GIBBONPLATE_DIALLING) {
        gibbonplate_process_out(&set, samples, 256, key);
        fwrite(samples, sizeof *samples, 256, file);
        printf("stage %d, sample %u\n", gibbonplate_stage(&set), gibbonplate_m(&set));
    }
    return file && fclose(file) == 0 ? 0 : 1;
}
