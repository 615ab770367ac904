/*
 * Tries the set from C.
 *
 *     set call DIGITS RATE FILE   plays a call in buffers of changing lengths, and holds the samples
 *                                 against those of a WAV file of `call`, bit for bit
 *     set refusals                every refusal, every reader and every reply
 *     set strings TIMES           strings at random, each held against its bytes typed singly
 *     set scribble TIMES [SEED]   writes over the memory at random and calls: each call answers, a
 *                                 declined one changes nothing, and nothing is touched that was not lent
 *
 * What is lent lies against a page that may not be touched, at its end or its front by turns, so a
 * step outside ends the program. Exits with 1 where something is not as it should be.
 */
#include "typing.h"

/* What the last fill or cue gave. */
static uint8_t key[2];

static bool lit(uint8_t row, uint8_t column)
{
    return key[0] == row && key[1] == column;
}

static bool unlit(void)
{
    return lit(GIBBONPLATE_NO_KEY, GIBBONPLATE_NO_KEY);
}

/* Memory of so many bytes with a page before it and one behind it that may not be touched. */
typedef struct {
    unsigned char *bytes;
    size_t size;
} room;

static room walled(size_t size)
{
    size_t page = (size_t)sysconf(_SC_PAGESIZE);
    size_t whole = (size + page - 1) / page * page;
    unsigned char *start = mmap(NULL, whole + 2 * page, PROT_NONE, MAP_PRIVATE | MAP_ANONYMOUS, -1, 0);

    CHECK(start != MAP_FAILED);
    CHECK(mprotect(start + page, whole, PROT_READ | PROT_WRITE) == 0);
    return (room){start + page, whole};
}

/* So many bytes of it, against the wall behind or the one before. */
static void *lent(room r, size_t size, bool behind)
{
    CHECK(size <= r.size);
    return behind ? r.bytes + r.size - size : r.bytes;
}

/* ---- a whole call */

static float *wav(const char *path, size_t *count)
{
    FILE *file = fopen(path, "rb");
    long size;
    unsigned char *bytes;
    size_t at = 12;

    CHECK(file != NULL);
    CHECK(fseek(file, 0, SEEK_END) == 0);
    size = ftell(file);
    rewind(file);
    bytes = malloc((size_t)size);
    CHECK(bytes != NULL && fread(bytes, 1, (size_t)size, file) == (size_t)size);
    fclose(file);
    while (memcmp(bytes + at, "data", 4) != 0)
        at += 8 + (bytes[at + 4] | (size_t)bytes[at + 5] << 8 | (size_t)bytes[at + 6] << 16 | (size_t)bytes[at + 7] << 24);
    *count = ((size_t)size - at - 8) / sizeof(float);
    float *samples = malloc(*count * sizeof(float));
    CHECK(samples != NULL);
    memcpy(samples, bytes + at + 8, *count * sizeof(float));
    free(bytes);
    return samples;
}

static void call(const char *digits, uint32_t rate, const char *path)
{
    size_t total;
    float *expected = wav(path, &total);
    room buffers = walled(4096 * sizeof(float));
    size_t m = 0, fills = 0;
    uint8_t stage = 0;
    gibbonplate_set set;

    CHECK(gibbonplate_new(&set, rate) == 0);
    type(&set, "atdt");
    type(&set, digits);
    type(&set, "\r");
    CHECK(gibbonplate_state(&set) == GIBBONPLATE_DIALLING && gibbonplate_mode(&set) == 'D');
    while (gibbonplate_state(&set) == GIBBONPLATE_DIALLING) {
        size_t len = below(8) == 0 ? 0 : below(4) == 0 ? below(17) : below(4097);
        float *buffer = lent(buffers, len * sizeof(float), below(2));
        size_t i;

        memset(buffers.bytes, 0x5A, buffers.size);
        CHECK(gibbonplate_process_out(&set, buffer, len, key) == 0);
        for (i = 0; i < len; i++) {
            float silence = 0;
            CHECK(memcmp(&buffer[i], m + i < total ? &expected[m + i] : &silence, sizeof(float)) == 0);
        }
        m += len;
        fills++;
        CHECK(gibbonplate_m(&set) == m);
        CHECK(gibbonplate_stage(&set) == 0 || gibbonplate_stage(&set) >= stage);
        stage = gibbonplate_stage(&set);
        CHECK((gibbonplate_state(&set) == GIBBONPLATE_CONNECTED) == (m > total || (m == total && len == 0)));
        CHECK(fills < 1000000);
    }
    CHECK(gibbonplate_stage(&set) == 0);
    printf("call %s at %u: %zu samples bit for bit, in %zu buffers\n", digits, rate, total, fills);
    free(expected);
}

/* ---- refusals, readers, replies */

/* Every call that checks the set declines it with 6, and all stays as it was. */
static void declined_with_6(gibbonplate_set set)
{
    gibbonplate_set was = set;
    gibbonplate_answer answer;
    uint8_t outbox[4] = {7}, codes[3] = {7, 7, 7}, ring;
    size_t sent = 7;
    float sample = 3;
    uint64_t cued;

    CHECK(gibbonplate_feed(&set, 'A', false, outbox, 4, &answer) == 6 && outbox[0] == 7);
    CHECK(gibbonplate_feed_all(&set, (const uint8_t *)"A", 1, false, outbox, 4, codes, 3, &sent) == 6 && sent == 0 && outbox[0] == 7 && codes[0] == 7);
    CHECK(gibbonplate_feed_all(&set, NULL, 0, false, NULL, 0, NULL, 0, &sent) == 6);
    CHECK(gibbonplate_advance_time(&set, 1, false, &answer) == 6);
    CHECK(gibbonplate_force_data_mode(&set) == 6);
    CHECK(gibbonplate_process_out(&set, &sample, 1, key) == 6 && sample == 3 && unlit());
    CHECK(gibbonplate_process_out(&set, NULL, 0, key) == 6);
    CHECK(gibbonplate_queue_byte(&set, 'A') == 6);
    CHECK(gibbonplate_ring(&set, &ring) == 6 && ring == 0);
    CHECK(gibbonplate_cue(&set, 0, &cued, key) == 6 && cued == 0 && unlit());
    CHECK(memcmp(&set, &was, sizeof set) == 0);
}

/* Bits done have 16 bits: more are declined, also where the low 16 of them are a count of the stage's own. */
static void bits(void)
{
    static const struct {
        uint8_t stage;
        uint32_t end;
    } stages[] = {{5, 60}, {7, 80}, {8, 61}, {9, 300}};
    gibbonplate_set set;
    float samples[100];
    size_t i;

    CHECK(gibbonplate_new(&set, 8000) == 0);
    type(&set, "ATDT12\r");
    for (i = 0; i < sizeof stages / sizeof *stages; i++) {
        uint32_t done;
        while (set.marks[5] != stages[i].stage)
            CHECK(gibbonplate_process_out(&set, samples, 100, key) == 0);
        for (done = 0; done < stages[i].end; done++) {
            gibbonplate_set made = set;
            made.counts[2] = done;
            CHECK(gibbonplate_force_data_mode(&made) == 0 && made.counts[2] == done);
            made.counts[2] = 65536 + done;
            declined_with_6(made);
            CHECK(gibbonplate_state(&made) == GIBBONPLATE_DIALLING && gibbonplate_m(&made) == set.counts[1]);
            made.counts[2] = 4294901760u + done;
            declined_with_6(made);
        }
        for (; done <= 65536; done++) {
            gibbonplate_set made = set;
            made.counts[2] = done;
            CHECK(gibbonplate_force_data_mode(&made) == 6);
        }
    }
}

/* The writer's text for a code; that of 6, for which NULL stands, is S12 in three digits. */
static void writes(uint8_t code, uint8_t s12, const char *reply)
{
    char three[4] = {(char)('0' + s12 / 100), (char)('0' + s12 / 10 % 10), (char)('0' + s12 % 10), 0};
    uint8_t text[40];
    size_t len = strlen(reply ? reply : three);

    memset(text, 7, sizeof text);
    CHECK(gibbonplate_write_reply(code, s12, text, sizeof text) == len);
    CHECK(memcmp(text, reply ? reply : three, len) == 0 && text[len] == 7);
    memset(text, 7, sizeof text);
    CHECK(len == 0 || (gibbonplate_write_reply(code, s12, text, len - 1) == 0 && text[0] == 7));
    CHECK(len == 0 || gibbonplate_write_reply(code, s12, text, len) == len);
    CHECK(gibbonplate_write_reply(code, s12, NULL, 0) == 0);
}

/* ATS12=n sets S12, every other number and form leaves it; then an escape at its three edges, for every S12. */
static void guards(void)
{
    static const char *const wrong[] = {"", "256", "999", "0050", "1000", "5X", " 5", "-1", "+5"};
    gibbonplate_set set, one;
    gibbonplate_answer answer;
    uint8_t outbox[4];
    int s12;
    size_t i;

    gibbonplate_new(&set, 8000);
    for (s12 = 255; s12 >= 0; s12--) {
        uint64_t guard = 20000000 * (uint64_t)s12;
        char line[16];

        snprintf(line, sizeof line, s12 % 2 ? "ATS12=%d\r" : "ats12=%03d\r", s12);
        type(&set, line);
        CHECK(gibbonplate_s12(&set) == s12);
        for (i = 0; i < sizeof wrong / sizeof *wrong; i++) {
            snprintf(line, sizeof line, "ATS12=%s", wrong[i]);
            type(&set, line);
            CHECK(gibbonplate_feed(&set, '\r', false, outbox, 4, &answer) == 0 && answer.codes[0] == 4 && gibbonplate_s12(&set) == s12);
        }
        type(&set, "ATS12?");
        CHECK(gibbonplate_feed(&set, '\r', false, outbox, 4, &answer) == 0 && answer.codes[0] == 6 && answer.codes[1] == 1);
        CHECK(gibbonplate_force_data_mode(&set) == 0);
        for (i = 0; i < 2 && guard > 0; i++) {
            one = set;
            CHECK(gibbonplate_advance_time(&one, guard - 1 + i, false, &answer) == 0);
            CHECK(gibbonplate_feed(&one, '+', false, outbox, 4, &answer) == 0 && answer.sent == 1 - i);
        }
        CHECK(gibbonplate_advance_time(&set, guard, false, &answer) == 0);
        CHECK(gibbonplate_feed(&set, '+', false, outbox, 4, &answer) == 0 && answer.sent == 0);
        for (i = 0; i < 2; i++) {
            one = set;
            CHECK(gibbonplate_advance_time(&one, guard + i, false, &answer) == 0);
            CHECK(gibbonplate_feed(&one, '+', false, outbox, 4, &answer) == 0 && answer.sent == 2 * i);
        }
        type(&set, "++");
        for (i = 0; i < 2 && guard > 0; i++) {
            one = set;
            CHECK(gibbonplate_advance_time(&one, guard - 1 + i, false, &answer) == 0 && gibbonplate_mode(&one) == (i ? 'C' : 'D'));
        }
        CHECK(gibbonplate_advance_time(&set, guard, false, &answer) == 0 && gibbonplate_mode(&set) == 'C');
        type(&set, "ATH\r");
        CHECK(gibbonplate_s12(&set) == s12);
        one = set;
        type(&one, "ATZ\r");
        CHECK(gibbonplate_s12(&one) == 50);
    }
    printf("S12: every setting, its wrong forms and the edges of its escape\n");
}

static void refusals(void)
{
    gibbonplate_set set, was;
    gibbonplate_answer answer;
    uint8_t outbox[8], digits[GIBBONPLATE_MAX_DIGITS], ring, string[GIBBONPLATE_MAX_STRING + 1], sends[1028], codes[771];
    size_t sent;
    float *samples = calloc(GIBBONPLATE_MAX_FILL + 1, sizeof(float));
    uint64_t sample;
    int i;
    static const char *const replies[] = {"", "OK", "CONNECT 300", "NO CARRIER", "ERROR", "modem-core Bell 103 v1.0.0"};

    /* 1 */
    CHECK(gibbonplate_new(&set, 7999) == 1 && gibbonplate_rate(&set) == 8000);
    CHECK(gibbonplate_new(&set, 192001) == 1 && gibbonplate_rate(&set) == 8000);
    CHECK(gibbonplate_new(&set, 192000) == 0 && gibbonplate_rate(&set) == 192000);
    CHECK(gibbonplate_new(&set, 8000) == 0 && gibbonplate_rate(&set) == 8000);
    CHECK(gibbonplate_mode(&set) == 'C' && gibbonplate_state(&set) == 0 && gibbonplate_stage(&set) == 0);
    CHECK(gibbonplate_m(&set) == 0 && gibbonplate_digits(&set, digits) == 0 && gibbonplate_s12(&set) == 50);

    /* 2 */
    was = set;
    memset(outbox, 7, sizeof outbox);
    memset(&answer, 7, sizeof answer);
    CHECK(gibbonplate_feed(&set, 'A', false, outbox, 3, &answer) == 2);
    CHECK(answer.codes[0] == 0 && answer.codes[1] == 0 && answer.sent == 0 && outbox[0] == 7);
    CHECK(gibbonplate_feed(&set, 'A', false, NULL, 0, &answer) == 2);
    CHECK(memcmp(&set, &was, sizeof set) == 0);

    /* a dial line that ran over is not dialled, and one that just fits is; a mark on a line of 79 is unsound */
    for (i = 0; i < 3; i++) {
        gibbonplate_set line;
        int length = GIBBONPLATE_MAX_LINE - 1 + i, k;
        type(&set, "ATDT");
        for (k = 4; k < length; k++)
            type(&set, "1");
        CHECK(gibbonplate_feed(&set, '\n', false, outbox, 4, &answer) == 0);
        line = set;
        line.marks[8] = 1;
        CHECK(gibbonplate_feed(&line, '\r', false, outbox, 4, &answer) == (i == 0 ? 6 : 0));
        line = set;
        line.marks[8] = 2;
        CHECK(gibbonplate_feed(&line, '\r', false, outbox, 4, &answer) == 6);
        CHECK(gibbonplate_feed(&set, '\r', false, outbox, 4, &answer) == 0 && answer.codes[0] == (i == 2 ? 4 : 1) && answer.codes[1] == 0);
        CHECK(gibbonplate_state(&set) == (i == 2 ? GIBBONPLATE_IDLE : GIBBONPLATE_DIALLING) && outbox[0] == 7);
        CHECK(gibbonplate_digits(&set, digits) == (size_t)(i == 2 ? 0 : length - 4));
        CHECK(gibbonplate_new(&set, 8000) == 0);
    }

    /* 8, 9, and a string of no bytes */
    memset(string, 'A', sizeof string);
    memset(sends, 7, sizeof sends);
    memset(codes, 7, sizeof codes);
    was = set;
    sent = 9;
    CHECK(gibbonplate_feed_all(&set, string, 257, false, sends, sizeof sends, codes, sizeof codes, &sent) == 8 && sent == 0);
    CHECK(gibbonplate_feed_all(&set, string, 257, false, sends, 0, codes, 0, &sent) == 8);
    CHECK(gibbonplate_feed_all(&set, string, 256, false, sends, 1023, codes, 768, &sent) == 9 && sent == 0);
    CHECK(gibbonplate_feed_all(&set, string, 256, false, sends, 1024, codes, 767, &sent) == 9);
    CHECK(gibbonplate_feed_all(&set, string, 1, false, sends, 3, codes, 2, &sent) == 9);
    CHECK(gibbonplate_feed_all(&set, NULL, 0, false, NULL, 0, NULL, 0, &sent) == 0 && sent == 0);
    CHECK(memcmp(&set, &was, sizeof set) == 0 && sends[0] == 7 && sends[1027] == 7 && codes[0] == 7 && codes[770] == 7);
    CHECK(gibbonplate_feed_all(&set, string, 256, false, sends, 1024, codes, 768, &sent) == 0 && sent == 0);
    CHECK(codes[0] == 0 && codes[766] == 0 && codes[767] == 50 && codes[768] == 7 && sends[0] == 7);
    memset(codes, 7, sizeof codes);
    CHECK(gibbonplate_feed_all(&set, (const uint8_t *)"\rATI\rATX\r", 9, false, sends, 36, codes, 29, &sent) == 0 && sent == 0);
    CHECK(memcmp(codes, "\4\0002\0\0002\0\0002\0\0002\5\0012\0\0002\0\0002\0\0002\4\0002\7\7", 29) == 0);

    /* 7, and a cue */
    CHECK(gibbonplate_cue(&set, 0, &sample, key) == 7 && sample == 0 && unlit());
    type(&set, "ATDT12\r");
    CHECK(gibbonplate_cue(&set, 0, &sample, key) == 0 && sample == 400 + 8000 + 1 && lit(0, 0));
    CHECK(gibbonplate_cue(&set, 1, &sample, key) == 0 && sample == 400 + 8000 + 1600 + 1 && lit(0, 1));
    CHECK(gibbonplate_cue(&set, 2, &sample, key) == 7 && sample == 0 && unlit());
    CHECK(gibbonplate_cue(&set, UINT32_MAX, &sample, key) == 7 && sample == 0);
    CHECK(gibbonplate_digits(&set, digits) == 2 && memcmp(digits, "12", 2) == 0);

    /* 3 */
    was = set;
    samples[0] = 3;
    CHECK(gibbonplate_process_out(&set, samples, GIBBONPLATE_MAX_FILL + 1, key) == 3 && samples[0] == 3 && unlit());
    CHECK(memcmp(&set, &was, sizeof set) == 0);
    CHECK(gibbonplate_process_out(&set, NULL, 0, key) == 0 && gibbonplate_stage(&set) == 1 && unlit());

    /* the rings, and the line up: a fill is heard, and m stands still */
    CHECK(gibbonplate_process_out(&set, samples, 400 + 8000 + 3200, key) == 0 && gibbonplate_stage(&set) == 3 && unlit());
    CHECK(gibbonplate_ring(&set, &ring) == 0 && ring == 1);
    CHECK(gibbonplate_process_out(&set, samples, 24001, key) == 0);
    CHECK(gibbonplate_ring(&set, &ring) == 0 && ring == 2);
    CHECK(gibbonplate_process_out(&set, samples, 8000, key) == 0);
    CHECK(gibbonplate_ring(&set, &ring) == 0 && ring == 0);
    CHECK(gibbonplate_process_out(&set, samples, GIBBONPLATE_MAX_FILL, key) == 0);
    CHECK(gibbonplate_state(&set) == GIBBONPLATE_CONNECTED);
    was = set;
    samples[0] = 3;
    CHECK(gibbonplate_process_out(&set, samples, 2, key) == 0 && samples[0] == 0 && samples[1] > 0 && unlit());
    CHECK(gibbonplate_m(&set) == gibbonplate_m(&was) && gibbonplate_stage(&set) == 0);

    /* in range is taken, also where no calls lead there */
    CHECK(gibbonplate_new(&was, 8000) == 0);
    for (i = 4999999; i <= 5000001; i++) {
        gibbonplate_set over = was;
        over.counts[1] = (uint32_t)i;
        CHECK(gibbonplate_m(&over) == (uint32_t)i);
        if (i > 5000000)
            declined_with_6(over);
        else
            CHECK(gibbonplate_process_out(&over, samples, 1, key) == 0 && gibbonplate_force_data_mode(&over) == 0);
    }

    /* the stage is the last sample's, and after an empty fill the next one's */
    type(&was, "ATDT12\r");
    CHECK(gibbonplate_stage(&was) == 0 && gibbonplate_process_out(&was, samples, 400, key) == 0 && gibbonplate_stage(&was) == 1);
    CHECK(gibbonplate_process_out(&was, NULL, 0, key) == 0 && gibbonplate_stage(&was) == 2 && gibbonplate_m(&was) == 400);
    CHECK(gibbonplate_process_out(&was, samples, 1, key) == 0 && gibbonplate_stage(&was) == 2);

    /* 12 */
    for (i = 0; i < 256; i++)
        CHECK(gibbonplate_queue_byte(&set, (uint8_t)i) == 0);
    was = set;
    CHECK(gibbonplate_queue_byte(&set, 'x') == 12 && memcmp(&set, &was, sizeof set) == 0);

    /* carrier, time and data mode */
    CHECK(gibbonplate_advance_time(&set, 20000000, true, &answer) == 0 && answer.codes[0] == 2);
    CHECK(gibbonplate_feed(&set, 'x', true, outbox, 4, &answer) == 0 && answer.sent == 1 && outbox[0] == 'x' && outbox[1] == 7);
    CHECK(gibbonplate_advance_time(&set, 699999999, false, &answer) == 0 && answer.codes[0] == 0);
    CHECK(gibbonplate_advance_time(&set, 1, false, &answer) == 0 && answer.codes[0] == 3);
    CHECK(gibbonplate_state(&set) == 0 && gibbonplate_mode(&set) == 'C');
    CHECK(gibbonplate_force_data_mode(&set) == 0 && gibbonplate_mode(&set) == 'D');
    memset(sends, 7, sizeof sends);
    CHECK(gibbonplate_feed_all(&set, (const uint8_t *)"a+\r", 3, false, sends, 12, codes, 9, &sent) == 0 && sent == 3);
    CHECK(memcmp(sends, "a+\r\7", 4) == 0);

    /* 6 */
    for (i = 0; i < 256; i++)
        CHECK(gibbonplate_queue_byte(&set, (uint8_t)i) == 0);
    set.counts[0] = 7999;
    CHECK(gibbonplate_feed_all(&set, string, 257, false, sends, 0, codes, 0, &sent) == 6 && sent == 0 && sends[0] == 'a');
    declined_with_6(set);
    bits();
    memset(&set, 0xFF, sizeof set);
    CHECK(gibbonplate_process_out(&set, samples, 1, key) == 6 && gibbonplate_rate(&set) == 0 && gibbonplate_mode(&set) == 'C' && gibbonplate_s12(&set) == 50);
    memset(&set, 0, sizeof set);
    CHECK(gibbonplate_process_out(&set, samples, 1, key) == 6 && gibbonplate_rate(&set) == 0);

    /* replies */
    for (i = 0; i < 256; i++) {
        const char *reply = i < 6 ? replies[i] : "";
        writes((uint8_t)i, (uint8_t)random64(), i == 6 ? NULL : reply);
    }
    for (i = 0; i < 256; i++)
        writes(6, (uint8_t)i, NULL);
    free(samples);
    printf("every refusal, every reader and every reply\n");
}

/* ---- strings */

/* A set that strings, lapses and fills lead on, and one with the same bytes typed singly. */
static void strings(size_t times)
{
    static const char *const lines[] = {"AT\r", "ATDT5551234\r", "ATA\r", "ATH\rATDT12\r", "ATI\r", "+++", "ATO\r", "atx\r", "\n", "ATS12=7\r", "ats12?\r", "ATZ\r"};
    room typed = walled(GIBBONPLATE_MAX_STRING), sends = walled(4 * GIBBONPLATE_MAX_STRING + 9), coded = walled(3 * GIBBONPLATE_MAX_STRING + 9);
    size_t moved = 0, bytes = 0, all = 0, i;
    gibbonplate_set set, singly;
    gibbonplate_answer answer;

    gibbonplate_new(&set, 8000);
    for (i = 0; i < times; i++) {
        bool behind = below(2), carrier = below(2);
        size_t count = 0, spare = below(10), places = below(10), at = 0, sent = 9, k;
        uint8_t text[GIBBONPLATE_MAX_STRING], outbox[4], *string, *out, *codes;

        while (count < 200 && below(4) != 0) {
            const char *line = lines[below(sizeof lines / sizeof *lines)];
            size_t len = below(8) == 0 ? below(40) : strlen(line);
            for (k = 0; k < len; k++)
                text[count++] = len == strlen(line) ? (uint8_t)line[k] : (uint8_t)random64();
        }
        string = lent(typed, count, behind);
        memcpy(string, text, count);
        memset(sends.bytes, 0x5A, sends.size);
        memset(coded.bytes, 0x5A, coded.size);
        out = lent(sends, 4 * count + spare, behind);
        codes = lent(coded, 3 * count + places, behind);
        singly = set;
        CHECK(gibbonplate_feed_all(&set, string, count, carrier, out, 4 * count + spare, codes, 3 * count + places, &sent) == 0);
        for (k = 0; k < count; k++) {
            uint8_t state = gibbonplate_state(&singly);
            CHECK(gibbonplate_feed(&singly, text[k], carrier, outbox, sizeof outbox, &answer) == 0);
            CHECK(memcmp(out + at, outbox, answer.sent) == 0 && memcmp(codes + 3 * k, answer.codes, 2) == 0 && codes[3 * k + 2] == gibbonplate_s12(&singly));
            at += answer.sent;
            moved += state != gibbonplate_state(&singly);
        }
        CHECK(sent == at && memcmp(&set, &singly, sizeof set) == 0);
        for (k = at; k < 4 * count + spare; k++)
            CHECK(out[k] == 0x5A);
        for (k = 3 * count; k < 3 * count + places; k++)
            CHECK(codes[k] == 0x5A);
        CHECK(memcmp(string, text, count) == 0);
        bytes += sent;
        all += count;
        CHECK(gibbonplate_advance_time(&set, below(2) ? 1000000000 : 1, carrier, &answer) == 0);
    }
    printf("%zu strings of %zu bytes as their bytes typed singly: %zu sent, the state changed %zu times\n", times, all, bytes, moved);
    CHECK(times < 1000 || (bytes > 0 && moved > 0));
}

/* ---- memory scribbled over */

enum { SETS = 400, LONGEST = 200 };

/* Sets of every state and stage to begin with. */
static size_t bank(gibbonplate_set *sets)
{
    static const char *const lines[] = {
        "", "A", "ATDT1", "ATDT1234567890123456789012345678901234567890123456789012345678901234567890123456",
        "ATA\r", "ATDT\r", "ATDT0123456789ABCD*#\r"};
    static float samples[GIBBONPLATE_MAX_FILL];
    size_t count = 0, i;

    for (i = 0; i < sizeof lines / sizeof *lines; i++) {
        gibbonplate_new(&sets[count], 8000);
        type(&sets[count++], lines[i]);
    }
    while (count < SETS && gibbonplate_state(&sets[count - 1]) == GIBBONPLATE_DIALLING) {
        sets[count] = sets[count - 1];
        CHECK(gibbonplate_process_out(&sets[count++], samples, 300, key) == 0);
    }
    CHECK(gibbonplate_state(&sets[count - 1]) == GIBBONPLATE_CONNECTED);
    /* frames begun and bytes waiting; at last as many as can */
    for (i = 0; i < 20; i++) {
        sets[count] = sets[count - 1];
        CHECK(gibbonplate_queue_byte(&sets[count], (uint8_t)random64()) == 0);
        CHECK(gibbonplate_process_out(&sets[count++], samples, 101, key) == 0);
    }
    sets[count] = sets[count - 1];
    while (gibbonplate_queue_byte(&sets[count], (uint8_t)random64()) == 0)
        ;
    return count + 1;
}

/* Any element of an array. */
#define PLACE(array) ((array)[below(sizeof(array) / sizeof *(array))])

/* A few places of the memory get numbers at the edges of what is allowed, or any. */
static void scribble(gibbonplate_set *set)
{
    static const double reals[] = {0.0, -0.0, 1.0, 0.9999999999999999, 6.283185307179586, 6.283185307179585,
                                   -1.0, 8000.0, 0.0375, 1e308, 4.9e-324};
    static const uint64_t numbers[] = {0, 1, 2, 3, 4, 9, 10, 11, 60, 61, 76, 77, 80, 81, 255, 256, 300, 400, 65535, 65536, 65595,
                                       699999999, 700000000, 5000000, 5000001, 4294967295, 18446744073709551615u};
    size_t times = below(4);

    while (times-- > 0) {
        uint64_t any = below(2) ? random64() : PLACE(numbers);
        switch (below(9)) {
        case 0: PLACE(set->longs) = any; break;
        case 1: PLACE(set->counts) = (uint32_t)any; break;
        case 2: memcpy(&PLACE(set->reals), &any, sizeof any); break;
        case 3: PLACE(set->reals) = PLACE(reals); break;
        case 4: PLACE(set->marks) = (uint8_t)any; break;
        case 5: PLACE(set->line) = (uint8_t)any; break;
        case 6: ((unsigned char *)set)[below(sizeof *set)] = (unsigned char)any; break;
        case 7: PLACE(set->queue) = (uint8_t)any; break;
        default: PLACE(set->keys) = (uint8_t)any; break;
        }
    }
    if (below(50) == 0)
        for (size_t i = 0; i < sizeof *set; i++)
            ((unsigned char *)set)[i] = (unsigned char)random64();
}

static void scribbled(size_t times)
{
    static gibbonplate_set sets[SETS];
    size_t count = bank(sets), accepted = 0, declined[13] = {0}, i;
    room home = walled(sizeof(gibbonplate_set)), away = walled(LONGEST * sizeof(float)), told = walled(sizeof(gibbonplate_answer));
    unsigned char before[LONGEST * sizeof(float)], text[64];

    for (i = 0; i < times; i++) {
        bool behind = below(2);
        gibbonplate_set *set = lent(home, sizeof *set, behind), was;
        gibbonplate_answer *answer = lent(told, sizeof *answer, behind);
        size_t len = below(LONGEST + 1), lost = below(2) ? len : below(8);
        uint8_t refusal = 0, ring = 9;
        uint64_t sample = 9;
        uint8_t *bytes;
        float *samples;
        bool carrier = below(2);

        *set = sets[below(count)];
        scribble(set);
        memcpy(&was, set, sizeof was);
        memset(away.bytes, (int)below(256), away.size);
        bytes = lent(away, lost, behind);
        samples = lent(away, len * sizeof(float), behind);
        memcpy(before, away.bytes + (behind ? away.size - sizeof before : 0), sizeof before);
        switch (below(8)) {
        case 0: refusal = gibbonplate_feed(set, (uint8_t)(below(3) ? random64() : '\r'), carrier, bytes, lost, answer); break;
        case 6: {
            size_t k, typed = below(sizeof text), sent = 9;
            uint8_t codes[128] = {9};
            for (k = 0; k < typed; k++)
                text[k] = (uint8_t)(below(4) ? random64() : '\r');
            refusal = gibbonplate_feed_all(set, text, typed, carrier, bytes, lost, codes, sizeof codes, &sent);
            CHECK(refusal == 0 ? sent <= 4 * typed : sent == 0 && codes[0] == 9);
            break;
        }
        case 1: refusal = gibbonplate_advance_time(set, below(2) ? random64() : below(2000000000), carrier, answer); break;
        case 2: refusal = gibbonplate_force_data_mode(set); break;
        case 3: refusal = gibbonplate_process_out(set, samples, len, key); CHECK(refusal == 0 || unlit()); break;
        case 7: refusal = gibbonplate_queue_byte(set, (uint8_t)random64()); break;
        case 4: refusal = gibbonplate_ring(set, &ring); CHECK(refusal == 0 ? ring <= 2 : ring == 0); break;
        default: refusal = gibbonplate_cue(set, (uint32_t)below(80), &sample, key); CHECK((refusal == 0) == (sample > 0) && (refusal == 0) == !unlit()); break;
        }
        CHECK(refusal == 0 || refusal == 2 || refusal == 6 || refusal == 7 || refusal == 9 || refusal == 12);
        declined[refusal]++;
        if (refusal == 0) {
            accepted++;
            CHECK(gibbonplate_rate(set) == was.counts[0]);
        } else {
            CHECK(memcmp(set, &was, sizeof was) == 0);
            CHECK(memcmp(before, away.bytes + (behind ? away.size - sizeof before : 0), sizeof before) == 0);
        }
        CHECK(gibbonplate_state(set) <= 3);
        CHECK(gibbonplate_mode(set) == 'C' || gibbonplate_mode(set) == 'D');
        CHECK(gibbonplate_digits(set, before) <= GIBBONPLATE_MAX_DIGITS);
        (void)gibbonplate_stage(set);
        (void)gibbonplate_m(set);
    }
    printf("scribbled over %zu times: %zu calls were done, and declined with 2: %zu, 6: %zu, 7: %zu, 9: %zu, 12: %zu\n",
           times, accepted, declined[2], declined[6], declined[7], declined[9], declined[12]);
    CHECK(times < 100000 || (accepted > 0 && declined[2] > 0 && declined[6] > 0 && declined[7] > 0 && declined[9] > 0 && declined[12] > 0));
}

int main(int argc, char **argv)
{
    if (argc == 5 && strcmp(argv[1], "call") == 0) {
        call(argv[2], (uint32_t)strtoul(argv[3], NULL, 10), argv[4]);
    } else if (argc == 2 && strcmp(argv[1], "refusals") == 0) {
        refusals();
        guards();
    } else if (argc == 3 && strcmp(argv[1], "strings") == 0) {
        strings(strtoull(argv[2], NULL, 10));
    } else if ((argc == 3 || argc == 4) && strcmp(argv[1], "scribble") == 0) {
        if (argc == 4)
            seed ^= strtoull(argv[3], NULL, 10) * 0x9E3779B97F4A7C15;
        scribbled(strtoull(argv[2], NULL, 10));
    } else {
        fprintf(stderr, "set: it takes call DIGITS RATE FILE, or refusals, or strings TIMES, or scribble TIMES [SEED]\n");
        return 1;
    }
    return 0;
}
