/* What is written down: the log, a CSV file with a row for each change, and the take, a WAV file of what was played.
 * Where a file cannot be written, the show goes on and says so. */
#define _DEFAULT_SOURCE
#include "show.h"
#include <errno.h>
#include <string.h>
#include <sys/stat.h>
#include <time.h>

bool book_open(book *b, const char *path)
{
    b->path = path;
    b->file = fopen(path, "wb");
    if (!b->file)
        fprintf(stderr, "show: cannot open \"%s\": %s\n", path, strerror(errno));
    return b->file != NULL;
}

static void failed(book *b)
{
    if (!b->failed[0])
        snprintf(b->failed, sizeof b->failed, "cannot write \"%.100s\": %s", b->path, strerror(errno));
}

bool book_close(book *b)
{
    if (!b->file)
        return true;
    if (fclose(b->file) != 0)
        failed(b);
    b->file = NULL;
    if (b->failed[0])
        fprintf(stderr, "show: %s\n", b->failed);
    return !b->failed[0];
}

/* ---- the log */

static void put_quoted(FILE *file, const char *text)
{
    fputc('"', file);
    for (; *text; text++) {
        unsigned char c = (unsigned char)*text;

        if (c == '"')
            fputs("\"\"", file);
        else if (c == '\r')
            fputs("\\r", file);
        else if (c < 32 || c > 126)
            fprintf(file, "\\x%02x", c);
        else
            fputc(c, file);
    }
    fputc('"', file);
}

/* Seconds of the show, and the time of day, to the millisecond. */
static void put_times(FILE *file, uint64_t frame, uint32_t rate)
{
    char day[32];
    struct timespec now;
    struct tm parts;

    clock_gettime(CLOCK_REALTIME, &now);
    localtime_r(&now.tv_sec, &parts);
    strftime(day, sizeof day, "%Y-%m-%dT%H:%M:%S", &parts);
    fprintf(file, "%llu,%.6f,%s.%03ld", (unsigned long long)frame, rate ? (double)frame / rate : 0.0, day,
            now.tv_nsec / 1000000);
}

/* Each row is on the disk as it is made, so that a full disk is known at once. */
static void flush(book *b)
{
    if (fflush(b->file) != 0)
        failed(b);
}

void log_header(book *b)
{
    if (!b->file)
        return;
    fputs("frame,seconds,clock,lit,icon,name,state,mode,carrier,key,typed,reply,note\n", b->file);
    flush(b);
}

void log_row(book *b, const book_row *row)
{
    const show_face *face = row->face;
    char key[2] = {show_key_of(face), 0};

    if (!b->file || b->failed[0])
        return;
    put_times(b->file, row->event->frame, face->rate);
    fprintf(b->file, ",%llu,%u,\"%s\",%u,%c,%u,", (unsigned long long)row->lit, face->icon, show_names[face->icon],
            face->state, face->mode, face->carrier);
    put_quoted(b->file, key);
    fputc(',', b->file);
    put_quoted(b->file, row->typed);
    fputc(',', b->file);
    put_quoted(b->file, row->reply);
    fputc(',', b->file);
    put_quoted(b->file, row->note);
    fputc('\n', b->file);
    flush(b);
}

void log_end(book *b, const show *s, const char *typed)
{
    if (!b->file || b->failed[0])
        return;
    put_times(b->file, s->frame, s->rate);
    fputs(",,,,,,,,", b->file);
    put_quoted(b->file, typed);
    fprintf(b->file, ",,\"rate %u, callbacks %llu, mean %.1f us, worst %.1f us, late %u, lost %u\"\n", s->rate,
            (unsigned long long)s->calls, s->calls ? (double)s->total_ns / (double)s->calls / 1e3 : 0.0,
            (double)s->worst_ns / 1e3, s->late, s->lost);
    flush(b);
}

/* ---- the take */

static void put_word(FILE *file, uint32_t word, int bytes)
{
    for (; bytes > 0; bytes--, word >>= 8)
        fputc((int)(word & 255), file);
}

/* The chunks that `call` writes: one channel of 32-bit floats, and how many samples there are. */
void take_header(book *b, uint32_t rate, uint32_t samples)
{
    FILE *file = b->file;

    if (!file || b->failed[0] || fseek(file, 0, SEEK_SET) != 0)
        return;
    fputs("RIFF", file);
    put_word(file, 50 + samples * 4, 4);
    fputs("WAVEfmt ", file);
    put_word(file, 18, 4);
    put_word(file, 3, 2); /* floats */
    put_word(file, 1, 2);
    put_word(file, rate, 4);
    put_word(file, rate * 4, 4);
    put_word(file, 4, 2);
    put_word(file, 32, 2);
    put_word(file, 0, 2);
    fputs("fact", file);
    put_word(file, 4, 4);
    put_word(file, samples, 4);
    fputs("data", file);
    put_word(file, samples * 4, 4);
    flush(b);
}

void take_record(book *b, show *s, uint32_t *samples)
{
    char bytes[16384];
    size_t n;

    while (s->take && (n = jack_ringbuffer_read(s->take, bytes, sizeof bytes)) > 0)
        if (b->file && !b->failed[0]) {
            size_t done = fwrite(bytes, 1, n, b->file);

            *samples += (uint32_t)(done / 4);
            if (done < n)
                failed(b);
        }
}
