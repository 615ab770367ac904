/*
 * What is typed from a file, a line each. All of it is read and checked before the first sample.
 *
 *     type TEXT       the text, and Return
 *     keys TEXT       the text alone
 *     carrier         turns the flag over
 *     hangup          hangs up at once
 *     wait SECONDS
 *     until ICON      a number or a name; 11 is carrier, and 0 is none of the ten
 *     buffer FRAMES
 *     end             ends the show
 *     # a comment
 */
#define _DEFAULT_SOURCE
#include "show.h"
#include <errno.h>
#include <math.h>
#include <stdlib.h>
#include <string.h>
#include <strings.h>

enum { LONGEST = 1 << 20, MOST_SECONDS = 86400, MOST_FRAMES = 65536 };

static const char *read_seconds(const char *text, uint64_t *ns)
{
    char *end;
    double seconds = strtod(text, &end);

    if (end == text || *end || !isfinite(seconds) || seconds < 0 || seconds > MOST_SECONDS)
        return "`wait` takes seconds, from 0 to 86400";
    *ns = (uint64_t)(seconds * 1e9);
    return NULL;
}

/* An icon by its number or its name; 0 is none of the ten. */
static const char *read_icon(const char *text, uint32_t *number)
{
    char *end;
    long n = strtol(text, &end, 10);
    int i;

    for (i = 1; i <= 11; i++)
        if (strcasecmp(text, show_names[i]) == 0) {
            *number = (uint32_t)i;
            return NULL;
        }
    if (end == text || *end || n < 0 || n > 11)
        return "`until` takes an icon, 1 to 11 or its name, or 0 for none of the ten";
    *number = (uint32_t)n;
    return NULL;
}

static const char *read_frames(const char *text, uint32_t *number)
{
    char *end;
    long n = strtol(text, &end, 10);

    if (end == text || *end || n < 1 || n > MOST_FRAMES || (n & (n - 1)) != 0)
        return "`buffer` takes a power of two up to 65536";
    *number = (uint32_t)n;
    return NULL;
}

/* What stands behind a word and a blank, or null where the line has another word. */
static char *behind(char *line, const char *word)
{
    size_t len = strlen(word);

    return strncmp(line, word, len) == 0 && line[len] == ' ' ? line + len + 1 : NULL;
}

/* Reads a line into a step. Answers null, or what is wrong with it. */
static const char *read_step(char *line, script_step *step)
{
    static const char *const plain[] = {[STEP_CARRIER] = "carrier", [STEP_HANGUP] = "hangup", [STEP_END] = "end"};
    char *text;

    for (step->kind = 0; step->kind < (int)(sizeof plain / sizeof *plain); step->kind++)
        if (plain[step->kind] && strcmp(line, plain[step->kind]) == 0)
            return NULL;
    if ((text = behind(line, "type")) || (text = behind(line, "keys"))) {
        step->kind = line[0] == 't' ? STEP_TYPE : STEP_KEYS;
        step->text = strdup(text);
        return step->text ? NULL : "there is no memory for it";
    }
    if ((text = behind(line, "wait"))) {
        step->kind = STEP_WAIT;
        return read_seconds(text, &step->ns);
    }
    if ((text = behind(line, "until"))) {
        step->kind = STEP_UNTIL;
        return read_icon(text, &step->number);
    }
    if ((text = behind(line, "buffer"))) {
        step->kind = STEP_BUFFER;
        return read_frames(text, &step->number);
    }
    return "there is no such line: type, keys, carrier, hangup, wait, until, buffer or end";
}

static bool wrong(const char *path, int line, const char *why)
{
    if (line)
        fprintf(stderr, "show: \"%s\", line %d: %s\n", path, line, why);
    else
        fprintf(stderr, "show: cannot read \"%s\": %s\n", path, why);
    return false;
}

static script_step *new_step(script *s)
{
    if (s->count % 64 == 0) {
        script_step *more = realloc(s->steps, (s->count + 64) * sizeof *more);

        if (!more)
            return NULL;
        s->steps = more;
    }
    return &s->steps[s->count++];
}

static bool read_lines(script *s, char *text, const char *path)
{
    char *line, *rest = text;
    int number = 0;

    while ((line = strsep(&rest, "\n"))) {
        script_step *step;
        const char *why;

        number++;
        line[strcspn(line, "\r")] = 0;
        if (!line[0] || line[0] == '#')
            continue;
        step = new_step(s);
        if (!step)
            return wrong(path, number, "there is no memory for it");
        *step = (script_step){.line = number};
        why = read_step(line, step);
        if (why)
            return wrong(path, number, why);
    }
    return true;
}

static bool read_file(script *s, FILE *file, const char *path)
{
    char *text = malloc(LONGEST + 1);
    size_t len;
    bool good;

    if (!text)
        return wrong(path, 0, "there is no memory for it");
    len = fread(text, 1, LONGEST + 1, file);
    if (ferror(file)) {
        good = wrong(path, 0, strerror(errno));
    } else if (len > LONGEST) {
        good = wrong(path, 0, "it has more than a megabyte");
    } else if (memchr(text, 0, len)) {
        good = wrong(path, 0, "it is no text");
    } else {
        text[len] = 0;
        good = read_lines(s, text, path);
    }
    free(text);
    return good;
}

bool script_read(script *s, const char *path)
{
    FILE *file = fopen(path, "r");
    bool good;

    if (!file)
        return wrong(path, 0, strerror(errno));
    good = read_file(s, file, path);
    fclose(file);
    return good;
}

void script_free(script *s)
{
    size_t i;

    for (i = 0; i < s->count; i++)
        free(s->steps[i].text);
    free(s->steps);
    *s = (script){0};
}
