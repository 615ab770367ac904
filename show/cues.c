/*
 * A file of cues, a line each:
 *
 *     to 10.101.1.10:8000
 *     connected = /eos/cue/1/12/fire
 *     key 5     = /eos/sub/5 1.0
 *
 * What stands behind a `to` goes there, and what stands before the first wherever --osc leads. An argument is a whole
 * number, a number with a full stop, T, F, a text in quotation marks, or a word.
 */
#define _GNU_SOURCE
#include "cues.h"
#include "change.h"
#include <ctype.h>
#include <errno.h>
#include <lo/lo.h>
#include <stdio.h>
#include <stdlib.h>
#include <string.h>
#include <strings.h>

static const char BLANK[] = " \t";

static bool is_event(const char *event)
{
    static const char *const plain[] = {"connected",  "idle",         "dialling", "answering", "up",
                                        "carrier up", "carrier down", "key off",  "sounding",  "silent"};
    char wanted[16];
    size_t i;

    for (i = 0; i < sizeof plain / sizeof *plain; i++)
        if (strcasecmp(event, plain[i]) == 0)
            return true;
    for (i = 0; i <= 10; i++) {
        snprintf(wanted, sizeof wanted, "icon %zu", i);
        if (strcasecmp(event, wanted) == 0)
            return true;
    }
    for (i = 0; i < 16; i++) {
        snprintf(wanted, sizeof wanted, "key %c", show_keypad[i]);
        if (strcasecmp(event, wanted) == 0)
            return true;
    }
    return strncasecmp(event, "reply ", 6) == 0 && event[6];
}

static bool add_argument(lo_message m, char *text)
{
    size_t len = strlen(text);
    char *end;
    long whole;
    float number;

    if (text[0] == '"') {
        if (len < 2 || text[len - 1] != '"')
            return false;
        text[len - 1] = 0;
        return lo_message_add_string(m, text + 1) == 0;
    }
    if (strcmp(text, "T") == 0)
        return lo_message_add_true(m) == 0;
    if (strcmp(text, "F") == 0)
        return lo_message_add_false(m) == 0;
    errno = 0;
    whole = strtol(text, &end, 10);
    if (!*end && errno == 0 && whole >= INT32_MIN && whole <= INT32_MAX)
        return lo_message_add_int32(m, (int32_t)whole) == 0;
    number = strtof(text, &end);
    return (*end ? lo_message_add_string(m, text) : lo_message_add_float(m, number)) == 0;
}

/* A word up to a blank, or up to the second quotation mark; null at the end. */
static char *next_word(char **at)
{
    char *start = *at + strspn(*at, BLANK), *end;

    if (!*start)
        return NULL;
    end = start + strcspn(start, BLANK);
    if (*start == '"' && strchr(start + 1, '"'))
        end = strchr(start + 1, '"') + 1;
    *at = *end ? end + 1 : end;
    *end = 0;
    return start;
}

static const char *read_place(cue_list *list, char *text)
{
    if (list->place_count == MAX_PLACES)
        return "more than 8 places to send to";
    text += strspn(text, BLANK);
    text[strcspn(text, BLANK)] = 0;
    if (!address_there(&list->places[list->place_count], text))
        return "`to` wants HOST:PORT";
    list->place_count++;
    return NULL;
}

static const char *encode(cue *c, char *text)
{
    char *path = next_word(&text), *argument;
    const char *why = NULL;
    lo_message m;

    if (!path || *path != '/' || strpbrk(path, "#*,?[]{}"))
        return "an address begins with / and has none of #*,?[]{}";
    m = lo_message_new();
    if (!m)
        return "there is no memory for it";
    while (!why && (argument = next_word(&text)))
        if (!add_argument(m, argument))
            why = "a quotation mark is missing";
    c->len = lo_message_length(m, path);
    if (!why && c->len > sizeof c->packet)
        why = "more than 512 bytes";
    if (!why && !lo_message_serialise(m, path, c->packet, &c->len))
        why = "it is no message";
    lo_message_free(m);
    return why;
}

static const char *read_cue(cue_list *list, char *line, bool elsewhere)
{
    char *equals = strchr(line, '='), *end = equals;
    cue *c = &list->cues[list->count];
    const char *why;

    if (!equals)
        return "neither `to HOST:PORT` nor EVENT = /ADDRESS";
    while (end > line && strchr(BLANK, end[-1]))
        end--;
    *end = 0;
    if (strlen(line) >= sizeof c->event || !is_event(line))
        return "there is no such event";
    if (list->count == MAX_CUES)
        return "more than 256 cues";
    if (list->place_count == 0 && !elsewhere)
        return "there is no `to HOST:PORT` before it, and no --osc";
    snprintf(c->event, sizeof c->event, "%s", line);
    c->place = list->place_count - 1;
    why = encode(c, equals + 1);
    if (!why)
        list->count++;
    return why;
}

static const char *read_line(cue_list *list, char *line, bool elsewhere)
{
    if (strncmp(line, "to ", 3) == 0)
        return read_place(list, line + 3);
    return read_cue(list, line, elsewhere);
}

bool cues_read(cue_list *list, const char *path, bool elsewhere)
{
    FILE *file = fopen(path, "r");
    char buffer[1024];
    int number = 0;
    const char *why = NULL;

    if (!file) {
        fprintf(stderr, "show: cannot open \"%s\": %s\n", path, strerror(errno));
        return false;
    }
    while (!why && fgets(buffer, sizeof buffer, file)) {
        char *line = buffer + strspn(buffer, BLANK);

        number++;
        if (strlen(buffer) + 1 == sizeof buffer)
            why = "more than 1022 bytes";
        line[strcspn(line, "\r\n")] = 0;
        if (!why && line[0] && line[0] != '#')
            why = read_line(list, line, elsewhere);
    }
    if (why)
        fprintf(stderr, "show: \"%s\", line %d: %s\n", path, number, why);
    else if (ferror(file))
        fprintf(stderr, "show: cannot read \"%s\": %s\n", path, why = strerror(errno));
    fclose(file);
    return !why;
}
