/*
 * A sheet is an SVG file. An element says what it is by its id, its label in Inkscape or its attribute data-show; a
 * label and an attribute may hold several words, with a semicolon between, and what stands behind a full stop in an id
 * is left out.
 */
#define _GNU_SOURCE
#include "sheet.h"
#include "change.h"
#include <ctype.h>
#include <errno.h>
#include <expat.h>
#include <stdio.h>
#include <stdlib.h>
#include <string.h>
#include <strings.h>
#include <sys/stat.h>

#define SVG "http://www.w3.org/2000/svg|"
#define INKSCAPE "http://www.inkscape.org/namespaces/inkscape|"
#define XLINK "http://www.w3.org/1999/xlink|"

enum { WORD = 512 };

typedef struct {
    XML_Parser parser;
    FILE *words, *faults, *touched;
    unsigned element; /* of the document, from 0 */
    const char *id;   /* of that element, or null */
    bool touch;       /* it has been told among the touches */
    unsigned count;   /* of words written */
    unsigned touches;
    bool icons[12], keys[16], mute;
    bool not_svg;
} reading;

void sheet_put_json(FILE *file, const char *text, size_t len)
{
    size_t i;

    for (i = 0; i < len; i++) {
        unsigned char c = (unsigned char)text[i];

        if (c == '"' || c == '\\')
            fprintf(file, "\\%c", c);
        else if (c < 32 || c == 127)
            fprintf(file, "\\u%04x", c);
        else
            fputc(c, file);
    }
}

/* ---- words */

static const char *const texts[] = {"reply",   "replies", "typed",  "sample", "total",  "percent",
                                    "seconds", "rate",    "buffer", "late",   "notice", "panels"};
static const char *const lights[] = {"icon", "key", "state", "mode"};

static void put_field(reading *r, const char *name, const char *value)
{
    fprintf(r->words, ",\"%s\":\"", name);
    sheet_put_json(r->words, value, strlen(value));
    fputc('"', r->words);
}

static void begin_word(reading *r)
{
    fprintf(r->words, "%s{\"n\":%u", r->count++ ? "," : "", r->element);
}

static void end_word(reading *r)
{
    fputc('}', r->words);
}

/* What stands behind a stem and a hyphen or a blank, or null where the word has another stem. */
static const char *behind(const char *word, const char *stem)
{
    size_t len = strlen(stem);

    return strncasecmp(word, stem, len) == 0 && (word[len] == '-' || word[len] == ' ') ? word + len + 1 : NULL;
}

/* The number that a word is, of so many from a first one; -1 where it is none. */
static int number(const char *text, int first, int last)
{
    int i;

    for (i = first; i <= last; i++) {
        char wanted[4];

        snprintf(wanted, sizeof wanted, "%d", i);
        if (strcmp(text, wanted) == 0)
            return i;
    }
    return -1;
}

/* The place of a key on the keypad, or -1. */
static int key(const char *text)
{
    const char *at = strcasecmp(text, "star") == 0   ? strchr(show_keypad, '*')
                     : strcasecmp(text, "hash") == 0 ? strchr(show_keypad, '#')
                     : text[0] && !text[1]           ? strchr(show_keypad, toupper((unsigned char)text[0]))
                                                     : NULL;

    return at ? (int)(at - show_keypad) : -1;
}

/* Whether there is such a light; `is` gets its value as the show names it. */
static bool read_light(reading *r, const char *of, const char *value, char is[12])
{
    int n = -1;

    if (strcmp(of, "icon") == 0 && (n = number(value, 1, 11)) >= 0)
        r->icons[n] = true;
    else if (strcmp(of, "key") == 0 && (n = key(value)) >= 0)
        r->keys[n] = true;
    else if (strcmp(of, "state") == 0)
        n = number(value, 0, 3);
    else if (strcmp(of, "mode") == 0 && (strcasecmp(value, "C") == 0 || strcasecmp(value, "D") == 0))
        n = 0;
    if (n < 0)
        return false;
    if (strcmp(of, "key") == 0)
        snprintf(is, 12, "%c", show_keypad[n]);
    else if (strcmp(of, "mode") == 0)
        snprintf(is, 12, "%c", toupper((unsigned char)value[0]));
    else
        snprintf(is, 12, "%d", n);
    return true;
}

/* icon-4, on-icon-4, off-icon-4: whether the word is a light, be it one that there is or not. */
static bool light_word(reading *r, const char *word)
{
    const char *rest = word, *how = "lit", *value;
    size_t i;
    char is[12];

    if (strncasecmp(rest, "on-", 3) == 0)
        how = "on", rest += 3;
    else if (strncasecmp(rest, "off-", 4) == 0)
        how = "off", rest += 4;
    for (i = 0; i < sizeof lights / sizeof *lights; i++) {
        value = behind(rest, lights[i]);
        if (!value)
            continue;
        if (!read_light(r, lights[i], value, is)) {
            fprintf(r->faults, "\"%s\": there is no such %s\n", word, lights[i]);
        } else {
            begin_word(r);
            put_field(r, "light", how);
            put_field(r, "of", lights[i]);
            put_field(r, "is", is);
            end_word(r);
        }
        return true;
    }
    return false;
}

static bool is_ascii(const char *text)
{
    for (; *text; text++)
        if (*text < 32 || *text > 126)
            return false;
    return true;
}

/* A line for each element that is touched, with all that a touch does. */
static void tell_touch(reading *r, const char *does, const char *text)
{
    if (r->touch)
        fputs("; ", r->touched);
    else
        fprintf(r->touched, "%s%ld %s ", r->touches ? "\n" : "", (long)XML_GetCurrentByteIndex(r->parser),
                r->id && r->id[0] && !strpbrk(r->id, " \t\r\n") ? r->id : "-");
    fprintf(r->touched, *text ? "%s %s" : "%s", does, text);
    r->touches += !r->touch;
    r->touch = true;
}

/* type-ATA, keys +++, put 5, carrier, wait 1, hangup: whether the word is a touch. */
static bool touch_word(reading *r, const char *word)
{
    static const char *const with_text[] = {"type", "keys", "put", "carrier", "wait"};
    static const char *const alone[] = {"carrier", "hangup"};
    const char *text = NULL, *does = NULL;
    size_t i;
    char *end;

    for (i = 0; i < 5 && !text; i++)
        if ((text = behind(word, with_text[i])))
            does = with_text[i];
    for (i = 0; i < 2 && !does; i++)
        if (strcasecmp(word, alone[i]) == 0)
            does = alone[i], text = "";
    if (!does)
        return false;
    if (!is_ascii(text)) {
        fprintf(r->faults, "\"%s\": only ASCII can be typed\n", word);
    } else if (strcmp(does, "carrier") == 0 && *text && strcasecmp(text, "up") != 0 && strcasecmp(text, "down") != 0) {
        fprintf(r->faults, "\"%s\": carrier, carrier-up or carrier-down\n", word);
    } else if (strcmp(does, "wait") == 0 &&
               (strtod(text, &end) < 0 || strtod(text, NULL) > 60 || end == text || *end)) {
        fprintf(r->faults, "\"%s\": seconds, up to 60\n", word);
    } else {
        begin_word(r);
        put_field(r, "touch", does);
        put_field(r, "text", text);
        end_word(r);
        tell_touch(r, does, text);
    }
    return true;
}

static bool text_word(reading *r, const char *word)
{
    size_t i;

    for (i = 0; i < sizeof texts / sizeof *texts; i++)
        if (strcmp(word, texts[i]) == 0) {
            begin_word(r);
            put_field(r, "write", word);
            end_word(r);
            return true;
        }
    if (strcmp(word, "bar") != 0)
        return false;
    begin_word(r);
    fputs(",\"bar\":true", r->words);
    end_word(r);
    return true;
}

/* Whether two short words differ in one letter that is other, missing, added or in its neighbour's place, small letters
 * or not. */
static bool near(const char *a, size_t len, const char *b)
{
    size_t other = strlen(b), same = 0, behind = 0;
    size_t least = len < other ? len : other;

#define SAME(i, j) (tolower((unsigned char)a[i]) == tolower((unsigned char)b[j]))
    while (same < least && SAME(same, same))
        same++;
    while (behind < least - same && SAME(len - 1 - behind, other - 1 - behind))
        behind++;
    if (len == other && same + behind + 2 == len && SAME(same, same + 1) && SAME(same + 1, same))
        return true;
#undef SAME
    return len <= other + 1 && other <= len + 1 && (len > other ? len : other) - same - behind <= 1;
}

/* A word that is none, but nearly one: icon_4, icon4, icno-4. */
static void misspelt_word(reading *r, const char *word)
{
    const char *rest = strncasecmp(word, "on-", 3) == 0    ? word + 3
                       : strncasecmp(word, "off-", 4) == 0 ? word + 4
                                                           : word;
    size_t stem = strspn(rest, "abcdefghijklmnopqrstuvwxyzABCDEFGHIJKLMNOPQRSTUVWXYZ"), i;
    const char *value = rest + stem + strspn(rest + stem, "-_ ");

    if (!*value || strlen(value) > 2 || !isdigit((unsigned char)*value))
        return;
    for (i = 0; i < 2; i++)
        if (near(rest, stem, lights[i])) {
            fprintf(r->faults, "\"%s\": is %.*s%s-%s meant?\n", word, (int)(rest - word), word, lights[i], value);
            return;
        }
}

static void read_word(reading *r, const char *word)
{
    if (!light_word(r, word) && !touch_word(r, word) && !text_word(r, word))
        misspelt_word(r, word);
}

/* ---- elements */

/* The words of a label, between semicolons. */
static void read_list(reading *r, const char *list)
{
    char word[WORD], *part, *rest = word;

    if (strlen(list) >= sizeof word) {
        fprintf(r->faults, "\"%.20s..\": more than %d bytes\n", list, WORD - 1);
        return;
    }
    strcpy(word, list);
    while ((part = strsep(&rest, ";"))) {
        size_t len;

        part += strspn(part, " \t\n");
        len = strlen(part);
        while (len > 0 && strchr(" \t\n", part[len - 1]))
            part[--len] = 0;
        if (*part)
            read_word(r, part);
    }
}

static void read_id(reading *r, const char *id)
{
    char word[WORD];

    if (strlen(id) >= sizeof word)
        return;
    strcpy(word, id);
    word[strcspn(word, ".")] = 0;
    if (*word)
        read_word(r, word);
}

static const char *attribute(const char **pairs, const char *name)
{
    for (; *pairs; pairs += 2)
        if (strcmp(pairs[0], name) == 0)
            return pairs[1];
    return NULL;
}

static bool is_local(const char *href)
{
    return href[0] == '#' || strncmp(href, "data:", 5) == 0;
}

static void look_at_links(reading *r, const char *name, const char **pairs)
{
    const char *href = attribute(pairs, "href");

    href = href ? href : attribute(pairs, XLINK "href");
    if (href && !is_local(href) &&
        (strcmp(name, SVG "image") == 0 || strcmp(name, SVG "use") == 0 || strcmp(name, SVG "feImage") == 0))
        fprintf(r->faults, "the picture \"%.80s\" is linked and not embedded: it is not shown\n", href);
    if (strcmp(name, SVG "script") == 0)
        fputs("a script in a sheet does not run\n", r->faults);
    for (; *pairs; pairs += 2)
        if (strncasecmp(pairs[0], "on", 2) == 0 && isalpha((unsigned char)pairs[0][2])) {
            fprintf(r->faults, "a script in a sheet does not run: %s\n", pairs[0]);
            break;
        }
}

static void XMLCALL begin_element(void *with, const char *name, const char **pairs)
{
    reading *r = with;
    const char *id = attribute(pairs, "id"), *shows = attribute(pairs, "data-show"),
               *label = attribute(pairs, INKSCAPE "label");

    if (r->element == 0 && strcmp(name, SVG "svg") != 0) {
        r->not_svg = true;
        XML_StopParser(r->parser, XML_FALSE);
        return;
    }
    r->id = id;
    r->touch = false;
    look_at_links(r, name, pairs);
    if (id)
        read_id(r, id);
    if (shows)
        read_list(r, shows);
    if (label && !(id && strcmp(id, label) == 0) && !(shows && strcmp(shows, label) == 0))
        read_list(r, label);
    r->element++;
}

/* ---- a whole sheet */

static void list_lacking(const reading *r, FILE *to)
{
    int i, keys = 0;
    const char *before = "the sheet lacks ";

    for (i = 0; i < 16; i++)
        keys += r->keys[i];
    for (i = 1; i <= 11; i++)
        if (!r->icons[i]) {
            fprintf(to, "%sicon-%d (%s)", before, i, show_names[i]);
            before = ", ";
        }
    for (i = 0; i < 16 && keys > 0; i++) /* a sheet may have no keypad, but no part of one */
        if (!r->keys[i]) {
            fprintf(to, "%skey-%.4s", before,
                    show_keypad[i] == '*'   ? "star"
                    : show_keypad[i] == '#' ? "hash"
                                            : (char[]){show_keypad[i], 0});
            before = ", ";
        }
    if (before[0] == ',')
        fputc('\n', to);
    if (!r->touches)
        fputs("nothing on the sheet can be touched: it has no type-.., keys-.. or carrier\n", to);
}

static char *what_it_has(const reading *r)
{
    int i, icons = 0, keys = 0;
    char *text = NULL;

    for (i = 1; i <= 11; i++)
        icons += r->icons[i];
    for (i = 0; i < 16; i++)
        keys += r->keys[i];
    return asprintf(&text, "%d of 11 icons, %d of 16 keys, %u to touch", icons, keys, r->touches) < 0 ? NULL : text;
}

static bool parse(sheet *s, reading *r)
{
    if (XML_Parse(r->parser, s->svg, (int)s->len, XML_TRUE) == XML_STATUS_OK)
        return true;
    if (r->not_svg)
        s->wrong = strdup("it is no SVG");
    else if (asprintf(&s->wrong, "line %lu: %s", (unsigned long)XML_GetCurrentLineNumber(r->parser),
                      XML_ErrorString(XML_GetErrorCode(r->parser))) < 0)
        s->wrong = NULL;
    return false;
}

bool sheet_take(sheet *s, const char *svg, size_t len)
{
    reading r = {0};
    size_t size;
    char *other = NULL;
    FILE *lacking;
    bool good;

    *s = (sheet){0};
    s->svg = malloc(len + 1);
    r.parser = XML_ParserCreateNS("UTF-8", '|');
    r.words = open_memstream(&s->words, &size);
    r.faults = open_memstream(&other, &size);
    r.touched = open_memstream(&s->touches, &size);
    lacking = open_memstream(&s->faults, &size);
    good = s->svg && r.parser && r.words && r.faults && r.touched && lacking;
    if (good) {
        memcpy(s->svg, svg, len);
        s->svg[len] = 0;
        s->len = len;
        fputc('[', r.words);
        XML_SetUserData(r.parser, &r);
        XML_SetStartElementHandler(r.parser, begin_element);
        good = parse(s, &r);
        fputc(']', r.words);
        s->has = what_it_has(&r);
        fflush(r.faults);
        list_lacking(&r, lacking);
        fputs(other, lacking);
    }
    if (r.words)
        fclose(r.words);
    if (r.faults)
        fclose(r.faults);
    if (r.touched)
        fclose(r.touched);
    if (lacking)
        fclose(lacking);
    XML_ParserFree(r.parser);
    free(other);
    return good;
}

bool sheet_read(sheet *s, const char *path)
{
    FILE *file = fopen(path, "rb");
    struct stat st;
    char *bytes = NULL;
    size_t len = 0;
    const char *why = NULL;
    bool good;

    *s = (sheet){0};
    if (!file || fstat(fileno(file), &st) != 0)
        why = strerror(errno);
    else if (!S_ISREG(st.st_mode))
        why = "it is no file";
    else if (st.st_size > SHEET_LONGEST)
        why = "it has more than 8 MB";
    else if (!(bytes = malloc((size_t)st.st_size + 1)))
        why = "there is no memory for it";
    else
        len = fread(bytes, 1, (size_t)st.st_size, file);
    if (file)
        fclose(file);
    good = !why && sheet_take(s, bytes, len);
    if (why)
        s->wrong = strdup(why);
    free(bytes);
    return good;
}

void sheet_free(sheet *s)
{
    free(s->svg);
    free(s->words);
    free(s->has);
    free(s->faults);
    free(s->touches);
    free(s->wrong);
    *s = (sheet){0};
}
