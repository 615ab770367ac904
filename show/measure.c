/*
 * What of a sheet is too small for a finger, by librsvg, which knows how large a drawing comes out. It knows elements
 * by their IDs alone: one that has none is given one, in a copy. The page measures the same on its own screen.
 */
#define _GNU_SOURCE
#include "measure.h"
#include <librsvg/rsvg.h>
#include <stdlib.h>
#include <string.h>

/* A tablet of ten inches, flat, without the line at the bottom. */
enum { WIDTH = 1180, HEIGHT = 748, FINGER = 40 };

/* The file, in which the element whose tag begins at a place has an ID. */
static char *with_id(const sheet *s, size_t tag, const char *id, size_t *len)
{
    char *text = NULL;
    FILE *to = open_memstream(&text, len);
    size_t name = tag + strcspn(s->svg + tag, " \t\r\n/>");

    if (!to)
        return NULL;
    fwrite(s->svg, 1, name, to);
    fprintf(to, " id=\"%s\"", id);
    fwrite(s->svg + name, 1, s->len - name, to);
    return fclose(to) == 0 ? text : NULL;
}

/* The shorter side, in pixels, or -1. */
static double side_of(const char *svg, size_t len, const char *id)
{
    RsvgHandle *handle = rsvg_handle_new_from_data((const guint8 *)svg, len, NULL);
    RsvgRectangle screen = {0, 0, WIDTH, HEIGHT}, ink;
    char name[300];
    double side = -1;

    snprintf(name, sizeof name, "#%.250s", id);
    if (handle && rsvg_handle_get_geometry_for_layer(handle, name, &screen, &ink, NULL, NULL))
        side = ink.width < ink.height ? ink.width : ink.height;
    if (handle)
        g_object_unref(handle);
    return side;
}

static bool is_small(const sheet *s, char *line)
{
    char *id, *does, *copy = NULL;
    size_t tag = strtoul(line, &id, 10), len = s->len;
    double side;

    id++;
    does = strchr(id, ' ');
    *does++ = 0;
    if (strcmp(id, "-") == 0) {
        id = "measured-here";
        copy = with_id(s, tag, id, &len);
    }
    side = side_of(copy ? copy : s->svg, len, id);
    free(copy);
    if (side < 0 || side >= FINGER)
        return false;
    printf("\"%s\" is %.0f px on a tablet: too small for a finger\n", does, side);
    return true;
}

int measure_touches(const sheet *s)
{
    char *lines = strdup(s->touches), *line, *rest = lines;
    int count = 0;

    while ((line = strsep(&rest, "\n")))
        count += *line && is_small(s, line);
    free(lines);
    return count;
}
