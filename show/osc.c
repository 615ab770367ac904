/*
 * show-osc: what is heard, as OSC. `show --osc HOST:PORT` starts it and hands it every change over descriptor 3.
 *
 *     show-osc [--osc HOST:PORT ..] [--cues FILE]
 *
 * To each HOST:PORT go the addresses under /gibbonplate, and to the places of a file of cues what that file says. All
 * packets are UDP, one message each. liblo encodes them.
 */
#define _GNU_SOURCE
#include "cues.h"
#include "change.h"
#include <errno.h>
#include <getopt.h>
#include <lo/lo.h>
#include <poll.h>
#include <signal.h>
#include <stdarg.h>
#include <stdio.h>
#include <string.h>
#include <strings.h>
#include <unistd.h>

enum { MAX_PACKET = 1024, BEATS_ALIVE = 10 };

typedef struct {
    address places[MAX_PLACES]; /* of --osc */
    int count;
    cue_list cues;
    int out4, out6;
    show_face was;
    bool known; /* there was one */
    unsigned beats;
} osc;

static void post(const osc *o, const address *a, const void *packet, size_t len)
{
    sendto(a->to.ss_family == AF_INET6 ? o->out6 : o->out4, packet, len, MSG_DONTWAIT | MSG_NOSIGNAL,
           (const struct sockaddr *)&a->to, a->len);
}

static void post_all(const osc *o, const void *packet, size_t len)
{
    int i;

    for (i = 0; i < o->count; i++)
        post(o, &o->places[i], packet, len);
}

static void tell(const osc *o, const char *path, lo_message m)
{
    uint8_t packet[MAX_PACKET];
    size_t len = lo_message_length(m, path);

    if (len <= sizeof packet && lo_message_serialise(m, path, packet, &len))
        post_all(o, packet, len);
    lo_message_free(m);
}

static void tell_number(const osc *o, const char *path, int32_t number)
{
    lo_message m = lo_message_new();

    lo_message_add_int32(m, number);
    tell(o, path, m);
}

static void tell_text(const osc *o, const char *path, const char *text)
{
    lo_message m = lo_message_new();

    lo_message_add_string(m, text);
    tell(o, path, m);
}

/* Sends the cues of an event. */
__attribute__((format(printf, 2, 3))) static void fire(const osc *o, const char *format, ...)
{
    char event[MAX_EVENT + SHOW_REPLY];
    va_list words;
    int i;

    va_start(words, format);
    vsnprintf(event, sizeof event, format, words);
    va_end(words);
    for (i = 0; i < o->cues.count; i++) {
        const cue *c = &o->cues.cues[i];

        if (strcasecmp(c->event, event) != 0)
            continue;
        if (c->place < 0)
            post_all(o, c->packet, c->len);
        else
            post(o, &o->cues.places[c->place], c->packet, c->len);
    }
}

static void fire_changes(const osc *o, const show_face *f, const show_face *was)
{
    static const char *const states[4] = {"idle", "dialling", "answering", "up"};
    char key = show_key_of(f);

    if (f->icon != was->icon && f->icon == 10)
        fire(o, "connected");
    if (f->icon != was->icon)
        fire(o, "icon %u", f->icon);
    if (key != show_key_of(was)) {
        if (key)
            fire(o, "key %c", key);
        else
            fire(o, "key off");
    }
    if (f->state != was->state)
        fire(o, "%s", states[f->state & 3]);
    if (f->carrier != was->carrier)
        fire(o, "carrier %s", f->carrier ? "up" : "down");
    if (f->sounding != was->sounding)
        fire(o, "%s", f->sounding ? "sounding" : "silent");
}

/* Each of a line's replies by itself: an event, and a message. */
static void tell_replies(const osc *o, const show_face *f, uint32_t fresh)
{
    uint32_t i;

    for (i = fresh > SHOW_REPLIES ? SHOW_REPLIES : fresh; i > 0; i--) {
        char all[SHOW_REPLY], *part, *rest = all;

        snprintf(all, sizeof all, "%s", f->reply[SHOW_REPLIES - i].text);
        while ((part = rest)) {
            rest = strstr(part, ", ");
            if (rest) {
                *rest = 0;
                rest += 2;
            }
            fire(o, "reply %s", part);
            tell_text(o, "/gibbonplate/reply", part);
        }
    }
}

/* What is other than it was, or everything. */
static void tell_changes(const osc *o, const show_face *f, const show_face *was, bool all)
{
    char key[2] = {show_key_of(f), 0};

    if (all || f->icon != was->icon)
        tell_number(o, "/gibbonplate/stage", f->icon);
    if (!all && f->icon != was->icon && f->icon == 10)
        tell(o, "/gibbonplate/connected", lo_message_new());
    if (all || f->state != was->state)
        tell_number(o, "/gibbonplate/state", f->state);
    if (all || key[0] != show_key_of(was))
        tell_text(o, "/gibbonplate/key", key);
    if (all || f->carrier != was->carrier)
        tell_number(o, "/gibbonplate/carrier", f->carrier);
    if (all || f->sounding != was->sounding)
        tell_number(o, "/gibbonplate/sounding", f->sounding);
}

/* Cues first: someone waits for them. One that is started anew in the middle of a show fires none for what is lit
 * already. */
static void take_change(osc *o, const show_change *c)
{
    const show_face *f = &c->face;

    if (o->known) {
        fire_changes(o, f, &o->was);
        tell_replies(o, f, f->replies - o->was.replies);
    }
    tell_changes(o, f, &o->was, c->all || !o->known);
    if (c->beat && ++o->beats % BEATS_ALIVE == 0)
        tell_number(o, "/gibbonplate/alive", f->sounding);
    o->was = *f;
    o->known = true;
}

/* ---- the program */

static bool add_place(osc *o, const char *text)
{
    if (o->count == MAX_PLACES) {
        fputs("show: --osc may be given eight times\n", stderr);
        return false;
    }
    if (!address_there(&o->places[o->count], text)) {
        fprintf(stderr, "show: --osc wants HOST:PORT, and not \"%s\"\n", text);
        return false;
    }
    o->count++;
    return true;
}

static bool read_options(osc *o, int argc, char **argv)
{
    static const struct option known[] = {
        {"osc", required_argument, NULL, 'o'}, {"cues", required_argument, NULL, 'c'}, {NULL, 0, NULL, 0}};
    const char *cues = NULL;
    int which;

    opterr = 0;
    while ((which = getopt_long(argc, argv, "", known, NULL)) != -1) {
        if (which == 'c')
            cues = optarg;
        else if (which != 'o' || !add_place(o, optarg))
            return false;
    }
    return !cues || cues_read(&o->cues, cues, o->count > 0);
}

/* The house's own broadcast address is one that may be sent to. */
static bool open_sockets(osc *o)
{
    int one = 1;

    o->out4 = socket(AF_INET, SOCK_DGRAM | SOCK_CLOEXEC, 0);
    o->out6 = socket(AF_INET6, SOCK_DGRAM | SOCK_CLOEXEC, 0);
    return o->out4 >= 0 && setsockopt(o->out4, SOL_SOCKET, SO_BROADCAST, &one, sizeof one) == 0;
}

int main(int argc, char **argv)
{
    static osc o;
    struct pollfd in = {SHOW_OUTLET_FD, POLLIN, 0};
    show_change change;
    int got = 0;

    if (!read_options(&o, argc, argv))
        return 1;
    if (!open_sockets(&o)) {
        fprintf(stderr, "show: cannot send OSC: %s\n", strerror(errno));
        return 1;
    }
    signal(SIGINT, SIG_IGN);
    if (!outlet_ready("")) {
        fputs("show: show-osc is started by show\n", stderr);
        return 1;
    }
    while (got >= 0 && (poll(&in, 1, -1) >= 0 || errno == EINTR))
        while ((got = outlet_next(&change)) > 0)
            take_change(&o, &change);
    return 0;
}
