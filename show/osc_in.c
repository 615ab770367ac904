/*
 * show-osc-in: typing by OSC. `show --osc-in [ADDR:]PORT` starts it, and takes what it hands in over descriptor 3.
 *
 *     /gibbonplate/type s     a line, with Return
 *     /gibbonplate/keys s     what is typed alone
 *     /gibbonplate/carrier i  0 or 1; a float, T or F does too
 *     /gibbonplate/hangup
 *     /gibbonplate/ask        tells everything to where --osc leads
 *
 * liblo decodes the packets. Its servers cannot be bound to one address, so the socket is our own.
 */
#define _GNU_SOURCE
#include "address.h"
#include "change.h"
#include <arpa/inet.h>
#include <errno.h>
#include <getopt.h>
#include <lo/lo.h>
#include <poll.h>
#include <signal.h>
#include <stdio.h>
#include <string.h>
#include <unistd.h>

enum { MAX_PACKET = 1536, MOST_NESTED = 4, BUNDLE = 16 };

static void hand_in(uint16_t kind)
{
    outlet_hand_in(&(show_typed){.kind = kind});
}

static void carry(lo_type type, const lo_arg *value)
{
    bool up = type == LO_INT32 ? value->i != 0 : type == LO_FLOAT ? value->f >= 0.5f : type == LO_TRUE;

    if (type == LO_INT32 || type == LO_FLOAT || type == LO_TRUE || type == LO_FALSE)
        hand_in(up ? TYPED_CARRIER_UP : TYPED_CARRIER_DOWN);
}

static void take_message(const char *path, lo_message m)
{
    const char *types = lo_message_get_types(m);
    lo_arg **values = lo_message_get_argv(m);
    bool is_text = types[0] == LO_STRING;

    if (strcmp(path, "/gibbonplate/type") == 0 && is_text)
        outlet_type(&values[0]->s, strlen(&values[0]->s), true);
    else if (strcmp(path, "/gibbonplate/keys") == 0 && is_text)
        outlet_type(&values[0]->s, strlen(&values[0]->s), false);
    else if (strcmp(path, "/gibbonplate/carrier") == 0 && types[0])
        carry((lo_type)types[0], values[0]);
    else if (strcmp(path, "/gibbonplate/hangup") == 0)
        hand_in(TYPED_HANGUP);
    else if (strcmp(path, "/gibbonplate/ask") == 0)
        hand_in(TYPED_ASK);
}

/* A message, or a bundle of messages and bundles. Anything else is dropped. */
static void take_packet(uint8_t *bytes, size_t len, int nested)
{
    size_t at;
    uint32_t part;

    if (len < BUNDLE || memcmp(bytes, "#bundle", 8) != 0) {
        lo_message m = memchr(bytes, 0, len) ? lo_message_deserialise(bytes, len, NULL) : NULL;

        if (m) {
            take_message((const char *)bytes, m);
            lo_message_free(m);
        }
        return;
    }
    for (at = BUNDLE; nested > 0 && len - at >= 4; at += part) {
        memcpy(&part, bytes + at, 4);
        part = ntohl(part);
        at += 4;
        if (part > len - at || part % 4 != 0)
            return;
        take_packet(bytes + at, part, nested - 1);
    }
}

static int listen_at(const char *text)
{
    address here;
    int in;

    if (!address_here(&here, text)) {
        fprintf(stderr, "show: --osc-in wants [ADDR:]PORT, and not \"%s\"\n", text);
        return -1;
    }
    in = socket(here.to.ss_family, SOCK_DGRAM | SOCK_CLOEXEC, 0);
    if (in < 0 || bind(in, (const struct sockaddr *)&here.to, here.len) != 0) {
        fprintf(stderr, "show: cannot take OSC at \"%s\": %s\n", text, strerror(errno));
        return -1;
    }
    return in;
}

static int read_options(int argc, char **argv)
{
    static const struct option known[] = {{"osc-in", required_argument, NULL, 'i'}, {NULL, 0, NULL, 0}};
    int which, in = -1;

    opterr = 0;
    while ((which = getopt_long(argc, argv, "", known, NULL)) != -1)
        if (which != 'i' || in >= 0 || (in = listen_at(optarg)) < 0)
            return -1;
    return in;
}

int main(int argc, char **argv)
{
    struct pollfd fds[2] = {{.fd = SHOW_OUTLET_FD, .events = POLLIN},
                            {.fd = read_options(argc, argv), .events = POLLIN}};
    int got = 0;

    if (fds[1].fd < 0)
        return 1;
    signal(SIGINT, SIG_IGN);
    if (!outlet_ready("")) {
        fputs("show: show-osc-in is started by show\n", stderr);
        return 1;
    }
    while (got >= 0 && (poll(fds, 2, -1) >= 0 || errno == EINTR)) {
        uint8_t bytes[MAX_PACKET + 4]; /* liblo may look at the word behind a packet */
        show_change change;
        ssize_t n = recv(fds[1].fd, bytes, MAX_PACKET, MSG_DONTWAIT);

        if (n > 0) {
            memset(bytes + n, 0, 4);
            take_packet(bytes, (size_t)n, MOST_NESTED);
        }
        while ((got = outlet_next(&change)) > 0)
            ; /* the show is there */
    }
    return 0;
}
