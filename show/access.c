/* Who may see the panel: its own page, under an address or a name of ours, and on another address than this machine's
 * with a token. */
#define _GNU_SOURCE
#include "web.h"
#include <arpa/inet.h>
#include <ifaddrs.h>
#include <net/if.h>
#include <netdb.h>
#include <stdio.h>
#include <stdlib.h>
#include <string.h>
#include <strings.h>
#include <sys/random.h>

bool is_address(const char *host)
{
    struct in6_addr a;

    return inet_pton(AF_INET, host, &a) == 1 || inet_pton(AF_INET6, host, &a) == 1;
}

bool is_loopback(const char *address)
{
    return strncmp(address, "127.", 4) == 0 || strcmp(address, "::1") == 0;
}

/* The host of "HOST", "HOST:PORT" or "[HOST]:PORT". */
static void only_host(const char *from, char *to, size_t room)
{
    const char *end;

    if (*from == '[') {
        from++;
        end = strchr(from, ']');
    } else {
        end = strrchr(from, ':');
    }
    snprintf(to, room, "%.*s", end ? (int)(end - from) : (int)strlen(from), from);
}

/* A name that someone else owns may be made to lead here. An address may not, nor may our own names. */
bool access_host(const web *w, struct lws *wsi, char *host, size_t len)
{
    char only[256];

    if (lws_hdr_copy(wsi, host, (int)len, WSI_TOKEN_HOST) <= 0)
        return false;
    only_host(host, only, sizeof only);
    return is_address(only) || strcasecmp(only, "localhost") == 0 || (w->name && strcasecmp(only, w->name) == 0);
}

bool access_origin(struct lws *wsi, const char *host)
{
    char origin[300], wanted[300];

    if (lws_hdr_copy(wsi, origin, sizeof origin, WSI_TOKEN_ORIGIN) <= 0)
        return false;
    snprintf(wanted, sizeof wanted, "http://%s", host);
    return strcasecmp(origin, wanted) == 0;
}

/* Every byte is compared, so that the time tells nothing. */
bool access_token(const web *w, struct lws *wsi)
{
    char given[64];
    const char *value;
    size_t i, n;
    unsigned wrong = 0;

    if (!w->token)
        return true;
    value = lws_get_urlarg_by_name(wsi, "t=", given, sizeof given);
    n = strlen(w->token);
    if (!value || strlen(value) != n)
        return false;
    for (i = 0; i < n; i++)
        wrong |= (unsigned)(value[i] ^ w->token[i]);
    return wrong == 0;
}

bool access_make_token(web *w)
{
    static const char letters[] = "23456789abcdefghjkmnpqrstuvwxyz#";
    uint8_t bytes[16];
    size_t i, at = 0;

    /* 31 letters that are not mistaken for one another; a byte that would fall on the 32nd is passed over */
    while (at < 12) {
        if (getrandom(bytes, sizeof bytes, 0) != (ssize_t)sizeof bytes)
            return false;
        for (i = 0; i < sizeof bytes && at < 12; i++)
            if (letters[bytes[i] % 32] != '#')
                w->made[at++] = letters[bytes[i] % 32];
    }
    w->token = w->made;
    return true;
}

/* The first address of this machine that others reach, for one that listens at all of them. */
static bool other_address(int family, char *text, size_t room)
{
    struct ifaddrs *all, *one;
    bool found = false;

    if (getifaddrs(&all) != 0)
        return false;
    for (one = all; one && !found; one = one->ifa_next) {
        socklen_t len = family == AF_INET ? sizeof(struct sockaddr_in) : sizeof(struct sockaddr_in6);

        if (one->ifa_addr && one->ifa_addr->sa_family == family && !(one->ifa_flags & IFF_LOOPBACK))
            found = getnameinfo(one->ifa_addr, len, text, (socklen_t)room, NULL, 0, NI_NUMERICHOST) == 0 &&
                    !strchr(text, '%');
    }
    freeifaddrs(all);
    return found;
}

void access_address(const web *w, char *text, size_t room)
{
    char host[NI_MAXHOST];
    bool six = strchr(w->listen, ':') != NULL;

    snprintf(host, sizeof host, "%s", w->listen);
    if (strcmp(w->listen, "0.0.0.0") == 0 || strcmp(w->listen, "::") == 0)
        other_address(six ? AF_INET6 : AF_INET, host, sizeof host);
    if (w->name)
        snprintf(host, sizeof host, "%s", w->name);
    six = strchr(host, ':') != NULL;
    snprintf(text, room, "http://%s%.100s%s:%s/%s%.64s", six ? "[" : "", host, six ? "]" : "", w->port,
             w->token ? "#" : "", w->token ? w->token : "");
}
