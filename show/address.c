/* HOST:PORT, as UDP has it. */
#define _GNU_SOURCE
#include "address.h"
#include <netdb.h>
#include <stdio.h>
#include <stdlib.h>
#include <string.h>

static bool look_up(address *a, const char *host, const char *port, int flags)
{
    struct addrinfo want = {.ai_socktype = SOCK_DGRAM, .ai_flags = AI_NUMERICSERV | flags}, *found = NULL;
    char *end;
    long number = strtol(port, &end, 10);

    if (end == port || *end || number < 1 || number > 65535 || getaddrinfo(host, port, &want, &found) != 0)
        return false;
    memcpy(&a->to, found->ai_addr, found->ai_addrlen);
    a->len = found->ai_addrlen;
    freeaddrinfo(found);
    return true;
}

/* The host before the last colon, without the brackets of an IPv6 address. */
static bool split(const char *text, char host[256], const char **port)
{
    const char *colon = strrchr(text, ':');
    size_t len = colon ? (size_t)(colon - text) : 0;

    if (len == 0 || len > 255)
        return false;
    if (text[0] == '[' && text[len - 1] == ']')
        snprintf(host, 256, "%.*s", (int)len - 2, text + 1);
    else
        snprintf(host, 256, "%.*s", (int)len, text);
    *port = colon + 1;
    return host[0] != 0;
}

bool address_there(address *a, const char *text)
{
    char host[256];
    const char *port;

    return split(text, host, &port) && look_up(a, host, port, 0);
}

bool address_here(address *a, const char *text)
{
    char host[256];
    const char *port;

    if (!strchr(text, ':'))
        return look_up(a, "127.0.0.1", text, AI_NUMERICHOST);
    return split(text, host, &port) && look_up(a, host, port, AI_NUMERICHOST | AI_PASSIVE);
}
