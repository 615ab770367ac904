/*
 * show-web: the panel in a browser. `show --http PORT` starts it and hands it every change over descriptor 3.
 *
 *     show-web --http PORT [--listen ADDR] [--name HOST] [--token WORD] [--sheet FILE]
 */
#define _GNU_SOURCE
#include "web.h"
#include <errno.h>
#include <fcntl.h>
#include <getopt.h>
#include <signal.h>
#include <stdio.h>
#include <stdlib.h>
#include <string.h>
#include <time.h>

enum { LISTENED_S = 3 };

uint64_t now_us(void)
{
    struct timespec t;

    clock_gettime(CLOCK_MONOTONIC, &t);
    return (uint64_t)t.tv_sec * 1000000 + (uint64_t)t.tv_nsec / 1000;
}

web *web_of(struct lws *wsi)
{
    return lws_context_user(lws_get_context(wsi));
}

int web_no(struct lws *wsi, unsigned status, const char *why)
{
    lws_return_http_status(wsi, status, why);
    return -1;
}

/* ---- what the show tells */

static int on_show(struct lws *wsi, enum lws_callback_reasons reason, void *user, void *in, size_t len)
{
    web *w = web_of(wsi);
    int got;
    bool any = false;

    (void)user, (void)in, (void)len;
    switch (reason) {
    case LWS_CALLBACK_FILTER_PROTOCOL_CONNECTION: /* a browser that names this protocol */
        return -1;
    case LWS_CALLBACK_RAW_CLOSE_FILE:
        w->ended = true;
        return 0;
    case LWS_CALLBACK_RAW_RX_FILE:
        while ((got = outlet_next(&w->now)) > 0)
            w->have = any = true;
        w->ended = got < 0;
        sheet_look(w);
        if (any)
            panels_tell(w);
        return w->ended ? -1 : 0;
    default:
        return 0;
    }
}

/* ---- the program */

static bool usage(const char *why, const char *word)
{
    fprintf(stderr, "show: %s%s\n", why, word);
    return false;
}

static bool read_options(web *w, int argc, char **argv)
{
    static const struct option known[] = {
        {"http", required_argument, NULL, 'h'},  {"listen", required_argument, NULL, 'l'},
        {"name", required_argument, NULL, 'n'},  {"token", required_argument, NULL, 't'},
        {"sheet", required_argument, NULL, 's'}, {NULL, 0, NULL, 0},
    };
    int which;

    w->listen = "127.0.0.1";
    opterr = 0;
    while ((which = getopt_long(argc, argv, "", known, NULL)) != -1) {
        const char **to = which == 'h'   ? &w->port
                          : which == 'l' ? &w->listen
                          : which == 'n' ? &w->name
                          : which == 't' ? &w->token
                          : which == 's' ? &w->sheet_path
                                         : NULL;
        if (!to)
            return usage("a panel in a browser takes no such option", "");
        *to = optarg;
    }
    return w->port || usage("a panel in a browser wants --http PORT", "");
}

static bool check_options(const web *w)
{
    char *end;
    long port = strtol(w->port, &end, 10);
    size_t len = w->token ? strlen(w->token) : 0;

    if (end == w->port || *end || port < 1 || port > 65535)
        return usage("a port to listen at is 1 to 65535, and not ", w->port);
    if (!is_address(w->listen))
        return usage("--listen wants an address of this machine, and not ", w->listen);
    if (w->token && (len < 8 || len > 60 ||
                     strspn(w->token, "abcdefghijklmnopqrstuvwxyzABCDEFGHIJKLMNOPQRSTUVWXYZ0123456789-_") != len))
        return usage("a token has 8 to 60 letters, digits, - and _", "");
    return true;
}

/* Those that say nothing, or half a request, are dropped soon, so that a panel can join again. */
static struct lws_context *listen_at(web *w)
{
    static const struct lws_protocols protocols[] = {
        {"http", on_http, sizeof(page), 0, 0, NULL, 0},
        {"gibbonplate", on_panel, sizeof(panel), MAX_MESSAGE, 0, NULL, 0},
        {"show", on_show, 0, 0, 0, NULL, 0},
        {NULL, NULL, 0, 0, 0, NULL, 0},
    };
    struct lws_context_creation_info info = {
        .port = atoi(w->port),
        .iface = w->listen,
        .protocols = protocols,
        .gid = (gid_t)-1,
        .uid = (uid_t)-1,
        .options = LWS_SERVER_OPTION_EXPLICIT_VHOSTS | (strchr(w->listen, ':') ? 0 : LWS_SERVER_OPTION_DISABLE_IPV6),
        .fd_limit_per_thread = MAX_SOCKETS,
        .max_http_header_pool = MAX_PANELS,
        .timeout_secs = LISTENED_S,
        .timeout_secs_ah_idle = LISTENED_S,
        .keepalive_timeout = LISTENED_S,
        .user = w,
    };
    struct lws_context *context = lws_create_context(&info);
    struct lws_vhost *vhost = context ? lws_create_vhost(context, &info) : NULL;
    lws_sock_file_fd_type in = {.filefd = SHOW_OUTLET_FD};

    if (!vhost) {
        fprintf(stderr, "show: cannot listen at %s, port %s; another may be there already\n", w->listen, w->port);
    } else if (fcntl(SHOW_OUTLET_FD, F_SETFL, O_NONBLOCK) != 0 ||
               !lws_adopt_descriptor_vhost(vhost, LWS_ADOPT_RAW_FILE_DESC, in, "show", NULL)) {
        usage("show-web is started by show", "");
        vhost = NULL;
    }
    if (vhost)
        return context;
    if (context)
        lws_context_destroy(context);
    return NULL;
}

int main(int argc, char **argv)
{
    static web w;
    struct lws_context *context;
    char address[SHOW_TEXT];

    if (!read_options(&w, argc, argv))
        return 1;
    if (!check_options(&w))
        return 1;
    if (!w.token && !is_loopback(w.listen) && !access_make_token(&w))
        return 1;
    signal(SIGINT, SIG_IGN);
    signal(SIGPIPE, SIG_IGN);
    lws_set_log_level(0, NULL);
    sheet_look(&w);
    if (w.sheet_version == 0) {
        fprintf(stderr, "show: \"%s\" cannot be shown: %s\n", w.sheet_path ? w.sheet_path : "the sheet", w.sheet_fault);
        return 1;
    }
    context = listen_at(&w);
    if (!context)
        return 1;
    access_address(&w, address, sizeof address);
    if (!outlet_ready(address))
        return 1;
    while (!w.ended && lws_service(context, 0) >= 0)
        ;
    lws_context_destroy(context);
    sheet_free(&w.sheet);
    return 0;
}
