/* The page, its script and its style, which are part of this program, and the sheet. Nothing is fetched from elsewhere,
 * by this program or the page. */
#define _GNU_SOURCE
#include "web.h"
#include <stdio.h>
#include <stdlib.h>
#include <string.h>
#include <sys/stat.h>

enum { CHUNK = 4096, LOOK_MS = 200 };

/* `ld -r -b binary` makes these of the files of show/page. */
#define EMBEDDED(name) extern const uint8_t _binary_##name##_start[], _binary_##name##_end[]
EMBEDDED(index_html);
EMBEDDED(panel_css);
EMBEDDED(panel_js);
EMBEDDED(names_js);
EMBEDDED(sheet_js);
EMBEDDED(socket_js);
EMBEDDED(sheet_svg);

#define FILE_OF(url, type, name)                                                                                       \
    {                                                                                                                  \
        url, type "; charset=utf-8", _binary_##name##_start, _binary_##name##_end                                      \
    }
static const struct {
    const char *url, *type;
    const uint8_t *start, *end;
} files[] = {
    FILE_OF("/", "text/html", index_html),
    FILE_OF("/panel.css", "text/css", panel_css),
    FILE_OF("/panel.js", "text/javascript", panel_js),
    FILE_OF("/names.js", "text/javascript", names_js),
    FILE_OF("/sheet.js", "text/javascript", sheet_js),
    FILE_OF("/socket.js", "text/javascript", socket_js),
};

/* ---- the sheet */

static void replace_sheet(web *w, sheet *fresh)
{
    sheet_free(&w->sheet);
    w->sheet = *fresh;
    w->sheet_version++;
    w->sheet_fault[0] = 0;
}

static void read_changed(web *w)
{
    sheet fresh;

    if (sheet_read(&fresh, w->sheet_path)) {
        replace_sheet(w, &fresh);
        return;
    }
    snprintf(w->sheet_fault, sizeof w->sheet_fault, "%.140s", fresh.wrong ? fresh.wrong : "there is no memory for it");
    sheet_free(&fresh);
}

/* The last good sheet stays where the file is gone or broken, as while it is being saved. */
void sheet_look(web *w)
{
    struct stat st = {0};
    uint64_t now = now_us();

    if (w->sheet_path && now - w->sheet_looked_us < LOOK_MS * 1000)
        return;
    w->sheet_looked_us = now;
    if (!w->sheet_path) {
        sheet own;

        if (w->sheet_version == 0 && sheet_take(&own, (const char *)_binary_sheet_svg_start,
                                                (size_t)(_binary_sheet_svg_end - _binary_sheet_svg_start)))
            replace_sheet(w, &own);
        return;
    }
    if (stat(w->sheet_path, &st) == 0 && st.st_size == w->sheet_size && st.st_mtim.tv_sec == w->sheet_time.tv_sec &&
        st.st_mtim.tv_nsec == w->sheet_time.tv_nsec)
        return;
    w->sheet_size = st.st_size;
    w->sheet_time = st.st_mtim;
    read_changed(w);
}

/* The sheet, what its elements are and what is wrong with it. */
static uint8_t *sheet_text(const web *w, size_t *len)
{
    const sheet *s = &w->sheet;
    char *text = NULL;
    FILE *to = open_memstream(&text, len);

    if (!to)
        return NULL;
    fprintf(to, "{\"version\":%u,\"own\":%s,\"has\":\"%s\",\"words\":%s,\"faults\":\"", w->sheet_version,
            w->sheet_path ? "true" : "false", s->has ? s->has : "", s->words ? s->words : "[]");
    sheet_put_json(to, s->faults ? s->faults : "", s->faults ? strlen(s->faults) : 0);
    fputs("\",\"svg\":\"", to);
    sheet_put_json(to, s->svg ? s->svg : "", s->len);
    fputs("\"}", to);
    return fclose(to) == 0 ? (uint8_t *)text : NULL;
}

/* ---- pages */

static int add_header(struct lws *wsi, const char *name, const char *value, uint8_t **at, uint8_t *end)
{
    return lws_add_http_header_by_name(wsi, (const uint8_t *)name, (const uint8_t *)value, (int)strlen(value), at, end);
}

/* A page that is kept by nobody, frames nobody, and talks to this program alone. A sheet has styles in its elements,
 * and its pictures in itself. */
static int send_headers(struct lws *wsi, const page *p, const char *type, const char *host)
{
    uint8_t buf[LWS_PRE + 2048], *start = buf + LWS_PRE, *at = start, *end = buf + sizeof buf - 1;
    char csp[600];

    snprintf(csp, sizeof csp,
             "default-src 'none'; script-src 'self'; style-src 'self' 'unsafe-inline'; img-src data:; font-src data:; "
             "connect-src http://%s ws://%s; frame-ancestors 'none'; base-uri 'none'; form-action 'none'",
             host, host);
    return lws_add_http_common_headers(wsi, 200, type, p->len, &at, end) ||
           add_header(wsi, "content-security-policy:", csp, &at, end) ||
           add_header(wsi, "x-content-type-options:", "nosniff", &at, end) ||
           add_header(wsi, "referrer-policy:", "no-referrer", &at, end) ||
           add_header(wsi, "cross-origin-resource-policy:", "same-origin", &at, end) ||
           add_header(wsi, "cache-control:", "no-store", &at, end) ||
           lws_finalize_write_http_header(wsi, start, &at, end);
}

/* A browser does not tell its page why an upgrade was refused; this does. */
static int say_whether(const web *w, struct lws *wsi)
{
    if (!access_token(w, wsi))
        return web_no(wsi, 403, "The address lacks its token: it ends with # and a word.");
    if (w->count >= MAX_PANELS)
        return web_no(wsi, 503, "There are 64 panels already.");
    return web_no(wsi, 200, "yes");
}

/* The sheet is as secret as what it shows: it wants the token too. The page itself has nothing of the show in it. */
static int serve(web *w, struct lws *wsi, page *p, const char *url)
{
    char host[256];
    const char *type = "application/json; charset=utf-8";
    size_t i;

    memset(p, 0, sizeof *p);
    if (!access_host(w, wsi, host, sizeof host))
        return web_no(wsi, 403, "This panel answers to its address, not to this name (show --name HOST).");
    if (strcmp(url, "/may") == 0)
        return say_whether(w, wsi);
    for (i = 0; i < sizeof files / sizeof *files && !p->body; i++)
        if (strcmp(url, files[i].url) == 0) {
            p->body = files[i].start;
            p->len = (size_t)(files[i].end - files[i].start);
            type = files[i].type;
        }
    if (!p->body && strcmp(url, "/sheet") == 0) {
        if (!access_token(w, wsi))
            return web_no(wsi, 403, "The address lacks its token: it ends with # and a word.");
        p->body = p->owned = sheet_text(w, &p->len);
    }
    if (!p->body)
        return web_no(wsi, 404, NULL);
    if (send_headers(wsi, p, type, host) != 0)
        return -1;
    lws_callback_on_writable(wsi);
    return 0;
}

static int send_chunk(struct lws *wsi, page *p)
{
    uint8_t buf[LWS_PRE + CHUNK];
    size_t n;

    if (!p || !p->body)
        return 0;
    n = p->len - p->at < CHUNK ? p->len - p->at : CHUNK;
    memcpy(buf + LWS_PRE, p->body + p->at, n);
    p->at += n;
    if (lws_write(wsi, buf + LWS_PRE, n, p->at == p->len ? LWS_WRITE_HTTP_FINAL : LWS_WRITE_HTTP) != (int)n)
        return -1;
    if (p->at < p->len) {
        lws_callback_on_writable(wsi);
        return 0;
    }
    free(p->owned);
    memset(p, 0, sizeof *p);
    return lws_http_transaction_completed(wsi) ? -1 : 0;
}

int on_http(struct lws *wsi, enum lws_callback_reasons reason, void *user, void *in, size_t len)
{
    page *p = user;

    switch (reason) {
    case LWS_CALLBACK_HTTP:
        return serve(web_of(wsi), wsi, p, in);
    case LWS_CALLBACK_HTTP_WRITEABLE:
        return send_chunk(wsi, p);
    case LWS_CALLBACK_CLOSED_HTTP:
        if (p) {
            free(p->owned);
            memset(p, 0, sizeof *p);
        }
        return 0;
    case LWS_CALLBACK_FILTER_PROTOCOL_CONNECTION: /* an upgrade that names no protocol comes here */
    case LWS_CALLBACK_HTTP_BODY:
    case LWS_CALLBACK_HTTP_FILE_COMPLETION:
        return -1;
    default:
        return lws_callback_http_dummy(wsi, reason, user, in, len);
    }
}
