/* show-web, the panel in a browser. web.c joins its parts; access.c says who may, pages.c gives out the page and the
 * sheet, panels.c has the browsers that have joined. One thread does all of it. */
#ifndef SHOW_WEB_H
#define SHOW_WEB_H

#include "change.h"
#include "sheet.h"
#include <libwebsockets.h>

enum {
    MAX_PANELS = 64,   /* browsers at once */
    MAX_SOCKETS = 192, /* with those that only fetch the page */
    MAX_MESSAGE = 512, /* bytes of one from a browser */
    MAX_FACE = 8192,   /* bytes of one to a browser */
    MAX_OWED = 6,      /* messages in flight to one browser */
    SENT = 8,          /* of which the times are kept: more than may be owed */
    OWED_MS = 2000,    /* and how long it may owe one */
    TYPED_A_SECOND = 20,
};

typedef struct panel {
    struct panel *next;
    struct lws *wsi;
    uint32_t sent, seen; /* messages */
    uint64_t sent_us[SENT];
    bool wants; /* there is something newer */
    bool drop;
    double may_type; /* how many more now */
    uint64_t typed_us;
    char refused[80]; /* why the last thing that it said was not taken */
    char in[MAX_MESSAGE];
    size_t got;
} panel;

typedef struct {
    const char *port, *listen, *name, *token, *sheet_path;
    char made[24]; /* the token, where it was made here */
    show_change now;
    bool have; /* there was one */
    panel *panels;
    unsigned count;
    sheet sheet;
    uint32_t sheet_version;
    char sheet_fault[160]; /* why the file as it is now is not shown */
    struct timespec sheet_time;
    off_t sheet_size;
    uint64_t sheet_looked_us;
    bool ended;
} web;

uint64_t now_us(void);
web *web_of(struct lws *wsi);
/* Declines a request. */
int web_no(struct lws *wsi, unsigned status, const char *why);

/* ---- access.c */

bool is_loopback(const char *address);
bool is_address(const char *host);
bool access_host(const web *w, struct lws *wsi, char *host, size_t len);
bool access_origin(struct lws *wsi, const char *host);
bool access_token(const web *w, struct lws *wsi);
bool access_make_token(web *w);
/* The address to open. */
void access_address(const web *w, char *text, size_t room);

/* ---- pages.c */

typedef struct {
    const uint8_t *body;
    uint8_t *owned;
    size_t len, at;
} page;

int on_http(struct lws *wsi, enum lws_callback_reasons reason, void *user, void *in, size_t len);
/* Takes the sheet anew where its file has changed. */
void sheet_look(web *w);

/* ---- panels.c */

int on_panel(struct lws *wsi, enum lws_callback_reasons reason, void *user, void *in, size_t len);
void panels_tell(web *w);

#endif
