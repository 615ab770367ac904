/*
 * The browsers that have joined. Each gets the whole face in each message, so that one left out leaves no light wrong.
 * A browser says `seen N` to each; while it owes more than a few it gets nothing, and then the newest face; one that
 * owes for too long is dropped. Nothing is queued for anyone.
 */
#define _GNU_SOURCE
#include "web.h"
#include <netinet/tcp.h>
#include <stdarg.h>
#include <stdio.h>
#include <stdlib.h>
#include <string.h>
#include <sys/socket.h>
#include <time.h>

/* ---- the face, for a browser */

/* How many bytes the letter of UTF-8 at the front has; 0 where none is whole. */
static size_t letter(const char *text)
{
    const unsigned char *b = (const unsigned char *)text;
    size_t i, n = b[0] < 0x80 ? 1 : b[0] < 0xC2 ? 0 : b[0] < 0xE0 ? 2 : b[0] < 0xF0 ? 3 : b[0] < 0xF5 ? 4 : 0;

    for (i = 1; i < n; i++)
        if ((b[i] & 0xC0) != 0x80)
            return 0;
    if ((b[0] == 0xE0 && b[1] < 0xA0) || (b[0] == 0xED && b[1] > 0x9F) || (b[0] == 0xF0 && b[1] < 0x90) ||
        (b[0] == 0xF4 && b[1] > 0x8F))
        return 0;
    return n;
}

/* A browser closes at a text that is no UTF-8, as one is that was cut inside a letter: a question mark stands there. */
static void put_text(FILE *to, const char *before, const char *text)
{
    fprintf(to, "%s\"", before);
    while (*text) {
        size_t n = letter(text);

        if (n > 0)
            sheet_put_json(to, text, n);
        else
            fputc('?', to);
        text += n > 0 ? n : 1;
    }
    fputc('"', to);
}

static int64_t day_us(void)
{
    struct timespec t;

    clock_gettime(CLOCK_REALTIME, &t);
    return (int64_t)t.tv_sec * 1000000 + t.tv_nsec / 1000;
}

static void put_face(FILE *to, const web *w, const panel *p)
{
    const show_change *c = &w->now;
    const show_face *f = &c->face;
    char key[2] = {show_key_of(f), 0};
    int i;

    fprintf(to, "{\"v\":1,\"message\":%u,\"change\":%u,\"frame\":%llu,", p->sent + 1, c->number,
            (unsigned long long)c->frame);
    fprintf(to, "\"icon\":%u,\"state\":%u,\"mode\":\"%c\",\"carrier\":%d,\"sounding\":%d,\"key\":\"%s\",", f->icon,
            f->state, f->mode == 'D' ? 'D' : 'C', f->carrier, f->sounding, key);
    fprintf(to, "\"rate\":%u,\"buffer\":%u,\"sample\":%u,\"total\":%u,\"late\":%u,\"lost\":%u,\"panels\":%u,", f->rate,
            f->buffer, f->total && f->m > f->total ? f->total : f->m, f->total, f->late, f->lost, w->count);
    /* when the frame was heard, on the clock of the day, for those who measure */
    fprintf(to, "\"heard\":%lld,\"sheet\":%u,\"replies\":%u", (long long)(day_us() - (int64_t)(now_us() - c->heard_us)),
            w->sheet_version, f->replies);
    put_text(to, ",\"sheetFault\":", w->sheet_fault);
    put_text(to, ",\"notice\":", f->notice);
    put_text(to, ",\"typed\":", f->typed);
    put_text(to, ",\"refused\":", p->refused);
    fputs(",\"said\":[", to);
    for (i = 0; i < SHOW_REPLIES; i++) {
        put_text(to, i ? ",[" : "[", f->reply[i].line);
        put_text(to, ",", f->reply[i].text);
        fputc(']', to);
    }
    fputs("]}", to);
}

static bool owes_too_much(const panel *p)
{
    return p->sent - p->seen >= MAX_OWED;
}

static void tell(panel *p)
{
    p->wants = true;
    if (p->sent != p->seen && now_us() - p->sent_us[(p->seen + 1) % SENT] > (uint64_t)OWED_MS * 1000) {
        p->drop = true;
        lws_set_timeout(p->wsi, PENDING_TIMEOUT_USER_OK, LWS_TO_KILL_ASYNC);
        return;
    }
    if (!owes_too_much(p))
        lws_callback_on_writable(p->wsi);
}

void panels_tell(web *w)
{
    panel *p, *next;

    for (p = w->panels; p; p = next) {
        next = p->next;
        tell(p);
    }
}

static int write_face(const web *w, panel *p)
{
    char buf[LWS_PRE + MAX_FACE];
    FILE *to;
    long n;

    if (!p->wants || !w->have || owes_too_much(p) || lws_send_pipe_choked(p->wsi))
        return 0;
    to = fmemopen(buf + LWS_PRE, MAX_FACE, "w");
    if (!to)
        return -1;
    put_face(to, w, p);
    n = ftell(to);
    if (fclose(to) != 0 || n <= 0 || n >= MAX_FACE)
        return -1;
    p->wants = false;
    p->refused[0] = 0;
    p->sent++;
    p->sent_us[p->sent % SENT] = now_us();
    return lws_write(p->wsi, (uint8_t *)buf + LWS_PRE, (size_t)n, LWS_WRITE_TEXT) < (int)n ? -1 : 0;
}

/* ---- what a browser says: `seen N`, `type TEXT`, `keys TEXT`, `carrier`, `carrier up`, `carrier down`, `hangup` */

static void refuse(panel *p, const char *why)
{
    snprintf(p->refused, sizeof p->refused, "%s", why);
    p->wants = true;
    lws_callback_on_writable(p->wsi);
}

static bool may_type(panel *p)
{
    uint64_t now = now_us();

    p->may_type += (double)(now - p->typed_us) * TYPED_A_SECOND / 1e6;
    p->may_type = p->may_type > TYPED_A_SECOND ? TYPED_A_SECOND : p->may_type;
    p->typed_us = now;
    if (p->may_type < 1)
        return false;
    p->may_type -= 1;
    return true;
}

static void seen(panel *p, const char *number)
{
    uint32_t n = (uint32_t)strtoul(number, NULL, 10);

    if (n - p->seen <= p->sent - p->seen)
        p->seen = n;
    if (p->wants)
        lws_callback_on_writable(p->wsi);
}

static const struct {
    const char *word;
    uint16_t kind;
} plain[] = {{"carrier", TYPED_CARRIER_TURNED},
             {"carrier up", TYPED_CARRIER_UP},
             {"carrier down", TYPED_CARRIER_DOWN},
             {"hangup", TYPED_HANGUP}};

static const char *take_word(const char *text, size_t len)
{
    size_t i;

    if (strncmp(text, "type ", 5) == 0)
        return outlet_type(text + 5, len - 5, true);
    if (strncmp(text, "keys ", 5) == 0)
        return outlet_type(text + 5, len - 5, false);
    for (i = 0; i < sizeof plain / sizeof *plain; i++)
        if (strlen(plain[i].word) == len && memcmp(text, plain[i].word, len) == 0)
            return outlet_hand_in(&(show_typed){.kind = plain[i].kind}) ? NULL : "the show takes no more just now";
    return "no such word";
}

static void take_message(panel *p, const char *text, size_t len)
{
    const char *why;

    if (strncmp(text, "seen ", 5) == 0) {
        seen(p, text + 5);
        return;
    }
    /* hanging up is not made to wait behind what else was touched */
    why = may_type(p) || strcmp(text, "hangup") == 0 ? take_word(text, len) : "more than 20 a second";
    if (why)
        refuse(p, why);
}

static int close_for(struct lws *wsi, enum lws_close_status why)
{
    lws_close_reason(wsi, why, NULL, 0);
    return -1;
}

/* A message may come in parts. */
static int receive(panel *p, const char *in, size_t len)
{
    size_t more = lws_remaining_packet_payload(p->wsi);

    if (lws_frame_is_binary(p->wsi))
        return close_for(p->wsi, LWS_CLOSE_STATUS_UNACCEPTABLE_OPCODE);
    if (more >= sizeof p->in || p->got + len + more >= sizeof p->in)
        return close_for(p->wsi, LWS_CLOSE_STATUS_MESSAGE_TOO_LARGE);
    memcpy(p->in + p->got, in, len);
    p->got += len;
    if (more || !lws_is_final_fragment(p->wsi))
        return 0;
    len = p->got;
    p->in[len] = 0;
    p->got = 0;
    take_message(p, p->in, len);
    return 0;
}

/* ---- joining and leaving */

static int admit(const web *w, struct lws *wsi)
{
    char host[256];

    if (!access_host(w, wsi, host, sizeof host) || !access_origin(wsi, host))
        return web_no(wsi, 403, "Another page's, or another name's.");
    if (!access_token(w, wsi))
        return web_no(wsi, 403, "The address lacks its token.");
    if (w->count >= MAX_PANELS)
        return web_no(wsi, 503, "There are 64 panels already.");
    return 0;
}

/* Little lies in the system's own queue, and what is written leaves at once. */
static void set_socket(struct lws *wsi)
{
    int small = 16384, one = 1, fd = lws_get_socket_fd(wsi);

    setsockopt(fd, SOL_SOCKET, SO_SNDBUF, &small, sizeof small);
    setsockopt(fd, IPPROTO_TCP, TCP_NODELAY, &one, sizeof one);
}

static void join(web *w, panel *p, struct lws *wsi)
{
    memset(p, 0, sizeof *p);
    p->wsi = wsi;
    p->typed_us = now_us();
    p->may_type = TYPED_A_SECOND;
    p->next = w->panels;
    w->panels = p;
    w->count++;
    set_socket(wsi);
    tell(p);
}

static void leave(web *w, const panel *p)
{
    panel **at;

    for (at = &w->panels; *at; at = &(*at)->next)
        if (*at == p) {
            *at = p->next;
            w->count--;
            return;
        }
}

int on_panel(struct lws *wsi, enum lws_callback_reasons reason, void *user, void *in, size_t len)
{
    panel *p = user;

    switch (reason) {
    case LWS_CALLBACK_FILTER_PROTOCOL_CONNECTION:
        return admit(web_of(wsi), wsi);
    case LWS_CALLBACK_ESTABLISHED:
        join(web_of(wsi), p, wsi);
        return 0;
    case LWS_CALLBACK_SERVER_WRITEABLE:
        return p->drop ? -1 : write_face(web_of(wsi), p);
    case LWS_CALLBACK_RECEIVE:
        return receive(p, in, len);
    case LWS_CALLBACK_CLOSED:
        leave(web_of(wsi), p);
        return 0;
    default:
        return 0;
    }
}
