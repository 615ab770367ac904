/*
 * show: a call that is heard and lit from one state. `show --help` says what it takes.
 *
 * What is typed goes to the set, Return as CR; Tab raises and drops the carrier flag; Ctrl-X hangs up; Ctrl-C ends.
 * An icon is lit when its first sample is heard: not when it was made, but the port's latency later.
 */
#define _GNU_SOURCE
#include "show.h"
#include "options.h"
#include <errno.h>
#include <jack/thread.h>
#include <poll.h>
#include <pthread.h>
#include <signal.h>
#include <stdarg.h>
#include <stdlib.h>
#include <string.h>
#include <time.h>
#include <unistd.h>

enum { PENDING = 1024, TYPED = 8192, CARRIER_KEY = '\t', HANGUP_KEY = 24, OUTLETS = 3 };
enum { LIGHTS_MS = 1, DRAW_MS = 50, BEAT_MS = 100, SILENT_MS = 500, JOIN_MS = 1000, PASSED_MS = 1000, END_S = 10 };

/* The bytes handed to the set: each has a number, and the last TYPED of them are kept. */
typedef struct {
    char bytes[TYPED];
    uint32_t count;
    uint32_t from;   /* where the line that is shown begins */
    uint32_t mode;   /* where the mode last changed */
    uint32_t logged; /* where the log's next row begins */
    uint64_t at;     /* when the last was handed in, ns */
} typing;

typedef struct {
    options opt;
    show s;
    book log, take;
    uint32_t taken; /* samples in the take */
    script keys;
    show_event pending[PENDING]; /* told, and not yet heard */
    size_t first, count;
    typing typed;
    show_face face;
    show_change change; /* the last one told */
    bool all;           /* an outlet wants to be told everything */
    outlet outlets[OUTLETS];
    uint64_t frame_seen, frame_at; /* where the sound was when it last moved, and the clock then */
    uint64_t join_at;
    uint32_t buffer; /* the server's own length, where a script has set another */
    bool input_over;
    bool away; /* the server has ended, and no other has come */
    int status;
} desk;

static volatile sig_atomic_t stop;

static void stopped(int signal)
{
    (void)signal;
    stop = 1;
}

/* A server that hangs must not keep the show from ending; all files are closed by then. */
static void ended_late(int signal)
{
    (void)signal;
    _exit(1);
}

uint64_t clock_ns(void)
{
    struct timespec t;

    clock_gettime(CLOCK_MONOTONIC, &t);
    return (uint64_t)t.tv_sec * 1000000000 + (uint64_t)t.tv_nsec;
}

static uint64_t ms(uint64_t count)
{
    return count * 1000000;
}

/* ---- what the operator is told */

static void add_reply(show_face *f, const char *line, const char *text)
{
    show_reply *last = &f->reply[SHOW_REPLIES - 1];

    memmove(f->reply, f->reply + 1, sizeof f->reply - sizeof *f->reply);
    snprintf(last->line, sizeof last->line, "%s", line);
    snprintf(last->text, sizeof last->text, "%s", text);
    f->replies++;
}

/* Among the replies, in the log, and on standard error where no panel is drawn. */
__attribute__((format(printf, 2, 3))) static void tell_operator(desk *d, const char *format, ...)
{
    char text[SHOW_REPLY];
    static const show_event nothing;
    show_event event = nothing;
    va_list rest;

    va_start(rest, format);
    vsnprintf(text, sizeof text, format, rest);
    va_end(rest);
    add_reply(&d->face, "", text);
    event.frame = __atomic_load_n(&d->s.frame, __ATOMIC_RELAXED);
    log_row(&d->log, &(book_row){&event, &d->face, event.frame, "", "", text});
    if (!isatty(STDOUT_FILENO))
        fprintf(stderr, "show: %s\n", text);
}

/* ---- typing */

/* The bytes from one number up to another, the last ones where they are too many; the printable ones alone, or all but
 * 0. */
static void typed_text(const typing *t, uint32_t from, uint32_t to, bool printable, char *text, size_t room)
{
    size_t at = 0;

    if (to - from > room - 1)
        from = to - (uint32_t)(room - 1);
    for (; from != to; from++) {
        char c = t->bytes[from % TYPED];

        if (c && (!printable || (c >= 32 && c < 127)))
            text[at++] = c;
    }
    text[at] = 0;
}

static void show_typing(desk *d)
{
    typed_text(&d->typed, d->typed.from, d->typed.count, true, d->face.typed, sizeof d->face.typed);
}

/* The line whose Return is the byte before a number: no more than was typed in this mode. */
static void typed_line(const typing *t, uint32_t end, char *text, size_t room)
{
    uint32_t from = end - 1;

    while (from != t->mode && end - from < TYPED && end - from < room && t->bytes[(from - 1) % TYPED] != '\r')
        from--;
    typed_text(t, from, end - 1, true, text, room);
}

static bool hand_in(desk *d, uint8_t kind, uint8_t byte)
{
    show_key k = {kind, byte};
    typing *t = &d->typed;

    if (d->away || jack_ringbuffer_write_space(d->s.keys) < sizeof k)
        return false;
    jack_ringbuffer_write(d->s.keys, (const char *)&k, sizeof k);
    t->at = clock_ns();
    if (kind == KEY_BYTE) {
        t->bytes[t->count++ % TYPED] = (char)byte;
        if (byte == '\r')
            t->from = t->count;
        show_typing(d);
    }
    return true;
}

static void key(desk *d, uint8_t byte)
{
    hand_in(d, byte == CARRIER_KEY ? KEY_CARRIER_TURNED : byte == HANGUP_KEY ? KEY_HANGUP : KEY_BYTE, byte);
}

static void text(desk *d, const char *bytes)
{
    for (; *bytes; bytes++)
        hand_in(d, KEY_BYTE, (uint8_t)*bytes);
}

/* What was typed at an outlet: all of it or none, and nothing comes between. */
static void from_outlet(desk *d, const show_typed *t)
{
    size_t i;

    switch (t->kind) {
    case TYPED_TEXT:
        if (t->len <= SHOW_TEXT && jack_ringbuffer_write_space(d->s.keys) >= t->len * sizeof(show_key))
            for (i = 0; i < t->len; i++)
                hand_in(d, KEY_BYTE, t->bytes[i]);
        break;
    case TYPED_CARRIER_TURNED:
        hand_in(d, KEY_CARRIER_TURNED, 0);
        break;
    case TYPED_CARRIER_DOWN:
        hand_in(d, KEY_CARRIER_DOWN, 0);
        break;
    case TYPED_CARRIER_UP:
        hand_in(d, KEY_CARRIER_UP, 0);
        break;
    case TYPED_HANGUP:
        hand_in(d, KEY_HANGUP, 0);
        break;
    case TYPED_ASK:
        d->all = true;
        break;
    }
}

/* Waits a little for keys. One who has been heard enough for now does not wake this thread: in real time it would spin,
 * and be held up for it. */
static void listen_to_keys(desk *d)
{
    struct pollfd in[OUTLETS + 1];
    uint8_t bytes[64];
    ssize_t n, i;

    for (i = 0; i < OUTLETS; i++)
        in[i] = (struct pollfd){outlet_may(&d->outlets[i]) ? d->outlets[i].fd : -1, POLLIN, 0};
    in[OUTLETS] = (struct pollfd){d->input_over ? -1 : STDIN_FILENO, POLLIN, 0};
    if (poll(in, OUTLETS + 1, LIGHTS_MS) <= 0 || !in[OUTLETS].revents)
        return;
    n = read(STDIN_FILENO, bytes, sizeof bytes);
    d->input_over = n == 0 || (n < 0 && errno != EINTR && errno != EAGAIN);
    for (i = 0; i < n; i++)
        key(d, bytes[i]);
}

/* ---- the script */

static bool is_lit(const desk *d, uint32_t icon)
{
    return icon == 11 ? d->face.carrier : icon == d->face.icon;
}

/* Whether a later icon is lit, and nothing that was typed may still change that. Carrier and no icon at all may come at
 * any time. */
static bool has_passed(const desk *d, uint32_t icon, uint64_t now)
{
    return icon > 0 && icon < d->face.icon && now - d->typed.at > ms(PASSED_MS);
}

static bool waits(desk *d, uint64_t now)
{
    script *k = &d->keys;

    if (k->wait_until > now)
        return true;
    if (!k->waits_for_icon || is_lit(d, k->wait_icon))
        return false;
    if (!has_passed(d, k->wait_icon, now))
        return true;
    tell_operator(d, "\"%.60s\", line %d: icon %u has passed", d->opt.keys, k->steps[k->next - 1].line, k->wait_icon);
    return false;
}

static void set_buffer(desk *d, uint32_t frames)
{
    if (!d->buffer)
        d->buffer = __atomic_load_n(&d->s.buffer, __ATOMIC_RELAXED);
    if (d->s.client && jack_set_buffer_size(d->s.client, frames) != 0)
        tell_operator(d, "the server does not take buffers of %u", frames);
}

static void run_script(desk *d)
{
    script *k = &d->keys;
    uint64_t now = clock_ns();

    while (k->next < k->count && !stop && !waits(d, now)) {
        const script_step *step = &k->steps[k->next++];

        k->waits_for_icon = false;
        switch (step->kind) {
        case STEP_TYPE:
            text(d, step->text);
            hand_in(d, KEY_BYTE, '\r');
            break;
        case STEP_KEYS:
            text(d, step->text);
            break;
        case STEP_CARRIER:
            hand_in(d, KEY_CARRIER_TURNED, 0);
            break;
        case STEP_HANGUP:
            hand_in(d, KEY_HANGUP, 0);
            break;
        case STEP_WAIT:
            k->wait_until = now + step->ns;
            break;
        case STEP_UNTIL:
            k->waits_for_icon = true;
            k->wait_icon = step->number;
            break;
        case STEP_BUFFER:
            set_buffer(d, step->number);
            break;
        case STEP_END:
            stop = 1;
            break;
        }
    }
}

/* ---- what happened, once it is heard */

/* T of the call that the set has dialled. */
static uint32_t total(const gibbonplate_set *call)
{
    uint8_t digits[GIBBONPLATE_MAX_DIGITS];
    size_t count = gibbonplate_digits(call, digits);

    return gibbonplate_total_samples(digits, count, gibbonplate_rate(call));
}

static void tell_outlets(desk *d)
{
    int i;

    d->change.face = d->face;
    d->change.all = d->all;
    d->all = false;
    for (i = OUTLETS - 1; i >= 0; i--) /* cues first: a desk waits for them */
        outlet_tell(&d->outlets[i], &d->change);
}

/* The set's reply to a byte or to time that passed. */
static void reply_text(const show_event *e, char *text, size_t room)
{
    size_t at = 0;
    int i;

    text[0] = 0;
    for (i = 0; i < 2 && e->answer.codes[i]; i++) {
        uint8_t reply[GIBBONPLATE_MAX_REPLY];
        size_t n = gibbonplate_write_reply(e->answer.codes[i], gibbonplate_s12(&e->set), reply, sizeof reply);

        at += (size_t)snprintf(text + at, room - at, "%s%.*s", i ? ", " : "", (int)n, (const char *)reply);
    }
}

/* What the show itself says of it. */
static void note_text(const show_event *e, char *text, size_t room)
{
    text[0] = 0;
    if (e->hung_up && e->fresh)
        snprintf(text, room, "hung up: a fresh set");
    else if (e->fresh)
        snprintf(text, room,
                 e->refusal ? "the rate is now %u, not 8000 to 192000: silence" : "the rate is now %u: a fresh set",
                 e->rate);
    else if (e->refusal == GIBBONPLATE_QUEUE_FULL)
        snprintf(text, room, "256 bytes wait: what is typed now is not sent");
    else if (e->refusal)
        snprintf(text, room, "declined with %u", e->refusal);
}

static void update_face(show_face *f, const show_event *e)
{
    if (e->fresh)
        f->total = 0;
    if (gibbonplate_state(&e->set) == GIBBONPLATE_DIALLING && gibbonplate_m(&e->set) == 0)
        f->total = total(&e->set);
    f->icon = show_icon(&e->set);
    memcpy(f->key, e->key, sizeof f->key);
    f->carrier = e->carrier;
    f->mode = gibbonplate_mode(&e->set);
    f->state = gibbonplate_state(&e->set);
}

/* Shows, tells and writes down an event. `since` is how many frames ago it was heard. */
static void heard(desk *d, const show_event *e, int32_t since)
{
    char reply[SHOW_REPLY], note[SHOW_REPLY], line[SHOW_LINE] = "", all[2 * SHOW_TEXT];
    typing *t = &d->typed;
    uint8_t mode = d->face.mode;

    reply_text(e, reply, sizeof reply);
    note_text(e, note, sizeof note);
    if (e->line && reply[0])
        typed_line(t, e->typed, line, sizeof line);
    if (reply[0])
        add_reply(&d->face, e->hung_up ? "hang up" : line, reply);
    if (note[0])
        add_reply(&d->face, "", note);
    update_face(&d->face, e);
    if (d->face.mode != mode || e->fresh || e->hung_up) {
        t->mode = e->typed;
        if ((int32_t)(e->typed - t->from) > 0)
            t->from = e->typed;
        show_typing(d);
    }
    d->change.number++;
    d->change.frame = e->frame;
    d->change.heard_us =
        clock_ns() / 1000 - (uint64_t)((int64_t)since * 1000000 / d->s.rate); /* the server has a clock of its own */
    d->change.beat = false;
    tell_outlets(d);
    typed_text(t, t->logged, e->typed, false, all, sizeof all);
    t->logged = e->typed;
    log_row(&d->log, &(book_row){e, &d->face, e->frame + (uint64_t)(int64_t)since, all, reply, note});
}

static const show_event *next_event(desk *d)
{
    return d->count ? &d->pending[d->first] : NULL;
}

static void drop_event(desk *d)
{
    d->first = (d->first + 1) % PENDING;
    d->count--;
}

static void fetch_events(desk *d)
{
    while (d->count < PENDING && jack_ringbuffer_read_space(d->s.events) >= sizeof(show_event)) {
        jack_ringbuffer_read(d->s.events, (char *)&d->pending[(d->first + d->count) % PENDING], sizeof(show_event));
        d->count++;
    }
}

/* Lights what is heard by now. */
static bool light(desk *d)
{
    jack_latency_range_t latency;
    jack_nframes_t now;
    bool changed = false;
    const show_event *e;

    fetch_events(d);
    if (!d->count || !d->s.client)
        return false;
    jack_port_get_latency_range(d->s.port, JackPlaybackLatency, &latency);
    now = jack_frame_time(d->s.client) - latency.max;
    while ((e = next_event(d)) && (int32_t)(now - e->time) >= 0) {
        heard(d, e, (int32_t)(now - e->time));
        drop_event(d);
        changed = true;
    }
    return changed;
}

/* The figures that change without an event. Where the server asks for no samples, no light is true. */
static void read_figures(desk *d, uint64_t now)
{
    show_face *f = &d->face;
    uint64_t frame = __atomic_load_n(&d->s.frame, __ATOMIC_RELAXED);

    if (frame != d->frame_seen || !d->frame_at) {
        d->frame_seen = frame;
        d->frame_at = now;
    }
    f->sounding = !d->away && now - d->frame_at < ms(SILENT_MS);
    f->rate = d->s.rate;
    f->buffer = __atomic_load_n(&d->s.buffer, __ATOMIC_RELAXED);
    f->m = __atomic_load_n(&d->s.m, __ATOMIC_RELAXED);
    f->late = __atomic_load_n(&d->s.late, __ATOMIC_RELAXED);
    f->lost = __atomic_load_n(&d->s.lost, __ATOMIC_RELAXED);
}

/* What the operator has to know now; the worst alone. */
static void read_notice(desk *d)
{
    const char *say = d->away               ? "the JACK server has ended; it is joined again when it comes back"
                      : d->take.failed[0]   ? d->take.failed
                      : d->log.failed[0]    ? d->log.failed
                      : d->s.beside_another ? "another show plays on this server"
                                            : "";

    if (strcmp(d->face.notice, say) == 0)
        return;
    snprintf(d->face.notice, sizeof d->face.notice, "%s", say);
    if (say[0])
        tell_operator(d, "%s", say);
}

static void beat(desk *d)
{
    d->change.beat = true;
    tell_outlets(d);
}

/* ---- the server */

/* The lights come in time where the server runs in real time: this thread then does too, below the callback. */
static void in_time(show *s)
{
    if (jack_is_realtime(s->client) && jack_client_real_time_priority(s->client) > 1)
        jack_acquire_real_time_scheduling(pthread_self(), jack_client_real_time_priority(s->client) - 1);
}

static bool connect_out(desk *d)
{
    const char **ports, *own = jack_port_name(d->s.port);
    int i;

    if (d->opt.to)
        return jack_connect(d->s.client, own, d->opt.to) == 0;
    ports = jack_get_ports(d->s.client, NULL, JACK_DEFAULT_AUDIO_TYPE, JackPortIsPhysical | JackPortIsInput);
    for (i = 0; ports && ports[i] && i < 2; i++)
        jack_connect(d->s.client, own, ports[i]);
    jack_free(ports);
    return true;
}

/* Nothing that was told is kept for a server that is not there: it is heard now, or never. */
static void lose_server(desk *d, uint64_t now)
{
    const show_event *e;

    fetch_events(d);
    for (; (e = next_event(d)); drop_event(d))
        heard(d, e, 0);
    show_leave(&d->s);
    jack_ringbuffer_read_advance(d->s.keys, jack_ringbuffer_read_space(d->s.keys));
    d->s.typed = d->typed.count;
    d->buffer = 0;
    d->away = true;
    d->join_at = now + ms(JOIN_MS);
}

static void join_again(desk *d, uint64_t now)
{
    if (now < d->join_at)
        return;
    d->join_at = now + ms(JOIN_MS);
    if (show_join(&d->s, d->opt.server) != NULL)
        return;
    d->away = false;
    tell_operator(d, "a JACK server has come back, at %u samples a second: a fresh set", d->s.rate);
    if (!connect_out(d))
        tell_operator(d, "it cannot be connected to the port \"%.60s\"", d->opt.to);
    in_time(&d->s);
}

/* ---- the program */

static bool open_all(desk *d)
{
    const char *why;
    int i;

    d->face.mode = 'C';
    d->face.key[0] = d->face.key[1] = SHOW_NO_KEY;
    if (d->opt.log && !book_open(&d->log, d->opt.log))
        return false;
    if (d->opt.take && !book_open(&d->take, d->opt.take))
        return false;
    if (d->opt.keys && !script_read(&d->keys, d->opt.keys))
        return false;
    for (i = 0; i < OUTLETS; i++)
        if (!outlet_open(&d->outlets[i]))
            return false;
    take_header(&d->take, 0, 0);
    why = show_open(&d->s, d->opt.take != NULL) ? show_join(&d->s, d->opt.server) : "there is no memory for its rings";
    if (why) {
        fprintf(stderr, "show: %s\n", why);
        return false;
    }
    if (!connect_out(d)) {
        fprintf(stderr, "show: it cannot be connected to the port \"%s\"\n", d->opt.to);
        return false;
    }
    return true;
}

static bool close_all(desk *d)
{
    bool good = !d->away;
    char typed[2 * SHOW_TEXT];
    int i;

    if (d->s.client && d->face.sounding) {
        if (d->buffer && d->buffer != d->s.buffer)
            jack_set_buffer_size(d->s.client, d->buffer);
        jack_deactivate(d->s.client);
    }
    if (d->away)
        fputs("show: the JACK server has ended\n", stderr);
    take_record(&d->take, &d->s, &d->taken);
    take_header(&d->take, d->s.rate, d->taken);
    typed_text(&d->typed, d->typed.logged, d->typed.count, false, typed, sizeof typed);
    log_end(&d->log, &d->s, typed);
    good &= book_close(&d->log);
    good &= book_close(&d->take);
    for (i = 0; i < OUTLETS; i++)
        outlet_close(&d->outlets[i]);
    script_free(&d->keys);
    show_close(&d->s);
    return good;
}

static void run(desk *d)
{
    uint64_t drawn = 0, beaten = 0;

    while (!stop) {
        show_typed typed;
        uint64_t now;
        bool changed;
        int i;

        listen_to_keys(d);
        run_script(d);
        now = clock_ns();
        for (i = 0; i < OUTLETS; i++)
            while (outlet_typed(&d->outlets[i], &typed, now))
                from_outlet(d, &typed);
        if (__atomic_load_n(&d->s.ended, __ATOMIC_RELAXED) && !d->away)
            lose_server(d, now);
        if (d->away)
            join_again(d, now);
        take_record(&d->take, &d->s, &d->taken);
        read_figures(d, now);
        read_notice(d);
        changed = light(d);
        if (changed || now - drawn > ms(DRAW_MS)) {
            panel_draw(&d->face);
            drawn = now;
        }
        if (now - beaten > ms(BEAT_MS)) {
            beat(d);
            beaten = now;
        }
    }
}

static void handle_signals(void)
{
    struct sigaction act = {.sa_handler = stopped}, late = {.sa_handler = ended_late};

    sigaction(SIGINT, &act, NULL);
    sigaction(SIGTERM, &act, NULL);
    sigaction(SIGHUP, &act, NULL);
    sigaction(SIGALRM, &late, NULL);
    signal(SIGPIPE, SIG_IGN);
}

static outlet outlet_of(const char *name, const char *needs, int priority, const option_words *words)
{
    outlet o = {.name = name, .needs = needs, .priority = priority, .count = words->count, .fd = -1};

    memcpy(o.words, words->words, words->count * sizeof *o.words);
    return o;
}

int main(int argc, char **argv)
{
    static desk d;
    bool good;

    if (!options_read(&d.opt, argc, argv))
        return 1;
    if (d.opt.plan)
        return plan_print(d.opt.plan, d.opt.rate) ? 0 : 1;
    d.outlets[0] = outlet_of("show-web", "libwebsockets-dev", 0, &d.opt.web);
    d.outlets[1] = outlet_of("show-osc-in", "liblo-dev", 0, &d.opt.osc_in);
    d.outlets[2] = outlet_of("show-osc", "liblo-dev", 20, &d.opt.osc);
    if (d.opt.check_sheet) {
        outlet checker = {.name = "show-sheet", .needs = "libexpat1-dev"};
        char *words[] = {"show-sheet", (char *)d.opt.check_sheet, NULL};

        outlet_become(&checker, words);
        return 1;
    }
    panel_guard();
    handle_signals();
    good = open_all(&d);
    if (good) {
        in_time(&d.s);
        panel_start(d.outlets[0].said);
        if (d.outlets[0].said[0] && !isatty(STDOUT_FILENO))
            fprintf(stderr, "show: the panel is at %s\n", d.outlets[0].said);
        log_header(&d.log);
        run(&d);
    }
    alarm(END_S);
    return close_all(&d) && good ? 0 : 1;
}
