/*
 * The sound. `process` is called by the server for every buffer and is the only one to touch the set:
 * typed bytes and the carrier flag come over one ring, what happened goes out over another, with the
 * frame to which it belongs. Nothing here allocates, locks, prints or waits.
 */
#define _POSIX_C_SOURCE 200809L
#include "show.h"
#include <stdio.h>
#include <string.h>
#include <time.h>

uint8_t show_icon(const gibbonplate_set *set)
{
    return gibbonplate_state(set) == GIBBONPLATE_CONNECTED ? 10 : gibbonplate_stage(set);
}

static void add(uint32_t *count)
{
    __atomic_store_n(count, *count + 1, __ATOMIC_RELAXED);
}

static void unlit(show *s)
{
    s->key[0] = s->key[1] = GIBBONPLATE_NO_KEY;
}

static void tell(show *s, const gibbonplate_set *set, jack_nframes_t start, size_t at, show_event event)
{
    event.frame = s->frame + at;
    event.typed = s->typed;
    event.time = start + (jack_nframes_t)at;
    event.carrier = s->carrier;
    event.key[0] = s->key[0];
    event.key[1] = s->key[1];
    event.set = *set;
    if (jack_ringbuffer_write_space(s->events) < sizeof event)
        add(&s->lost);
    else
        jack_ringbuffer_write(s->events, (const char *)&event, sizeof event);
}

/* What data mode sends waits to be heard once the line is up. A full queue is told once, until a byte has a place
 * again. */
static void queue(show *s, const uint8_t *outbox, show_event *event)
{
    size_t i;

    for (i = 0; i < event->answer.sent; i++) {
        uint8_t refusal = gibbonplate_queue_byte(&s->set, outbox[i]);

        if (!s->full)
            event->refusal = refusal;
        s->full = refusal != GIBBONPLATE_ACCEPTED;
    }
}

static void feed(show *s, jack_nframes_t start, uint8_t byte, bool hung_up)
{
    show_event event = {.line = !hung_up, .hung_up = hung_up};
    uint8_t outbox[GIBBONPLATE_MIN_OUTBOX];
    uint8_t icon = show_icon(&s->set), mode = gibbonplate_mode(&s->set);

    event.refusal = gibbonplate_feed(&s->set, byte, s->carrier, outbox, sizeof outbox, &event.answer);
    queue(s, outbox, &event);
    s->half = byte != '\r' && gibbonplate_mode(&s->set) == 'C';
    if (event.refusal || event.answer.codes[0] || show_icon(&s->set) != icon || gibbonplate_mode(&s->set) != mode)
        tell(s, &s->set, start, 0, event);
}

/* More than a line holds, so that its Return gives ERROR and whatever was typed of it does nothing. That ERROR is not
 * told. */
static void drop_half(show *s)
{
    uint8_t outbox[GIBBONPLATE_MIN_OUTBOX];
    gibbonplate_answer answer;
    int i;

    for (i = 0; i <= GIBBONPLATE_MAX_LINE; i++)
        gibbonplate_feed(&s->set, 'x', s->carrier, outbox, sizeof outbox, &answer);
    gibbonplate_feed(&s->set, '\r', s->carrier, outbox, sizeof outbox, &answer);
}

static void fresh(show *s, jack_nframes_t start, bool hung_up)
{
    show_event event = {.fresh = true, .hung_up = hung_up, .rate = s->rate};

    event.refusal = gibbonplate_new(&s->set, s->rate);
    s->made = s->rate;
    s->mute = event.refusal != GIBBONPLATE_ACCEPTED;
    s->rest = 0;
    s->full = s->half = false;
    unlit(s);
    tell(s, &s->set, start, 0, event);
}

/* Hangs up at once: by ATH where the set takes commands. In data mode the escape takes two guard times: the set is made
 * anew. */
static void hang_up(show *s, jack_nframes_t start)
{
    const char *line;

    if (gibbonplate_mode(&s->set) != 'C') {
        fresh(s, start, true);
        return;
    }
    if (s->half)
        drop_half(s);
    for (line = "ATH\r"; *line; line++)
        feed(s, start, (uint8_t)*line, true);
}

static void typed(show *s, jack_nframes_t start)
{
    static const show_event plain = {0};
    show_key key;

    while (jack_ringbuffer_read(s->keys, (char *)&key, sizeof key) == sizeof key) {
        bool carrier = key.kind == KEY_CARRIER_TURNED ? !s->carrier : key.kind == KEY_CARRIER_UP;

        switch (key.kind) {
        case KEY_BYTE:
            s->typed++;
            if (!s->mute) /* at a rate that no set has, what is typed is dropped */
                feed(s, start, key.byte, false);
            break;
        case KEY_HANGUP:
            if (!s->mute)
                hang_up(s, start);
            break;
        default:
            if (carrier != s->carrier && !s->mute) {
                s->carrier = carrier;
                tell(s, &s->set, start, 0, plain);
            }
        }
    }
}

static void passed(show *s, jack_nframes_t start, jack_nframes_t frames)
{
    uint64_t ns = (uint64_t)frames * 1000000000 + s->rest;
    uint8_t mode = gibbonplate_mode(&s->set);
    show_event event = {0};

    s->rest = ns % s->rate;
    gibbonplate_advance_time(&s->set, ns / s->rate, s->carrier, &event.answer);
    if (event.answer.codes[0] || gibbonplate_mode(&s->set) != mode)
        tell(s, &s->set, start, 0, event);
}

/* Whether a set after a fill shows what this one shows, of which this key is lit. */
static bool same_lights(const gibbonplate_set *set, const uint8_t key[2], const gibbonplate_set *after,
                        const uint8_t lit[2])
{
    return show_icon(set) == show_icon(after) && key[0] == lit[0] && key[1] == lit[1];
}

/* Tells each icon and each key that came in a fill with the frame of its first sample, which the set has not said: it
 * shows the last sample's. So the fill is made again from the set before it, in ever shorter parts. A fill is so short
 * that nothing is shown twice in it. */
static void lights(show *s, gibbonplate_set before, jack_nframes_t start, size_t at, size_t len)
{
    static float scratch[GIBBONPLATE_MAX_FILL];
    static const show_event plain = {0};

    while (len > 0) {
        size_t same = 0, other = len;
        gibbonplate_set part = before;
        uint8_t lit[2];

        gibbonplate_process_out(&part, scratch, len, lit);
        if (same_lights(&before, s->key, &part, lit))
            return;
        while (other - same > 1) {
            size_t middle = same + (other - same) / 2;
            part = before;
            gibbonplate_process_out(&part, scratch, middle, lit);
            if (same_lights(&before, s->key, &part, lit))
                same = middle;
            else
                other = middle;
        }
        gibbonplate_process_out(&before, scratch, other, s->key);
        tell(s, &before, start, at + other - 1, plain);
        at += other;
        len -= other;
    }
}

static void fill(show *s, float *out, jack_nframes_t start, size_t at, size_t len)
{
    gibbonplate_set before = s->set;
    uint8_t lit[2];

    if (gibbonplate_process_out(&s->set, out + at, len, lit) != GIBBONPLATE_ACCEPTED)
        memset(out + at, 0, len * sizeof *out);
    else if (!same_lights(&before, s->key, &s->set, lit))
        lights(s, before, start, at, len);
}

/* The longest fill in which no light that went out comes back: a tone and a gap last a tenth of a second each. */
static size_t longest(const show *s)
{
    return s->rate / 20 < GIBBONPLATE_MAX_FILL ? s->rate / 20 : GIBBONPLATE_MAX_FILL;
}

static uint64_t now_ns(void)
{
    struct timespec t;

    clock_gettime(CLOCK_MONOTONIC, &t);
    return (uint64_t)t.tv_sec * 1000000000 + (uint64_t)t.tv_nsec;
}

static int process(jack_nframes_t frames, void *with)
{
    show *s = with;
    uint64_t began = now_ns(), took;
    float *out = jack_port_get_buffer(s->port, frames);
    jack_nframes_t start = jack_last_frame_time(s->client);
    size_t at;

    if (s->rate != s->made)
        fresh(s, start, false);
    typed(s, start);
    if (s->mute) {
        memset(out, 0, frames * sizeof *out);
    } else {
        passed(s, start, frames);
        for (at = 0; at < frames; at += longest(s))
            fill(s, out, start, at, frames - at < longest(s) ? frames - at : longest(s));
    }
    if (s->take && jack_ringbuffer_write(s->take, (const char *)out, frames * sizeof *out) < frames * sizeof *out)
        add(&s->lost);
    __atomic_store_n(&s->frame, s->frame + frames, __ATOMIC_RELAXED);
    __atomic_store_n(&s->m, gibbonplate_m(&s->set), __ATOMIC_RELAXED);
    took = now_ns() - began;
    s->calls++;
    s->total_ns += took;
    if (took > s->worst_ns)
        s->worst_ns = took;
    return 0;
}

/* The server stops calling `process` while these run. */

static int new_rate(jack_nframes_t rate, void *with)
{
    ((show *)with)->rate = rate;
    return 0;
}

static int new_buffer(jack_nframes_t frames, void *with)
{
    __atomic_store_n(&((show *)with)->buffer, frames, __ATOMIC_RELAXED);
    return 0;
}

static int late(void *with)
{
    add(&((show *)with)->late);
    return 0;
}

static void ended(void *with)
{
    __atomic_store_n(&((show *)with)->ended, true, __ATOMIC_RELAXED);
}

static void silent(const char *text)
{
    (void)text;
}

static jack_ringbuffer_t *ring(size_t bytes)
{
    jack_ringbuffer_t *r = jack_ringbuffer_create(bytes);

    if (r)
        jack_ringbuffer_mlock(r);
    return r;
}

bool show_open(show *s, bool take)
{
    s->keys = ring(4096 * sizeof(show_key));
    s->events = ring(1024 * sizeof(show_event));
    s->take = take ? ring((size_t)1 << 23) : NULL;
    unlit(s);
    jack_set_error_function(silent);
    jack_set_info_function(silent);
    return s->keys && s->events && (s->take || !take);
}

const char *show_join(show *s, const char *server)
{
    jack_status_t status = 0;

    s->client = jack_client_open("gibbonplate", server ? JackNoStartServer | JackServerName : JackNoStartServer,
                                 &status, server);
    if (!s->client)
        return "no JACK server answers; start one, as `jackd -d alsa`, or run show by PipeWire's pw-jack";
    s->beside_another = (status & JackNameNotUnique) != 0;
    s->ended = false;
    s->rate = jack_get_sample_rate(s->client);
    s->buffer = jack_get_buffer_size(s->client);
    s->port = jack_port_register(s->client, "out", JACK_DEFAULT_AUDIO_TYPE, JackPortIsOutput | JackPortIsTerminal, 0);
    if (!s->port) {
        show_leave(s);
        return "the JACK server gives no port";
    }
    if (s->made) {
        s->made = 0; /* it had another server: the first buffer makes a fresh set */
    } else if (gibbonplate_new(&s->set, s->rate) == GIBBONPLATE_ACCEPTED) {
        s->made = s->rate;
    } else {
        snprintf(s->why, sizeof s->why, "the server runs at %u samples a second; the set takes 8000 to 192000",
                 s->rate);
        show_leave(s);
        return s->why;
    }
    jack_set_process_callback(s->client, process, s);
    jack_set_sample_rate_callback(s->client, new_rate, s);
    jack_set_buffer_size_callback(s->client, new_buffer, s);
    jack_set_xrun_callback(s->client, late, s);
    jack_on_shutdown(s->client, ended, s);
    if (jack_activate(s->client) != 0) {
        show_leave(s);
        return "the JACK server does not let it play";
    }
    return NULL;
}

void show_leave(show *s)
{
    if (s->client)
        jack_client_close(s->client);
    s->client = NULL;
    s->port = NULL;
}

void show_close(show *s)
{
    show_leave(s);
    if (s->keys)
        jack_ringbuffer_free(s->keys);
    if (s->events)
        jack_ringbuffer_free(s->events);
    if (s->take)
        jack_ringbuffer_free(s->take);
}
