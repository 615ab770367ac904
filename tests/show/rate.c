/* A server whose rate changes during the show, which JACK's dummy driver does not do: the callback is called here. At a rate that no set
 * has, it is silent, says so once, and takes no key; at one that a set has, it plays again, with a fresh set. And more typed than the queue
 * holds: that is said once, and again once there was a place. */
#define _POSIX_C_SOURCE 200809L
#include "show.h"
#include <stdio.h>
#include <stdlib.h>

static float buffer[256];

static void *lent(jack_port_t *port, jack_nframes_t frames)
{
    (void)port, (void)frames;
    return buffer;
}

static jack_nframes_t started(jack_client_t *client)
{
    (void)client;
    return 0;
}

#define jack_port_get_buffer lent
#define jack_last_frame_time started
#include "../../show/play.c"

static void expect(bool so, const char *what)
{
    if (!so) {
        fprintf(stderr, "rate: %s\n", what);
        exit(1);
    }
}

static void type(show *s, const char *keys)
{
    for (; *keys; keys++) {
        show_key key = {false, (uint8_t)*keys};
        jack_ringbuffer_write(s->keys, (const char *)&key, sizeof key);
    }
}

/* Ten buffers, and how many of their samples are not silent. */
static int sounding(show *s)
{
    int i, j, count = 0;

    for (i = 0; i < 10; i++) {
        for (j = 0; j < 256; j++)
            buffer[j] = 1;
        process(256, s);
        for (j = 0; j < 256; j++)
            count += buffer[j] != 0;
    }
    return count;
}

/* The last event told, and how many there were. */
static size_t told(show *s, show_event *event)
{
    size_t count = 0;

    while (jack_ringbuffer_read(s->events, (char *)event, sizeof *event) == sizeof *event)
        count++;
    return count;
}

static void type_many(show *s, int count)
{
    for (; count > 0; count--)
        type(s, "x");
    process(256, s);
}

/* How often a full queue is told. */
static int told_full(show *s)
{
    show_event event;
    int count = 0;

    while (jack_ringbuffer_read(s->events, (char *)&event, sizeof event) == sizeof event)
        count += event.refusal == GIBBONPLATE_QUEUE_FULL;
    return count;
}

static void full_queue(show *s)
{
    type(s, "ATDT1\r");
    type_many(s, 256);
    expect(told_full(s) == 0, "256 bytes have no place");
    type_many(s, 40);
    type_many(s, 1);
    expect(told_full(s) == 1, "a full queue is not said once");
    while (gibbonplate_state(&s->set) == GIBBONPLATE_DIALLING)
        process(256, s);
    expect(sounding(s) > 2000, "nothing is heard once the line is up");
    expect(told_full(s) == 0, "a full queue is said again");
    type_many(s, 1);
    expect(told_full(s) == 0, "there is no place once a byte is heard");
    type_many(s, 40);
    expect(told_full(s) == 1, "a queue that is full again is not said");
}

int main(void)
{
    static const uint32_t none[] = {384000, 192001, 7999, 0};
    static show s;
    show_event event;
    size_t i;

    s.keys = ring(4096 * sizeof(show_key));
    s.events = ring(1024 * sizeof(show_event));
    s.rate = s.made = 48000;
    unlit(&s);
    expect(gibbonplate_new(&s.set, 48000) == GIBBONPLATE_ACCEPTED, "no set at 48000");
    for (i = 0; i < sizeof none / sizeof *none; i++) {
        type(&s, "ATDT1\r");
        expect(sounding(&s) > 1000, "a call is not heard");
        told(&s, &event);
        new_rate(none[i], &s);
        type(&s, "ATDT1\r");
        expect(sounding(&s) == 0, "a rate that no set has is not silent");
        expect(told(&s, &event) == 1 && event.fresh && event.refusal == GIBBONPLATE_BAD_RATE && event.rate == none[i], "it is not said once");
        new_rate(44100, &s);
        expect(sounding(&s) == 0, "what was typed meanwhile is not dropped");
        expect(told(&s, &event) == 1 && event.fresh && !event.refusal && event.rate == 44100, "no fresh set");
        expect(gibbonplate_rate(&event.set) == 44100, "a fresh set has another rate");
    }
    full_queue(&s);
    return 0;
}
