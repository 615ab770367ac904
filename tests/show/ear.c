/*
 * What the show plays into where its truth is judged: a JACK client with one input, whose latency is told as a card tells its own.
 *
 *     ear SERVER LATENCY SAMPLES CYCLES
 *
 * Says "ready" once it can be played into. When its standard input ends, it writes what it heard to SAMPLES, as floats, and to CYCLES a line for
 * each buffer: how many samples came before it, and the microseconds of the server's clock at which the buffer began.
 */
#include <jack/jack.h>
#include <stdio.h>
#include <stdlib.h>
#include <string.h>

enum { SECONDS = 120, CYCLES = 1 << 20 };

typedef struct {
    jack_client_t *client;
    jack_port_t *port;
    jack_nframes_t latency;
    float *samples;
    size_t room, heard, cycles;
    struct {
        size_t before;
        jack_time_t usecs;
    } * cycle;
} ear;

static int hear(jack_nframes_t frames, void *with)
{
    ear *e = with;
    jack_nframes_t now;
    jack_time_t began, next;
    float period;

    if (e->heard + frames > e->room || e->cycles == CYCLES || jack_get_cycle_times(e->client, &now, &began, &next, &period) != 0)
        return 0;
    e->cycle[e->cycles].before = e->heard;
    e->cycle[e->cycles++].usecs = began;
    memcpy(e->samples + e->heard, jack_port_get_buffer(e->port, frames), frames * sizeof(float));
    e->heard += frames;
    return 0;
}

static void tell_latency(jack_latency_callback_mode_t mode, void *with)
{
    ear *e = with;
    jack_latency_range_t range = {e->latency, e->latency};

    if (mode == JackPlaybackLatency)
        jack_port_set_latency_range(e->port, mode, &range);
}

static void silent(const char *text)
{
    (void)text;
}

static int failed(const char *what)
{
    fprintf(stderr, "ear: %s\n", what);
    return 1;
}

int main(int argc, char **argv)
{
    static ear e;
    FILE *samples, *cycles;
    size_t i;

    if (argc != 5)
        return failed("it takes SERVER LATENCY SAMPLES CYCLES");
    jack_set_error_function(silent);
    jack_set_info_function(silent);
    e.client = jack_client_open("ear", JackNoStartServer | JackServerName, NULL, argv[1]);
    if (!e.client)
        return failed("no server answers");
    e.latency = (jack_nframes_t)strtoul(argv[2], NULL, 10);
    e.room = (size_t)SECONDS * jack_get_sample_rate(e.client);
    e.samples = calloc(e.room, sizeof *e.samples);
    e.cycle = calloc(CYCLES, sizeof *e.cycle);
    e.port = jack_port_register(e.client, "in", JACK_DEFAULT_AUDIO_TYPE, JackPortIsInput | JackPortIsTerminal, 0);
    if (!e.samples || !e.cycle || !e.port)
        return failed("there is no memory, or no port");
    jack_set_latency_callback(e.client, tell_latency, &e);
    jack_set_process_callback(e.client, hear, &e);
    if (jack_activate(e.client) != 0)
        return failed("the server does not let it listen");
    puts("ready");
    fflush(stdout);
    while (getchar() != EOF)
        ;
    jack_client_close(e.client);
    samples = fopen(argv[3], "wb");
    cycles = fopen(argv[4], "w");
    if (!samples || !cycles)
        return failed("it cannot write");
    fwrite(e.samples, sizeof *e.samples, e.heard, samples);
    for (i = 0; i < e.cycles; i++)
        fprintf(cycles, "%zu %llu\n", e.cycle[i].before, (unsigned long long)e.cycle[i].usecs);
    return fclose(samples) == 0 && fclose(cycles) == 0 ? 0 : failed("it cannot write");
}
