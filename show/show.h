/* The show: one set behind the sound and the icons. play.c is the audio callback's side. The other side is the desk:
 * show.c joins what is heard, typed and written; script.c types from a file, book.c writes the log and the take,
 * panel.c is the terminal's, and outlet.c that of the programs which show it elsewhere (web.c, osc.c, osc_in.c). */
#ifndef SHOW_H
#define SHOW_H

#include "change.h"
#include "gibbonplate.h"
#include <jack/jack.h>
#include <jack/ringbuffer.h>
#include <stdio.h>

/* ---- between the two sides; each ring has one writer and one reader */

/* Something typed, what becomes of the carrier flag, or hanging up at once. */
enum { KEY_BYTE, KEY_CARRIER_TURNED, KEY_CARRIER_DOWN, KEY_CARRIER_UP, KEY_HANGUP };

typedef struct {
    uint8_t kind;
    uint8_t byte;
} show_key;

/* Something that happened at a frame, with the set as it was then. */
typedef struct {
    uint64_t frame;      /* from the start of the show, which is the take's first sample */
    jack_nframes_t time; /* the same in the server's count */
    uint32_t typed;      /* how many bytes had been typed */
    uint8_t refusal;     /* of a typed byte, of what it would queue, or of a new rate */
    bool carrier;
    bool line;      /* a typed byte caused it, the last one */
    bool hung_up;   /* it hung up at once */
    bool fresh;     /* the set was made anew: for that, in data mode, or for the server's rate */
    uint32_t rate;  /* the new one */
    uint8_t key[2]; /* the key that is lit, as a fill gives it */
    gibbonplate_answer answer;
    gibbonplate_set set;
} show_event;

typedef struct {
    jack_client_t *client; /* null while there is no server */
    jack_port_t *port;
    jack_ringbuffer_t *keys;   /* show_key, to the callback */
    jack_ringbuffer_t *events; /* show_event, from it */
    jack_ringbuffer_t *take;   /* samples, from it; null if nobody takes them */
    bool beside_another;       /* another show plays on this server */
    char why[96];
    /* the callback's own */
    gibbonplate_set set;
    uint32_t made; /* the rate for which the set was made */
    bool mute;     /* no set can be made for it */
    bool carrier;
    uint8_t key[2]; /* of the last sample played */
    bool full;      /* the last byte found no place in the queue */
    bool half;      /* a command is typed, and its Return is not */
    uint32_t typed; /* bytes */
    uint64_t rest;  /* of nanoseconds times the rate, carried over to the next buffer */
    /* written by one side and read by the other */
    uint64_t frame;  /* frames played: where it stands still, nothing is heard */
    uint32_t rate;   /* the server's */
    uint32_t buffer; /* its buffer length */
    uint32_t m;
    uint32_t late;                      /* buffers that came too late, as the server counts them */
    uint32_t lost;                      /* events or samples for which a ring had no room */
    bool ended;                         /* the server went away */
    uint64_t calls, total_ns, worst_ns; /* of the callback */
} show;

/* Makes the rings; false where there is no memory for them. */
bool show_open(show *s, bool take);
/* Joins a server and plays. Answers null, or why it does not. */
const char *show_join(show *s, const char *server);
void show_leave(show *s);
void show_close(show *s);
/* The icon to light, 1 to 10, or 0 for none. */
uint8_t show_icon(const gibbonplate_set *set);

uint64_t clock_ns(void);

/* ---- the script of keys (script.c) */

enum { STEP_TYPE, STEP_KEYS, STEP_CARRIER, STEP_HANGUP, STEP_WAIT, STEP_UNTIL, STEP_BUFFER, STEP_END };

typedef struct {
    int kind;
    int line;        /* of the file, from 1 */
    char *text;      /* of what is typed */
    uint64_t ns;     /* of a wait */
    uint32_t number; /* an icon, or frames */
} script_step;

typedef struct {
    script_step *steps;
    size_t count, next;
    uint64_t wait_until; /* of the clock, ns */
    bool waits_for_icon;
    uint32_t wait_icon;
} script;

/* Reads and checks all of a file. Where something in it is wrong it has said so. */
bool script_read(script *s, const char *path);
void script_free(script *s);

/* ---- what is written down (book.c) */

typedef struct {
    const char *path;
    FILE *file;
    char failed[SHOW_NOTICE]; /* why nothing more is written to it */
} book;

typedef struct {
    const show_event *event;
    const show_face *face;
    uint64_t lit;      /* the frame that was heard when it was shown */
    const char *typed; /* since the row before */
    const char *reply; /* by the set */
    const char *note;  /* by the show */
} book_row;

bool book_open(book *b, const char *path);
/* Writes what is left and closes; false where it could not be written, and it has said so. */
bool book_close(book *b);
void log_header(book *b);
void log_row(book *b, const book_row *row);
void log_end(book *b, const show *s, const char *typed);
/* Moves what was played to the take. */
void take_record(book *b, show *s, uint32_t *samples);
void take_header(book *b, uint32_t rate, uint32_t samples);

/* ---- the terminal, one of those that are handed every change (panel.c) */

/* Makes the terminal the panel, until the process ends, however it ends. Call it before anything else is opened. */
void panel_guard(void);
void panel_start(const char *address);
void panel_draw(const show_face *face);

/* ---- a program of its own that is handed every change, and hands back what was typed there (outlet.c) */

typedef struct {
    const char *name;      /* of the program, beside this one */
    const char *needs;     /* the package with which it is built */
    int priority;          /* in real time where that is allowed, or 0 */
    const char *words[40]; /* its own, after the name */
    size_t count;
    int fd; /* -1 while it does not run */
    int pid;
    uint64_t again_at; /* ns: when it is started anew */
    uint64_t started_at;
    uint64_t wait_ns;
    double may; /* how many records are taken from it now */
    uint64_t may_at;
    uint32_t missed; /* changes for which it had no room */
    uint32_t starts;
    char said[SHOW_TEXT]; /* when it was ready: where the panel is */
} outlet;

/* Starts it, and waits until it says that it is ready. Where it does not, it has said why. */
bool outlet_open(outlet *o);
void outlet_tell(outlet *o, const show_change *change);
/* Whether something was typed there. Starts it anew where it has ended. Never waits. */
bool outlet_typed(outlet *o, show_typed *typed, uint64_t now);
/* Whether more would be taken from it now. */
bool outlet_may(const outlet *o);
void outlet_close(outlet *o);
/* Runs the program in place of this one, with these words. Comes back, and has said why, where it cannot. */
void outlet_become(const outlet *o, char *const *words);

#endif
