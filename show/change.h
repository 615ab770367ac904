/* What passes between the show and its outlets, the programs that show it elsewhere, over a socket of whole records:
 * changes out, what is typed in. All are of one build; a record of another size is none. */
#ifndef SHOW_CHANGE_H
#define SHOW_CHANGE_H

#include <stdbool.h>
#include <stddef.h>
#include <stdint.h>

enum {
    SHOW_REPLIES = 8, /* kept in a face */
    SHOW_REPLY = 128, /* bytes of one, with its 0 */
    SHOW_LINE = 128,  /* of a typed line, with its 0 */
    SHOW_NOTICE = 160,
    SHOW_TEXT = 256, /* typed at once at an outlet */
    SHOW_NO_KEY = 255,
    SHOW_OUTLET_FD = 3, /* the outlet's end of the socket */
};

/* A reply, and the line that caused it; none did where the line is empty. */
typedef struct {
    char line[SHOW_LINE];
    char text[SHOW_REPLY];
} show_reply;

/* All that a panel shows. */
typedef struct {
    uint8_t icon; /* 1 to 10, or 0 for none */
    uint8_t state, mode;
    uint8_t key[2]; /* the row and the column that are lit, or SHOW_NO_KEY */
    bool carrier;
    bool sounding; /* the server asks for samples */
    uint32_t rate, buffer, m, total, late, lost;
    char typed[SHOW_LINE];          /* the line as it is typed */
    uint32_t replies;               /* how many there were */
    show_reply reply[SHOW_REPLIES]; /* the last ones, newest last */
    char notice[SHOW_NOTICE];       /* what the operator has to know, or empty */
} show_face;

/* Something that is heard now, and the face with it. A beat is a face without anything new, ten times a second. */
typedef struct {
    uint32_t number;   /* of the change, from 1; a beat has that of the last one */
    uint64_t frame;    /* of the show, at which it happened */
    uint64_t heard_us; /* when that frame was heard, of CLOCK_MONOTONIC */
    bool beat;
    bool all; /* somebody asked for everything */
    show_face face;
} show_change;

/* What an outlet hands in: that it is ready, and where; text for the set, which nothing comes between; the carrier
 * flag; hanging up at once; and that it wants to be told everything. */
enum { TYPED_READY, TYPED_TEXT, TYPED_CARRIER_TURNED, TYPED_CARRIER_DOWN, TYPED_CARRIER_UP, TYPED_HANGUP, TYPED_ASK };

typedef struct {
    uint16_t kind;
    uint16_t len;
    uint8_t bytes[SHOW_TEXT];
} show_typed;

extern const char show_keypad[17];
extern const char *const show_names[12];

/* The letter of the key that is lit, or 0. */
char show_key_of(const show_face *face);

/* ---- an outlet's side of the socket */

/* Says that it is ready, with a line for the operator. */
bool outlet_ready(const char *text);
/* Hands in what was typed; false where the show takes no more just now. */
bool outlet_hand_in(const show_typed *typed);
/* Hands in a line of printable ASCII, with Return or without. Answers null, or why not. */
const char *outlet_type(const char *text, size_t len, bool with_return);
/* The next change: 1, or 0 where there is none now, or -1 where the show has ended. */
int outlet_next(show_change *change);

#endif
