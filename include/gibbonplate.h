/*
 * Gibbonplate: the calling set of a modem, for C and C++ programs.
 *
 * A set takes typed bytes, lapses of time and sample buffers. It gives replies, the bytes to send, the
 * sound of a dialled call sample by sample, and the stage of that call. It lies in memory that you
 * lend, one gibbonplate_set, which only the functions below write. They allocate nothing, hold nothing
 * between calls, print nothing, wait for nothing and call nobody, but C's memcpy, memmove and memset, so an
 * audio callback may call them; but ask the plan's three before the call, since they take as long as many buffers.
 *
 *     gibbonplate_set set;
 *     gibbonplate_new(&set, 48000);              // then, in the order in which things happen:
 *     gibbonplate_feed(&set, 'A', ...);          // a byte is typed
 *     gibbonplate_advance_time(&set, ns, ...);   // time passes
 *     gibbonplate_process_out(&set, buffer, n, key);  // the card wants samples
 *
 * How long a call will be, stage by stage, is told before it is made, and its keys, dial tone and ringback are
 * given as 16-bit samples for an earpiece, by the last four functions: they take digits and a rate, and no set.
 *
 * Every call answers. A call that is declined answers one of the numbers of gibbonplate_refusal, and
 * leaves the set and every buffer as they were, creation apart. Memory that holds no set, or one with something
 * in it out of range, is declined with 6 by every call but creation and the plain readers. docs/BEHAVIOUR.md,
 * "Refusals", has the ranges. A set in range is taken, also one that no calls lead to: a fresh one with 4,999,999
 * written over its m, say. All of this is proved, for every content of the memory (docs/PROOF.md). What the
 * proof takes for granted is yours to see to:
 *
 *   - Each pointer is to memory of its type, as long as the call is told, and may be written where it
 *     is not const. None is null, but that of a buffer of length 0 may be.
 *   - What is lent to one call does not overlap: set, string, outbox, codes, buffer, key, answer.
 *   - One call at a time on one set, and each call gets the set as the one before left it. Two sets
 *     have nothing to do with each other. Assigning a set copies it.
 *   - A bool is 0 or 1, as every C expression of the type is.
 *   - Floats are rounded to nearest, as a program starts. Under fesetround(FE_UPWARD) digits 123 at 8,000 have
 *     4,800 samples in Dialling and not 4,801, and T is 83,134 and not 83,138. Under FE_DOWNWARD and
 *     FE_TOWARDZERO these two stay, and samples differ under all three. Flush-to-zero and denormals-are-zero,
 *     which some audio hosts set, may be on: in whole calls no bit was another one (tests/c/modes.c).
 *   - The program is for x86-64, and is linked with libgibbonplate.a, which `tools/build gibbonplate`
 *     writes to target/staticlib, and with memcpy, memmove and memset: the archive wants these and nothing else.
 */
#ifndef GIBBONPLATE_H
#define GIBBONPLATE_H

#include <stdbool.h>
#include <stddef.h>
#include <stdint.h>

#ifdef __cplusplus
extern "C" {
#endif

#define GIBBONPLATE_MARKS 13

/* A set. Its contents are the library's business. */
typedef struct gibbonplate_set {
    uint64_t longs[6];
    uint32_t counts[4];
    double reals[11];
    uint8_t marks[GIBBONPLATE_MARKS];
    uint8_t line[80];
    uint8_t keys[76];
    uint8_t queue[256];
} gibbonplate_set;

/* Why a call was declined. Numbers 4 and 5 are given no more, and 11 and 13 to 15 are no call's here. */
enum gibbonplate_refusal {
    GIBBONPLATE_ACCEPTED = 0,
    GIBBONPLATE_BAD_RATE = 1,      /* creation, a plan, the earpiece: a rate outside 8,000 to 192,000 */
    GIBBONPLATE_SHORT_OUTBOX = 2,  /* a typed byte: an outbox under 4 bytes */
    GIBBONPLATE_LONG_FILL = 3,     /* a fill, the earpiece: over 65,536 samples */
    GIBBONPLATE_UNSOUND = 6,       /* the memory holds no set, or one out of range */
    GIBBONPLATE_BAD_POSITION = 7,  /* a cue: nothing is being dialled, or it has no such digit */
    GIBBONPLATE_LONG_STRING = 8,   /* a string of over 256 bytes */
    GIBBONPLATE_STRING_ROOM = 9,   /* a string: an outbox under 4 bytes a byte, or a code buffer under 3 */
    GIBBONPLATE_LONG_NUMBER = 10,  /* a plan, the earpiece: over 76 bytes, keys or not */
    GIBBONPLATE_QUEUE_FULL = 12    /* a queued byte: 256 are waiting */
};

/* The states. */
enum {
    GIBBONPLATE_IDLE = 0,
    GIBBONPLATE_DIALLING = 1,
    GIBBONPLATE_ANSWERING = 2,
    GIBBONPLATE_CONNECTED = 3
};

enum {
    GIBBONPLATE_MIN_OUTBOX = 4,
    GIBBONPLATE_MAX_FILL = 65536,
    GIBBONPLATE_MAX_LINE = 80,
    GIBBONPLATE_MAX_DIGITS = 76,
    GIBBONPLATE_MAX_STRING = 256,
    GIBBONPLATE_MAX_QUEUE = 256,
    GIBBONPLATE_NO_KEY = 255, /* the row and the column where no key is lit */
    GIBBONPLATE_MAX_REPLY = 26 /* bytes of the longest reply */
};

/* What a call answers beside its refusal. */
typedef struct gibbonplate_answer {
    uint8_t codes[2]; /* the reply, none, one or two codes, 0 for none: see gibbonplate_write_reply */
    size_t sent;      /* bytes put at the outbox's front */
} gibbonplate_answer;

/*
 * The library's own functions take the set as its seven arrays, since it knows no structs of C's. Call
 * the functions below these; from a language that cannot include this header, call these.
 */
#define GIBBONPLATE_ARRAYS                                                                                        \
    uint64_t longs[6], uint32_t counts[4], double reals[11], uint8_t marks[GIBBONPLATE_MARKS], uint8_t line[80], \
        uint8_t keys[76], uint8_t queue[256]
#define GIBBONPLATE_CONST_ARRAYS                                                                                 \
    const uint64_t longs[6], const uint32_t counts[4], const double reals[11], const uint8_t marks[GIBBONPLATE_MARKS], \
        const uint8_t line[80], const uint8_t keys[76], const uint8_t queue[256]
#define GIBBONPLATE_OF(set) \
    (set)->longs, (set)->counts, (set)->reals, (set)->marks, (set)->line, (set)->keys, (set)->queue

uint8_t gibbonplate_new_in(GIBBONPLATE_ARRAYS, uint32_t rate);
uint8_t gibbonplate_feed_in(GIBBONPLATE_ARRAYS, uint8_t byte, bool carrier, uint8_t *outbox, size_t len,
                            uint8_t codes[2], size_t *sent);
uint8_t gibbonplate_feed_all_in(GIBBONPLATE_ARRAYS, const uint8_t *bytes, size_t count, bool carrier, uint8_t *outbox, size_t len,
                                uint8_t *codes, size_t places, size_t *sent);
uint8_t gibbonplate_advance_time_in(GIBBONPLATE_ARRAYS, uint64_t ns, bool carrier, uint8_t codes[2]);
uint8_t gibbonplate_force_data_mode_in(GIBBONPLATE_ARRAYS);
uint8_t gibbonplate_queue_byte_in(GIBBONPLATE_ARRAYS, uint8_t byte);
uint8_t gibbonplate_process_out_in(GIBBONPLATE_ARRAYS, float *samples, size_t len, uint8_t key[2]);
uint8_t gibbonplate_ring_in(GIBBONPLATE_CONST_ARRAYS, uint8_t *ring);
uint8_t gibbonplate_cue_in(GIBBONPLATE_CONST_ARRAYS, uint32_t position, uint64_t *sample, uint8_t key[2]);
uint8_t gibbonplate_mode_in(GIBBONPLATE_CONST_ARRAYS);
uint8_t gibbonplate_state_in(GIBBONPLATE_CONST_ARRAYS);
uint8_t gibbonplate_stage_in(GIBBONPLATE_CONST_ARRAYS);
uint32_t gibbonplate_m_in(GIBBONPLATE_CONST_ARRAYS);
uint8_t gibbonplate_s12_in(GIBBONPLATE_CONST_ARRAYS);
uint32_t gibbonplate_rate_in(GIBBONPLATE_CONST_ARRAYS);
size_t gibbonplate_digits_in(GIBBONPLATE_CONST_ARRAYS, uint8_t digits[76]);

/*
 * Makes a fresh set: state 0, command mode. The memory may hold anything before.
 * Declines with 1, and then the set is fresh at 8,000.
 */
static inline uint8_t gibbonplate_new(gibbonplate_set *set, uint32_t rate)
{
    return gibbonplate_new_in(GIBBONPLATE_OF(set), rate);
}

/*
 * A byte is typed. carrier says whether the line hears the other end; it is taken as false in state 0.
 * What is to be sent is put at the front of the outbox, the rest of which stays; answer gets the reply
 * and how many bytes were put there. A line that gets more than 80 bytes is no command: its CR gives ERROR.
 * Declines with 6 and 2, in this order; answer is then all 0.
 */
static inline uint8_t gibbonplate_feed(gibbonplate_set *set, uint8_t byte, bool carrier, uint8_t *outbox, size_t len,
                                       gibbonplate_answer *answer)
{
    return gibbonplate_feed_in(GIBBONPLATE_OF(set), byte, carrier, outbox, len, answer->codes, &answer->sent);
}

/*
 * A string of up to 256 bytes is typed, all with one carrier flag: as gibbonplate_feed for each of them, in one
 * call. What they send is put at the front of the outbox, in order, and sent gets how many bytes that is. Byte i,
 * from 0, has three places of codes, from 3 * i: its two codes, 0 for none, and the set's S12 after it, which is
 * what a code 6 among them stands for. What is behind them stays. The outbox has to have 4 bytes for each byte of
 * the string, and codes 3. Declines with 6, 8 and 9, in this order; nothing is typed then, and sent is 0. A string
 * of no bytes needs no room.
 */
static inline uint8_t gibbonplate_feed_all(gibbonplate_set *set, const uint8_t *bytes, size_t count, bool carrier, uint8_t *outbox,
                                           size_t len, uint8_t *codes, size_t places, size_t *sent)
{
    return gibbonplate_feed_all_in(GIBBONPLATE_OF(set), bytes, count, carrier, outbox, len, codes, places, sent);
}

/*
 * So many nanoseconds pass. answer gets the reply; it sends nothing. A card's frames make a remainder
 * of nanoseconds: carry it over to the next call, or the clock is late. Declines with 6.
 */
static inline uint8_t gibbonplate_advance_time(gibbonplate_set *set, uint64_t ns, bool carrier,
                                               gibbonplate_answer *answer)
{
    answer->sent = 0;
    return gibbonplate_advance_time_in(GIBBONPLATE_OF(set), ns, carrier, answer->codes);
}

/* Data mode without a command, for a program that connects by itself. Declines with 6. */
static inline uint8_t gibbonplate_force_data_mode(gibbonplate_set *set)
{
    return gibbonplate_force_data_mode_in(GIBBONPLATE_OF(set));
}

/*
 * A byte waits to be sent, in any state: up to GIBBONPLATE_MAX_QUEUE of them, oldest first. In state 3 the
 * fills send them, and a byte's place is free when its frame begins. A dial line, an answer and a hang-up
 * empty the queue; what is queued while the set dials is kept as the line goes up.
 * Declines with 6 and 12, in this order.
 */
static inline uint8_t gibbonplate_queue_byte(gibbonplate_set *set, uint8_t byte)
{
    return gibbonplate_queue_byte_in(GIBBONPLATE_OF(set), byte);
}

/*
 * Fills the buffer with what the house hears next: silence in states 0 and 2, the call in state 1, and in
 * state 3 the set's own sender: mark, and the frames of the bytes queued. Samples are between -1 and 1. An
 * empty fill shows the next sample's stage, and with the whole call played takes the line up; the fill that
 * does so is silent past the call's end, and the next one begins the sender. Declines with 6 and 3, in this
 * order.
 *
 * key gets the row and the column, 0 to 3 each, of the key whose tones the last sample is of, for a
 * drawing of the keypad: 123A, 456B, 789C, *0#D. It gets GIBBONPLATE_NO_KEY twice where there is none: in
 * the gap after a digit, in another stage or state, and after an empty or a declined fill.
 */
static inline uint8_t gibbonplate_process_out(gibbonplate_set *set, float *samples, size_t len, uint8_t key[2])
{
    return gibbonplate_process_out_in(GIBBONPLATE_OF(set), samples, len, key);
}

/* ring gets 1 or 2 while the next sample is one of Ringback's, else 0. Declines with 6, ring 0. */
static inline uint8_t gibbonplate_ring(const gibbonplate_set *set, uint8_t *ring)
{
    return gibbonplate_ring_in(GIBBONPLATE_OF(set), ring);
}

/*
 * sample gets the number, from 1 in the whole call, of the first sample in the tone of the digit at a
 * position, from 0: no smaller number lies in it. key gets the row and the column of that digit, as a
 * fill's. Declines with 6 and 7, in this order, sample 0 and no key.
 */
static inline uint8_t gibbonplate_cue(const gibbonplate_set *set, uint32_t position, uint64_t *sample, uint8_t key[2])
{
    return gibbonplate_cue_in(GIBBONPLATE_OF(set), position, sample, key);
}

/* The plain readers decline nothing. Of memory that holds no set they read 'C', an S12 of 50, and 0. */

/* 'C': what is typed is a command. 'D': what is typed is sent. */
static inline uint8_t gibbonplate_mode(const gibbonplate_set *set)
{
    return gibbonplate_mode_in(GIBBONPLATE_OF(set));
}

/* One of the four states. */
static inline uint8_t gibbonplate_state(const gibbonplate_set *set)
{
    return gibbonplate_state_in(GIBBONPLATE_OF(set));
}

/*
 * The stage that is shown, 1 to 9, or 0 for none: that of the last sample written, or after an empty fill that of
 * the next one. Stage 10 is state 3.
 */
static inline uint8_t gibbonplate_stage(const gibbonplate_set *set)
{
    return gibbonplate_stage_in(GIBBONPLATE_OF(set));
}

/* Samples written since the dial line, up to where the line went up. */
static inline uint32_t gibbonplate_m(const gibbonplate_set *set)
{
    return gibbonplate_m_in(GIBBONPLATE_OF(set));
}

/* S12, 0 to 255: the guard time of an escape in units of 20 ms, 50 in a fresh set. The line ATS12=n sets it. */
static inline uint8_t gibbonplate_s12(const gibbonplate_set *set)
{
    return gibbonplate_s12_in(GIBBONPLATE_OF(set));
}

/* Samples a second, as the set was made. */
static inline uint32_t gibbonplate_rate(const gibbonplate_set *set)
{
    return gibbonplate_rate_in(GIBBONPLATE_OF(set));
}

/* How many digits were dialled. digits gets them at its front, and what stood behind them in the set. */
static inline size_t gibbonplate_digits(const gibbonplate_set *set, uint8_t digits[GIBBONPLATE_MAX_DIGITS])
{
    return gibbonplate_digits_in(GIBBONPLATE_OF(set), digits);
}

/*
 * Writes the text of a code to the front of out, and answers its length: 1 OK, 2 CONNECT 300,
 * 3 NO CARRIER, 4 ERROR, 5 modem-core Bell 103 v1.0.0, 6 the S12 that it is handed, in three digits: hand
 * it gibbonplate_s12 of the set that gave the code. No 0 byte and no line end is added. Another code, or
 * an out that is too short, gives 0 and leaves out as it was.
 */
size_t gibbonplate_write_reply(uint8_t code, uint8_t s12, uint8_t *out, size_t len);

/*
 * The length of a call before the call: for digit bytes and a rate, the samples of each of its stages
 * and of all of them. These need no set and make no sample, and they tell what a set at that rate will
 * play once it has dialled those bytes. As in a dial line small letters are raised, and bytes that are
 * no keys (0 to 9, A to D, * and #) are dropped. digits is read only; null with length 0 is right, and
 * tells of a call with no digits, as any bytes do of which none is a key.
 *
 * All three see the rate first and then the length: a rate outside 8,000 to 192,000 is declined with
 * 1, else more than 76 bytes, keys or not, with 10. Declined, every count is 0.
 *
 * The counts pass the symbol clock over a second of samples: ask before the call, not in an audio callback.
 */

/* 0 where there are counts, else 1 or 10. */
uint8_t gibbonplate_plan_refusal(const uint8_t *digits, size_t len, uint32_t rate);

/* The samples of a stage, 1 to 9; 0 for another number, and where gibbonplate_plan_refusal declines. */
uint32_t gibbonplate_stage_samples(const uint8_t *digits, size_t len, uint32_t rate, uint32_t stage);

/*
 * T, the samples of stages 1 to 9 together, at most 4,798,406; 0 where gibbonplate_plan_refusal declines.
 * The first sample of stage k is 1 and the samples of the stages before k; T + 1 would be Connected's.
 */
uint32_t gibbonplate_total_samples(const uint8_t *digits, size_t len, uint32_t rate);

/*
 * For an earpiece: a call's samples as 16-bit whole numbers, from the one after the first `pass` on. Dial
 * tone, the keys' tones and ringback sound, where a set's call has them, sample for sample; all other
 * samples are 0, and so are those past T. Two tones are within -29,490 to 29,488 together. Calls may come
 * in any order: nothing is kept between them, so that a buffer is asked for again, or another, at will, and
 * passing over costs about a microsecond, however many are passed over. It may be called in an audio callback.
 *
 * Digits and rate are taken and declined as above: 1, then 10; then a buffer of more than 65,536 samples
 * is declined with 3. Declined, the buffer is as it was. Null with length 0 is right for both.
 */
uint8_t gibbonplate_earpiece(const uint8_t *digits, size_t len, uint32_t rate, uint64_t pass,
                             int16_t *out, size_t out_len);

#ifdef __cplusplus
}
#endif

#endif
