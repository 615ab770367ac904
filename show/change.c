/* What the show and its outlets have in common. */
#define _GNU_SOURCE
#include "change.h"
#include <errno.h>
#include <stdio.h>
#include <string.h>
#include <sys/socket.h>

const char show_keypad[17] = "123A456B789C*0#D";

const char *const show_names[12] = {"",      "OffHook", "DialTone", "Dialling", "Ringback",  "Ci",
                                    "Ansam", "CmJm",    "Cj",       "Training", "Connected", "carrier"};

char show_key_of(const show_face *face)
{
    return face->key[0] < 4 && face->key[1] < 4 ? show_keypad[face->key[0] * 4 + face->key[1]] : 0;
}

bool outlet_hand_in(const show_typed *typed)
{
    return send(SHOW_OUTLET_FD, typed, sizeof *typed, MSG_DONTWAIT | MSG_NOSIGNAL) == (ssize_t)sizeof *typed;
}

bool outlet_ready(const char *text)
{
    show_typed ready = {.kind = TYPED_READY};
    size_t len = strlen(text);

    ready.len = (uint16_t)(len < sizeof ready.bytes ? len : sizeof ready.bytes);
    memcpy(ready.bytes, text, ready.len);
    return outlet_hand_in(&ready);
}

const char *outlet_type(const char *text, size_t len, bool with_return)
{
    show_typed typed = {.kind = TYPED_TEXT};
    size_t i;

    if (len + with_return > sizeof typed.bytes)
        return "more than 255 bytes";
    for (i = 0; i < len; i++)
        if (text[i] < 32 || text[i] > 126)
            return "only ASCII can be typed";
    memcpy(typed.bytes, text, len);
    if (with_return)
        typed.bytes[len++] = '\r';
    typed.len = (uint16_t)len;
    return outlet_hand_in(&typed) ? NULL : "the show takes no more just now";
}

int outlet_next(show_change *change)
{
    ssize_t n;

    do
        n = recv(SHOW_OUTLET_FD, change, sizeof *change, MSG_DONTWAIT);
    while (n > 0 && n != (ssize_t)sizeof *change);
    if (n > 0)
        return 1;
    return n < 0 && (errno == EAGAIN || errno == EINTR) ? 0 : -1;
}
