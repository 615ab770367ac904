/* A file of cues: which messages of a desk's own are sent for which events (docs/CUES.md). */
#ifndef SHOW_CUES_H
#define SHOW_CUES_H

#include "address.h"
#include <stddef.h>
#include <stdint.h>

enum { MAX_PLACES = 8, MAX_CUES = 256, MAX_EVENT = 80, MAX_CUE_PACKET = 512 };

typedef struct {
    char event[MAX_EVENT];
    int place; /* of the file's own, or -1: wherever --osc leads */
    uint8_t packet[MAX_CUE_PACKET];
    size_t len;
} cue;

typedef struct {
    address places[MAX_PLACES];
    int place_count;
    cue cues[MAX_CUES];
    int count;
} cue_list;

/* Reads a file. Where something in it is wrong it has said so. `elsewhere` is whether --osc leads anywhere. */
bool cues_read(cue_list *list, const char *path, bool elsewhere);

#endif
