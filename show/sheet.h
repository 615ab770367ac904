/* What a sheet says: which of its elements are lit, touched and written, and what is wrong with it (docs/SHEETS.md). */
#ifndef SHOW_SHEET_H
#define SHOW_SHEET_H

#include <stdbool.h>
#include <stddef.h>
#include <stdio.h>

enum { SHEET_LONGEST = 8 << 20 };

typedef struct {
    char *svg; /* the file */
    size_t len;
    char *words;   /* for the page: a JSON array, in which an element has its number in the document, from 0 */
    char *has;     /* "11 of 11 icons, 16 of 16 keys, 7 to touch" */
    char *faults;  /* what is wrong, a line each */
    char *touches; /* what is touched, a line each: where its tag begins in the file, its ID or -, and what it does */
    char *wrong;   /* why it cannot be shown at all, or null */
} sheet;

/* Reads a file; false where it cannot be shown, and `wrong` says why. */
bool sheet_read(sheet *s, const char *path);
/* The same of a sheet in memory, of which a copy is kept. */
bool sheet_take(sheet *s, const char *svg, size_t len);
void sheet_free(sheet *s);
/* Text as JSON has it, without the quotation marks. */
void sheet_put_json(FILE *file, const char *text, size_t len);

#endif
