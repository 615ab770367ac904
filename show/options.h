/* The words of the show's command line (options.c), and what is asked before a show (plan.c). */
#ifndef SHOW_OPTIONS_H
#define SHOW_OPTIONS_H

#include <stdbool.h>
#include <stddef.h>
#include <stdint.h>

/* Those that are handed on to an outlet. */
typedef struct {
    const char *words[40];
    size_t count;
} option_words;

typedef struct {
    const char *log, *take, *keys, *server, *to, *plan, *check_sheet;
    uint32_t rate; /* of a plan */
    option_words web, osc, osc_in;
} options;

/* Reads them. Ends the program where it is asked for help or its version; false where something is wrong, and it has
 * said so. */
bool options_read(options *o, int argc, char **argv);

/* Prints the cues of a call to a number. Where it declines it has said why. */
bool plan_print(const char *number, uint32_t rate);

#endif
