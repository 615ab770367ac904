/* The words of the show's command line. */
#define _GNU_SOURCE
#include "options.h"
#include <getopt.h>
#include <stdio.h>
#include <stdlib.h>
#include <string.h>

#ifndef SHOW_VERSION
#define SHOW_VERSION "unknown"
#endif

static const char help[] =
    "show: a call that is heard and lit from one state, over JACK.\n"
    "\n"
    "  --log FILE          a CSV row for each change\n"
    "  --take FILE         what was played, as a WAV file\n"
    "  --keys FILE         types from a file\n"
    "  --server NAME       the JACK server of that name\n"
    "  --to PORT           plays into this port alone\n"
    "\n"
    "  --http PORT         a panel in a browser, on this machine alone\n"
    "  --listen ADDR       on this address too: the panel then asks for a token\n"
    "  --name HOST         a name that the panel answers to, beside its address\n"
    "  --token WORD        this token, of 8 characters or more, in place of a new one\n"
    "  --sheet FILE        a sheet of your own, an SVG file\n"
    "  --check-sheet FILE  says what is wrong with a sheet, and ends\n"
    "\n"
    "  --osc HOST:PORT     tells what is heard by OSC; up to eight times\n"
    "  --cues FILE         and a desk's own messages, which the file says\n"
    "  --osc-in PORT       types what comes by OSC; [ADDR:]PORT\n"
    "  --plan NUMBER       prints the cues of a call to a number as CSV, and ends\n"
    "  --rate RATE         at this rate; 48000 where none is said\n"
    "\n"
    "  --help, --version\n"
    "\n"
    "At the terminal: Return ends a line, Tab raises and drops carrier, Ctrl-X hangs up, Ctrl-C ends.\n"
    "README.md, docs/SHEETS.md and docs/CUES.md say more.\n";

enum { LOG = 1, TAKE, KEYS, SERVER, TO, PLAN, RATE, CHECK, WEB, OSC, OSC_IN, HELP, VERSION };

static const struct option known[] = {
    {"log", required_argument, NULL, LOG},
    {"take", required_argument, NULL, TAKE},
    {"keys", required_argument, NULL, KEYS},
    {"server", required_argument, NULL, SERVER},
    {"to", required_argument, NULL, TO},
    {"plan", required_argument, NULL, PLAN},
    {"rate", required_argument, NULL, RATE},
    {"check-sheet", required_argument, NULL, CHECK},
    {"http", required_argument, NULL, WEB},
    {"listen", required_argument, NULL, WEB},
    {"name", required_argument, NULL, WEB},
    {"token", required_argument, NULL, WEB},
    {"sheet", required_argument, NULL, WEB},
    {"osc", required_argument, NULL, OSC},
    {"cues", required_argument, NULL, OSC},
    {"osc-in", required_argument, NULL, OSC_IN},
    {"help", no_argument, NULL, HELP},
    {"version", no_argument, NULL, VERSION},
    {NULL, 0, NULL, 0},
};

static _Noreturn void print(const char *text)
{
    fputs(text, stdout);
    exit(fflush(stdout) == 0 ? 0 : 1);
}

static bool usage(const char *why, const char *word)
{
    fprintf(stderr, "show: it takes %s%s; `show --help` says all\n", why, word);
    return false;
}

/* An option of an outlet, with its value. */
static bool hand_on(option_words *to, const char *name, const char *value)
{
    static char words[64][40];
    static size_t used;

    if (to->count + 2 > sizeof to->words / sizeof *to->words || used == sizeof words / sizeof *words)
        return usage("no more of --", name);
    snprintf(words[used], sizeof words[used], "--%s", name);
    to->words[to->count++] = words[used++];
    to->words[to->count++] = value;
    return true;
}

static bool read_rate(uint32_t *rate, const char *text)
{
    char *end;
    unsigned long n = strtoul(text, &end, 10);

    if (end == text || *end || n < 8000 || n > 192000)
        return usage("a rate from 8000 to 192000, and not ", text);
    *rate = (uint32_t)n;
    return true;
}

static bool read_option(options *o, int which, int index, const char *value)
{
    switch (which) {
    case LOG:
        o->log = value;
        return true;
    case TAKE:
        o->take = value;
        return true;
    case KEYS:
        o->keys = value;
        return true;
    case SERVER:
        o->server = value;
        return true;
    case TO:
        o->to = value;
        return true;
    case PLAN:
        o->plan = value;
        return true;
    case CHECK:
        o->check_sheet = value;
        return true;
    case RATE:
        return read_rate(&o->rate, value);
    case WEB:
        return hand_on(&o->web, known[index].name, value);
    case OSC:
        return hand_on(&o->osc, known[index].name, value);
    case OSC_IN:
        return hand_on(&o->osc_in, known[index].name, value);
    case HELP:
        print(help);
    case VERSION:
        print("show, of Gibbonplate " SHOW_VERSION "\n");
    default:
        return usage("options with a value each, as --log FILE", "");
    }
}

bool options_read(options *o, int argc, char **argv)
{
    int which, index = 0;

    o->rate = 48000;
    opterr = 0;
    while ((which = getopt_long(argc, argv, "", known, &index)) != -1)
        if (!read_option(o, which, index, optarg))
            return false;
    if (optind < argc)
        return usage("options alone, and not ", argv[optind]);
    if (o->web.count && !o->check_sheet) {
        size_t i;

        for (i = 0; i < o->web.count && strcmp(o->web.words[i], "--http") != 0; i += 2)
            ;
        if (i >= o->web.count)
            return usage("--http PORT with ", o->web.words[0]);
    }
    return true;
}
