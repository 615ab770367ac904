/* show-sheet: what a sheet has, and what is wrong with it, for handing in. `show --check-sheet FILE` runs it. */
#include "measure.h"
#include <stdio.h>

/* Whether nothing is wrong with it. */
static bool check(const sheet *s, const char *path)
{
    int small;

    printf("%s: %s\n%s", path, s->has, s->faults);
    small = measure_touches(s);
    if (small < 0)
        fputs("show: sizes are not measured; `make show` builds that with librsvg2-dev\n", stderr);
    return s->faults[0] == 0 && small <= 0 && fflush(stdout) == 0;
}

int main(int argc, char **argv)
{
    sheet s;
    bool good;

    if (argc != 2) {
        fputs("show: --check-sheet takes one file\n", stderr);
        return 1;
    }
    good = sheet_read(&s, argv[1]);
    if (good)
        good = check(&s, argv[1]);
    else
        fprintf(stderr, "show: \"%s\" cannot be shown: %s\n", argv[1], s.wrong ? s.wrong : "there is no memory for it");
    sheet_free(&s);
    return good ? 0 : 1;
}
