/* The terminal as the panel: eleven icons, the keypad, the lines typed and the replies. A parent process holds the
 * terminal's settings and puts them back when the show ends, whatever ends it. */
#define _DEFAULT_SOURCE
#include "show.h"
#include <errno.h>
#include <signal.h>
#include <stdarg.h>
#include <stdlib.h>
#include <string.h>
#include <sys/ioctl.h>
#include <sys/prctl.h>
#include <sys/wait.h>
#include <termios.h>
#include <unistd.h>

/* A page of the terminal as it is put together, and the lines that are left for it. */
typedef struct {
    char text[8192];
    size_t at;
    int left, columns;
} page;

static bool on; /* standard output is a terminal */
static const char *address = "";

static volatile pid_t child;

static void pass_on(int signal)
{
    kill(child, signal);
}

static void write_all(const char *text)
{
    size_t left = strlen(text);

    while (left > 0) {
        ssize_t n = write(STDOUT_FILENO, text, left);
        if (n < 0 && errno != EINTR)
            return;
        if (n > 0) {
            text += n;
            left -= (size_t)n;
        }
    }
}

void panel_guard(void)
{
    struct termios was;
    int status = 0;
    pid_t parent = getpid();

    if (!isatty(STDIN_FILENO) || tcgetattr(STDIN_FILENO, &was) != 0)
        return;
    child = fork();
    if (child < 0) {
        perror("show: fork");
        exit(1);
    }
    if (child == 0) {
        struct termios raw = was;

        prctl(PR_SET_PDEATHSIG, SIGTERM);
        if (getppid() != parent)
            exit(1);
        /* each byte at once, not shown by the terminal; Return is CR; Ctrl-C still ends the show */
        raw.c_lflag &= ~(tcflag_t)(ICANON | ECHO | IEXTEN);
        raw.c_iflag &= ~(tcflag_t)(ICRNL | INLCR | IGNCR | IXON);
        raw.c_cc[VMIN] = 1;
        raw.c_cc[VTIME] = 0;
        raw.c_cc[VSUSP] = _POSIX_VDISABLE;
        tcsetattr(STDIN_FILENO, TCSANOW, &raw);
        return;
    }
    signal(SIGINT, SIG_IGN);
    signal(SIGQUIT, SIG_IGN);
    signal(SIGTTOU, SIG_IGN);
    signal(SIGTERM, pass_on);
    signal(SIGHUP, pass_on);
    while (waitpid(child, &status, 0) < 0 && errno == EINTR)
        ;
    tcsetattr(STDIN_FILENO, TCSANOW, &was);
    if (isatty(STDOUT_FILENO))
        write_all("\033[?7h\033[?25h\033[0m\n");
    if (WIFSIGNALED(status))
        fprintf(stderr, "show: ended by signal %d\n", WTERMSIG(status));
    exit(WIFEXITED(status) ? WEXITSTATUS(status) : 1);
}

void panel_start(const char *where)
{
    address = where;
    on = isatty(STDOUT_FILENO);
    if (on)
        write_all("\033[2J\033[?7l\033[?25l"); /* what is too long for a line is cut, and moves nothing */
}

__attribute__((format(printf, 2, 3))) static void put(page *p, const char *format, ...)
{
    size_t room = sizeof p->text - p->at;
    va_list rest;
    int n;

    va_start(rest, format);
    n = vsnprintf(p->text + p->at, room, format, rest);
    va_end(rest);
    if (n > 0)
        p->at += (size_t)n < room ? (size_t)n : room - 1;
}

static void end_line(page *p)
{
    put(p, "\033[K%s", --p->left > 0 ? "\n" : "");
}

static const char *shade(bool lit)
{
    return lit ? "\033[1;7m" : "\033[2m";
}

static void put_keys(page *p, const show_face *face, int row)
{
    int column;

    for (column = 0; column < 4; column++)
        put(p, "%s %c \033[0m", shade(face->sounding && face->key[0] == row && face->key[1] == column),
            show_keypad[row * 4 + column]);
}

/* As many icons beside one another as there is room for, and the keypad beside them, where there is room for it too. */
static void put_icons(page *p, const show_face *face)
{
    enum { ICON = 16, KEYS = 12 };
    int across = p->columns >= 4 * ICON ? 4 : p->columns >= 2 * ICON ? 2 : 1;
    bool keys = across == 4 && p->columns >= 4 * ICON + KEYS;
    int i, rows = keys ? 4 : (11 + across - 1) / across;

    for (i = 0; i < rows * across; i++) {
        int icon = i + 1;

        if (icon <= 11)
            put(p, "%s %2d %-10s\033[0m  ", shade(face->sounding && (icon == 11 ? face->carrier : icon == face->icon)),
                icon, show_names[icon]);
        else
            put(p, "%*s", ICON, "");
        if ((i + 1) % across == 0) {
            if (keys)
                put_keys(p, face, i / across);
            end_line(p);
        }
    }
}

static void put_figures(page *p, const show_face *face)
{
    uint32_t m = face->total && face->m > face->total ? face->total : face->m;

    put(p, "%u Hz, buffers of %u, sample %u", face->rate, face->buffer, m);
    if (face->total)
        put(p, " of %u (%u %%)", face->total, (unsigned)((uint64_t)m * 100 / face->total));
    put(p, ", late %u", face->late);
    end_line(p);
}

static void put_replies(page *p, const show_face *face)
{
    int i, shown = p->left - 1 < SHOW_REPLIES ? p->left - 1 : SHOW_REPLIES;

    for (i = SHOW_REPLIES - shown; i < SHOW_REPLIES; i++) {
        const show_reply *reply = &face->reply[i];

        if (reply->line[0])
            put(p, "%s  \033[2m->\033[0m  ", reply->line);
        put(p, "%s", reply->text);
        end_line(p);
    }
}

/* The icons come first and the line that is typed last; what a small terminal has no room for is left out between them.
 */
void panel_draw(const show_face *face)
{
    page p = {.left = 24, .columns = 80};
    struct winsize size;
    int icons;

    if (!on)
        return;
    if (ioctl(STDOUT_FILENO, TIOCGWINSZ, &size) == 0 && size.ws_row > 0 && size.ws_col > 0) {
        p.left = size.ws_row;
        p.columns = size.ws_col;
    }
    icons = p.columns >= 64 ? 4 : p.columns >= 32 ? 6 : 11;
    put(&p, "\033[H");
    if (p.left > icons + 2) {
        put(&p, "\033[1mGibbonplate\033[0m   Tab: carrier   Ctrl-X: hang up   Ctrl-C: end   %s", address);
        end_line(&p);
    }
    if (p.left > icons + 5)
        end_line(&p);
    put_icons(&p, face);
    if (p.left > 1 && (face->notice[0] || !face->sounding)) {
        put(&p, "\033[1;7m%s\033[0m", face->notice[0] ? face->notice : "no sound: the server asks for none");
        end_line(&p);
    } else if (p.left > 3)
        end_line(&p);
    if (p.left > 1)
        put_figures(&p, face);
    if (p.left > 3)
        end_line(&p);
    put_replies(&p, face);
    if (p.left > 0)
        put(&p, "%s %s\033[7m \033[0m\033[K\033[J", face->mode == 'D' ? "sent:" : "command:", face->typed);
    write_all(p.text);
}
