/* The real terminal: raw and back, its size, and a fresh screen. */
#include "screen.h"

#include "report.h"

#include <errno.h>
#include <fcntl.h>
#include <poll.h>
#include <stdio.h>
#include <string.h>
#include <sys/ioctl.h>
#include <unistd.h>

enum { ROOM = 1 << 17, LAST_TRIES = 10, LAST_WAIT = 100 };

/* Plain style and letters; no insert mode, no new-line mode, keys and video normal, no origin mode; autowrap, cursor
   visible; the whole screen as region; a tab stop every 8 columns; blank; the cursor at the first place, and saved there.
   What a terminal does not know of these it passes over; ours writes no tab. */
static const char fresh[] = "\033[m\017\033(B\033[4;20l\033[?1;5;6l\033>\033[?7;25h\033[r\033[?5W\033[H\033[2J\0337";

/* The same terminal by another file, so that not to block is set for nobody else. A terminal that belongs to another user
   cannot be opened again: then writing may block, but only this viewer. */
static int open_again(int file)
{
    char path[32];
    int again;

    (void)snprintf(path, sizeof path, "/proc/self/fd/%d", file);
    again = open(path, O_WRONLY | O_NONBLOCK | O_NOCTTY | O_CLOEXEC);
    return again >= 0 ? again : fcntl(file, F_DUPFD_CLOEXEC, STDERR_FILENO + 1);
}

bool screen_open(struct screen *screen)
{
    *screen = (struct screen){.keys = STDIN_FILENO, .file = -1};
    if (!isatty(STDIN_FILENO) || !isatty(STDOUT_FILENO)) {
        complain("standard input and output must be a terminal");
        return false;
    }
    screen->file = open_again(STDOUT_FILENO);
    if (screen->file < 0 || tcgetattr(screen->keys, &screen->before) != 0 || !buffer_make(&screen->bytes, ROOM)) {
        complain("cannot use the terminal: %s", strerror(errno));
        return false;
    }
    return true;
}

void screen_size(unsigned *columns, unsigned *rows)
{
    struct winsize size = {0};

    (void)ioctl(STDOUT_FILENO, TIOCGWINSZ, &size);
    *columns = size.ws_col != 0 ? size.ws_col : 80;
    *rows = size.ws_row != 0 ? size.ws_row : 24;
}

bool screen_raw(struct screen *screen)
{
    struct termios raw = screen->before;

    cfmakeraw(&raw);
    raw.c_cc[VMIN] = 1;
    raw.c_cc[VTIME] = 0;
    screen->raw = tcsetattr(screen->keys, TCSANOW, &raw) == 0;
    return screen->raw;
}

bool screen_fresh(struct screen *screen)
{
    return buffer_add(&screen->bytes, fresh, sizeof fresh - 1);
}

static void write_left(struct screen *screen)
{
    struct pollfd file = {.fd = screen->file, .events = POLLOUT};

    for (int tries = 0; tries < LAST_TRIES && screen->bytes.length > 0; tries++) {
        if (poll(&file, 1, LAST_WAIT) > 0 && buffer_write(&screen->bytes, screen->file) == FLOW_BROKEN)
            return;
    }
}

void screen_restore(struct screen *screen)
{
    char last[64];
    unsigned columns, rows;
    int length;

    if (!screen->raw)
        return;
    screen_size(&columns, &rows);
    length = snprintf(last, sizeof last, "\033[m\033[?25h\033[r\033[%u;1H\r\n", rows);
    (void)buffer_add(&screen->bytes, last, (size_t)length);
    write_left(screen);
    (void)tcsetattr(screen->keys, TCSANOW, &screen->before);
    screen->raw = false;
}

void screen_close(struct screen *screen)
{
    buffer_free(&screen->bytes);
    if (screen->file >= 0)
        close(screen->file);
}
