/* The viewer. Keys go to the session as they come; what the session writes is shown. Neither waits for the other, and
   little is read ahead, so that over a slow line the screen is not far behind. */
#include "viewer.h"

#include "message.h"
#include "report.h"
#include "screen.h"

#include <errno.h>
#include <poll.h>
#include <signal.h>
#include <stdio.h>
#include <string.h>
#include <sys/signalfd.h>
#include <unistd.h>

enum { AHEAD = 4096, IN = MESSAGE_HEAD + MESSAGE_WRITE_MOST, OUT = 8 * (MESSAGE_HEAD + MESSAGE_KEYS_MOST) };
enum { POLL_SIGNALS, POLL_LINE, POLL_KEYS, POLL_SCREEN, POLLS };

struct viewer {
    int line;
    int signals;
    struct screen screen;
    struct buffer in;  /* messages from the session */
    struct buffer out; /* messages to the session */
    bool asked;        /* said to look, and the fresh screen for it has not come */
    bool resized;      /* since then the terminal has got another size */
    bool done;
    int status;
    char text[MESSAGE_TEXT_MOST + 1]; /* what to say at the end */
};

static void finish(struct viewer *viewer, int status, const char *text)
{
    if (viewer->done)
        return;
    viewer->done = true;
    viewer->status = status;
    (void)snprintf(viewer->text, sizeof viewer->text, "%s", text);
}

static int open_signals(void)
{
    static const int numbers[] = {SIGWINCH, SIGCONT, SIGHUP, SIGTERM, SIGINT, SIGQUIT};
    sigset_t set;

    sigemptyset(&set);
    for (size_t i = 0; i < sizeof numbers / sizeof numbers[0]; i++)
        sigaddset(&set, numbers[i]);
    if (sigprocmask(SIG_BLOCK, &set, NULL) != 0)
        return -1;
    return signalfd(-1, &set, SFD_CLOEXEC | SFD_NONBLOCK);
}

/* Says how large the terminal is; again only when the fresh screen for the size before has come. */
static void look(struct viewer *viewer)
{
    unsigned columns, rows;

    viewer->resized = viewer->asked;
    if (viewer->asked)
        return;
    screen_size(&columns, &rows);
    viewer->asked = message_add_look(&viewer->out, columns, rows);
    viewer->resized = !viewer->asked;
}

static void take_signals(struct viewer *viewer)
{
    struct signalfd_siginfo signal;

    while (read(viewer->signals, &signal, sizeof signal) == (ssize_t)sizeof signal) {
        if (signal.ssi_signo == SIGCONT && viewer->screen.raw)
            (void)screen_raw(&viewer->screen);
        if (signal.ssi_signo == SIGCONT || signal.ssi_signo == SIGWINCH)
            look(viewer);
        else
            finish(viewer, STATUS_FAILED, "the viewer was ended by a signal; the session lives on");
    }
}

static bool take_fresh(struct viewer *viewer)
{
    if (!screen_fresh(&viewer->screen))
        return false;
    if (!viewer->screen.raw && !screen_raw(&viewer->screen))
        finish(viewer, STATUS_FAILED, "cannot set the terminal");
    viewer->asked = false;
    return true;
}

static void take_bye(struct viewer *viewer, const struct message *message)
{
    char text[MESSAGE_TEXT_MOST + 1] = "";
    size_t length = message->length > 0 ? message->length - 1 : 0;

    if (length > MESSAGE_TEXT_MOST)
        length = MESSAGE_TEXT_MOST;
    if (length > 0)
        memcpy(text, message->payload + 1, length);
    text[length] = '\0';
    finish(viewer, message->length > 0 ? message->payload[0] : STATUS_FAILED, text);
}

/* False: there is no room for it yet. */
static bool take_message(struct viewer *viewer, const struct message *message)
{
    if (message->kind == MESSAGE_FRESH)
        return take_fresh(viewer);
    if (message->kind == MESSAGE_WRITE)
        return buffer_add(&viewer->screen.bytes, message->payload, message->length);
    if (message->kind == MESSAGE_BYE)
        take_bye(viewer, message);
    return true;
}

static void take_messages(struct viewer *viewer)
{
    struct message message;
    enum message_found found;

    while ((found = message_first(&viewer->in, &message)) == MESSAGE_WHOLE && !viewer->done) {
        if (!take_message(viewer, &message))
            return;
        message_take(&viewer->in, &message);
    }
    if (found == MESSAGE_BAD)
        finish(viewer, STATUS_FAILED, "the session says what this viewer does not understand");
}

static void read_line(struct viewer *viewer)
{
    enum flow flow = buffer_read(&viewer->in, viewer->line, AHEAD);

    take_messages(viewer);
    if (flow == FLOW_END || flow == FLOW_BROKEN)
        finish(viewer, STATUS_FAILED, "the line to the session broke");
}

static void read_keys(struct viewer *viewer)
{
    uint8_t keys[MESSAGE_KEYS_MOST];
    ssize_t count = read(viewer->screen.keys, keys, sizeof keys);

    if (count > 0)
        (void)message_add(&viewer->out, MESSAGE_KEYS, keys, (size_t)count);
    else if (count == 0 || (errno != EINTR && errno != EAGAIN))
        finish(viewer, STATUS_FAILED, "the terminal has gone; the session lives on");
}

/* Keys are read only once the terminal is raw, and nothing for which there is no room. */
static void wait_for_something(struct viewer *viewer, struct pollfd *polls)
{
    bool keys = viewer->screen.raw && buffer_room(&viewer->out) >= MESSAGE_HEAD + MESSAGE_KEYS_MOST;
    bool more = viewer->screen.bytes.length < AHEAD;

    polls[POLL_SIGNALS] = (struct pollfd){.fd = viewer->signals, .events = POLLIN};
    polls[POLL_LINE].fd = viewer->line;
    polls[POLL_LINE].events = (short)((more ? POLLIN : 0) | (viewer->out.length > 0 ? POLLOUT : 0));
    polls[POLL_KEYS] = (struct pollfd){.fd = keys ? viewer->screen.keys : -1, .events = POLLIN};
    polls[POLL_SCREEN] = (struct pollfd){.fd = viewer->screen.bytes.length > 0 ? viewer->screen.file : -1,
                                         .events = POLLOUT};
    if (polls[POLL_LINE].events == 0)
        polls[POLL_LINE].fd = -1;
    if (poll(polls, POLLS, -1) < 0)
        for (size_t i = 0; i < POLLS; i++)
            polls[i].revents = 0;
}

static void view_once(struct viewer *viewer)
{
    struct pollfd polls[POLLS];

    wait_for_something(viewer, polls);
    if (polls[POLL_SIGNALS].revents != 0)
        take_signals(viewer);
    if (polls[POLL_KEYS].revents != 0)
        read_keys(viewer);
    if (polls[POLL_LINE].revents != 0 && viewer->screen.bytes.length < AHEAD)
        read_line(viewer);
    if (viewer->resized)
        look(viewer);
    if (buffer_write(&viewer->screen.bytes, viewer->screen.file) == FLOW_BROKEN)
        finish(viewer, STATUS_FAILED, "the terminal has gone; the session lives on");
    if (buffer_write(&viewer->out, viewer->line) == FLOW_BROKEN)
        buffer_clear(&viewer->out); /* what the session said at last is still read */
}

static bool open_viewer(struct viewer *viewer)
{
    viewer->signals = open_signals();
    if (viewer->signals >= 0 && buffer_make(&viewer->in, IN) && buffer_make(&viewer->out, OUT))
        return screen_open(&viewer->screen);
    complain("cannot look: %s", strerror(errno));
    return false;
}

static void close_viewer(struct viewer *viewer)
{
    buffer_free(&viewer->in);
    buffer_free(&viewer->out);
    screen_close(&viewer->screen);
    close(viewer->line);
}

static void say_why(const struct viewer *viewer, bool was_shown)
{
    if (!was_shown)
        complain("%s", viewer->text);
    else
        fprintf(viewer->status == STATUS_GOOD ? stdout : stderr, "[glass: %s]\n", viewer->text);
}

int view(int line)
{
    struct viewer viewer = {.line = line, .status = STATUS_FAILED};
    bool was_shown;

    if (open_viewer(&viewer)) {
        look(&viewer);
        while (!viewer.done)
            view_once(&viewer);
        was_shown = viewer.screen.raw;
        screen_restore(&viewer.screen);
        say_why(&viewer, was_shown);
    }
    close_viewer(&viewer);
    return viewer.status;
}
