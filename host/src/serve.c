/* The server's loop: waits until something comes, from programs, viewers or as a signal, and has it carried. */
#include "carry.h"
#include "lines.h"
#include "report.h"
#include "serve.h"

#include <errno.h>
#include <poll.h>
#include <signal.h>
#include <sys/signalfd.h>
#include <sys/socket.h>
#include <unistd.h>

enum { POLL_SIGNALS, POLL_LISTENER, POLL_LINES, POLL_PANES = POLL_LINES + LINES_MOST, POLLS = POLL_PANES + MACHINE_PANES_MOST };
enum { SOON = 100, GRACE = 30000 };

static struct pollfd for_line(const struct line *line)
{
    short events = 0;

    if (line->socket < 0 || line->hung)
        return (struct pollfd){.fd = -1};
    if (buffer_room(&line->in) > 0 && !line->leaving)
        events |= POLLIN;
    if (line->out.length > 0)
        events |= POLLOUT;
    return (struct pollfd){.fd = line->socket, .events = events};
}

static bool pane_can_be_read(struct session *session, const struct pane *pane)
{
    return pane->used && !pane->drained && pane->quiet <= now() && pane->input.length <= PANE_INPUT_LIMIT
        && can_tell(session);
}

static struct pollfd for_pane(struct session *session, const struct pane *pane)
{
    short events = 0;

    if (pane_can_be_read(session, pane))
        events |= POLLIN;
    if (pane->used && pane->input.length > 0 && pane->quiet <= now())
        events |= POLLOUT;
    return (struct pollfd){.fd = events == 0 ? -1 : pane->terminal, .events = events};
}

static bool pane_wants_turn(struct session *session, const struct pane *pane)
{
    return pane->used && pane->process == 0 && can_tell(session);
}

/* How long to wait: not at all if there is something to do already, and not for long if something has to be tried again. */
static int wait_time(struct session *session)
{
    int time = session->accept_after > now() ? SOON : -1;

    for (size_t i = 0; i < LINES_MOST; i++) {
        if (line_wants_turn(session, &session->lines[i]))
            return 0;
        if (session->lines[i].socket >= 0 && session->lines[i].leaving)
            time = SOON;
    }
    for (size_t i = 0; i < MACHINE_PANES_MOST; i++) {
        if (pane_wants_turn(session, &session->panes.all[i]))
            return 0;
        if (session->panes.all[i].used && session->panes.all[i].quiet > now())
            time = SOON;
    }
    return time;
}

static void wait_for_something(struct session *session, struct pollfd *polls)
{
    polls[POLL_SIGNALS] = (struct pollfd){.fd = session->signals, .events = POLLIN};
    polls[POLL_LISTENER] = (struct pollfd){.fd = session->accept_after <= now() ? session->listener : -1, .events = POLLIN};
    for (size_t i = 0; i < LINES_MOST; i++)
        polls[POLL_LINES + i] = for_line(&session->lines[i]);
    for (size_t i = 0; i < MACHINE_PANES_MOST; i++)
        polls[POLL_PANES + i] = for_pane(session, &session->panes.all[i]);
    if (poll(polls, POLLS, wait_time(session)) < 0)
        for (size_t i = 0; i < POLLS; i++)
            polls[i].revents = 0;
}

static void take_signals(struct session *session)
{
    struct signalfd_siginfo signal;

    while (read(session->signals, &signal, sizeof signal) == (ssize_t)sizeof signal)
        if (signal.ssi_signo == SIGTERM || signal.ssi_signo == SIGINT)
            end_session(session, STATUS_FAILED, "session %s was ended by a signal", session->name);
    panes_reap(&session->panes);
}

static void take_connection(struct session *session)
{
    int socket = accept4(session->listener, NULL, NULL, SOCK_CLOEXEC | SOCK_NONBLOCK);

    if (socket >= 0)
        line_add(session, socket);
    else
        session->accept_after = now() + SOON;
}

static void serve_line(struct session *session, struct line *line, short events)
{
    if (line->socket < 0)
        return;
    if ((events & (POLLHUP | POLLERR)) != 0)
        line->hung = true;
    if (line->hung || (events & POLLIN) != 0)
        line_read(line);
    if (line->out.length > 0)
        line_send(line);
    go_on(session);
    line_take(session, line);
    if (line_is_done(line))
        line_drop(session, line);
}

/* One piece of what a program wrote; when all of a program that has ended has come, its end. */
static void read_pane(struct session *session, struct pane *pane)
{
    uint8_t bytes[MACHINE_BYTES_MOST];
    uint64_t number = pane->number;
    size_t count;

    if (pane_can_be_read(session, pane)) {
        count = pane_read(pane, bytes);
        session->turn = (size_t)(pane - session->panes.all) + 1;
        if (count > 0)
            tell_bytes(session, number, bytes, count);
    }
    if (pane->drained && can_tell(session)) {
        pane_forget(pane);
        tell_end(session, number);
    }
}

static void serve_pane(struct session *session, struct pane *pane, short events)
{
    if (pane->used && pane->input.length > 0)
        pane_write(pane);
    if (pane->used && (events != 0 || pane->process == 0))
        read_pane(session, pane);
}

/* Each in turn, so that with little room for the viewer none is always the last. */
static void serve_panes(struct session *session, const struct pollfd *polls)
{
    size_t first = session->turn;

    for (size_t i = 0; i < MACHINE_PANES_MOST; i++) {
        size_t pane = (first + i) % MACHINE_PANES_MOST;

        serve_pane(session, &session->panes.all[pane], polls[pane].revents);
    }
}

static void serve_once(struct session *session)
{
    struct pollfd polls[POLLS];

    go_on(session);
    tell_left(session);
    if (session->over)
        return;
    wait_for_something(session, polls);
    if (polls[POLL_SIGNALS].revents != 0)
        take_signals(session);
    if (polls[POLL_LISTENER].revents != 0)
        take_connection(session);
    for (size_t i = 0; i < LINES_MOST; i++)
        serve_line(session, &session->lines[i], polls[POLL_LINES + i].revents);
    serve_panes(session, polls + POLL_PANES);
}

/* Sends what waits. Whether some of it waits still. */
static bool send_left(struct session *session)
{
    struct pollfd polls[LINES_MOST];
    bool left = false;

    for (size_t i = 0; i < LINES_MOST; i++) {
        struct line *line = &session->lines[i];

        if (line->socket >= 0)
            line_send(line);
        polls[i] = for_line(line);
        left = left || (line->socket >= 0 && line->out.length > 0);
    }
    if (left)
        (void)poll(polls, LINES_MOST, SOON);
    return left;
}

/* All lines are told, for as long as it takes but not for ever. */
static void say_bye(struct session *session)
{
    long long end = now() + GRACE;

    for (size_t i = 0; i < LINES_MOST; i++)
        if (session->lines[i].socket >= 0)
            line_bye(session, &session->lines[i], session->status, session->text);
    while (send_left(session) && now() < end)
        continue;
}

void serve(struct session *session)
{
    while (!session->over)
        serve_once(session);
    socket_remove(&session->folder, session->name);
    close(session->listener);
    panes_hang_up(&session->panes);
    say_bye(session);
}
