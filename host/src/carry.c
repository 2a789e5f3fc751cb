/* Carrying: one thing is told to the machine, its act done, and so forth until it waits. */
#include "carry.h"

#include "lines.h"
#include "report.h"

#include <stdarg.h>
#include <stdio.h>
#include <string.h>

bool can_tell(struct session *session)
{
    return !session->busy && !session->over && viewer_has_room(session);
}

void end_session(struct session *session, int status, const char *format, ...)
{
    va_list values;

    if (session->over)
        return;
    va_start(values, format);
    (void)vsnprintf(session->text, sizeof session->text, format, values);
    va_end(values);
    session->status = status;
    session->over = true;
}

/* A first program that cannot run ends the session; a later one is a pane that ends at once. */
static void start(struct session *session, const struct act *act)
{
    char *const *words = session->begun ? session->shell : session->command;
    int error = pane_start(&session->panes, act, words);

    if (error != 0 && !session->begun) {
        if (session->viewer != NULL)
            buffer_clear(&session->viewer->out);
        end_session(session, STATUS_FAILED, "cannot run %s: %s", words[0], strerror(error));
    }
    session->begun = true;
}

static void leave(struct session *session)
{
    char text[MESSAGE_TEXT_MOST];

    (void)snprintf(text, sizeof text, "left session %s", session->name);
    let_viewer_go(session, STATUS_GOOD, text);
    session->left = false;
}

static void do_act(struct session *session, struct act act)
{
    switch (act.kind) {
    case ACT_WRITE:
        write_to_viewer(session, act.bytes, act.count);
        break;
    case ACT_SEND:
        pane_send(&session->panes, &act);
        break;
    case ACT_START:
        start(session, &act);
        break;
    case ACT_SIZE:
        pane_size(&session->panes, &act);
        break;
    case ACT_STOP:
        pane_stop(&session->panes, act.pane);
        break;
    case ACT_LEAVE:
        leave(session);
        break;
    case ACT_OVER:
        end_session(session, STATUS_GOOD, "session %s is over", session->name);
        break;
    case ACT_WAIT:
        session->busy = false;
        break;
    case ACT_REFUSED:
        end_session(session, STATUS_FAILED, "session %s: the machine refused", session->name);
        break;
    }
}

void go_on(struct session *session)
{
    while (session->busy && !session->over && viewer_has_room(session))
        do_act(session, machine_go_on());
}

static void told(struct session *session, struct act act)
{
    session->busy = true;
    do_act(session, act);
    go_on(session);
}

void tell_look(struct session *session, unsigned columns, unsigned rows)
{
    session->columns = columns;
    session->rows = rows;
    told(session, machine_look(columns, rows));
}

void tell_key(struct session *session, uint8_t key)
{
    told(session, machine_key(key));
}

void tell_bytes(struct session *session, uint64_t pane, const uint8_t *bytes, size_t count)
{
    told(session, machine_bytes(pane, bytes, count));
}

void tell_end(struct session *session, uint64_t pane)
{
    told(session, machine_end(pane));
}

/* A line that breaks is told as the keys by which a person leaves. The look before them makes the machine forget a prefix
   that had come already, which would change what they mean. Nobody is there: so the machine comes to wait each time. */
void tell_left(struct session *session)
{
    if (!session->left || session->viewer != NULL || !can_tell(session))
        return;
    session->left = false;
    tell_look(session, session->columns, session->rows);
    tell_key(session, MACHINE_PREFIX);
    tell_key(session, MACHINE_LEAVE);
}
