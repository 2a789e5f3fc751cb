/* The lines to viewers. One of them at most is looked from; whoever looks last takes over from the one before. */
#include "lines.h"

#include "carry.h"
#include "report.h"

#include <stdio.h>
#include <sys/socket.h>
#include <unistd.h>

enum {
    LINE_IN = 2 * (MESSAGE_HEAD + MESSAGE_KEYS_MOST),
    LINE_OUT = LINE_KEYS_LIMIT + MACHINE_OUT + MESSAGE_TEXT_MOST + 8 * MESSAGE_HEAD,
    SOCKET_ROOM = 4096, /* little, so that a slow viewer is not far behind */
    BYE_TIME = 30000
};

static bool line_make(struct line *line, int socket)
{
    *line = (struct line){.socket = socket, .since = now()};
    if (buffer_make(&line->in, LINE_IN) && buffer_make(&line->out, LINE_OUT))
        return true;
    buffer_free(&line->in);
    buffer_free(&line->out);
    line->socket = -1;
    return false;
}

/* A free place; if there is none, that of the line that came first and is not looked from. */
static struct line *place_for_line(struct session *session)
{
    struct line *oldest = NULL;

    for (size_t i = 0; i < LINES_MOST; i++) {
        struct line *line = &session->lines[i];

        if (line->socket < 0)
            return line;
        if (line != session->viewer && (oldest == NULL || line->since < oldest->since))
            oldest = line;
    }
    if (oldest != NULL)
        line_drop(session, oldest);
    return oldest;
}

void line_add(struct session *session, int socket)
{
    int room = SOCKET_ROOM;
    struct line *line = peer_is_own(socket) ? place_for_line(session) : NULL;

    (void)setsockopt(socket, SOL_SOCKET, SO_SNDBUF, &room, sizeof room);
    if (line == NULL || !line_make(line, socket))
        close(socket);
}

/* Nobody looks any more, for whatever reason. What the machine writes until it knows is thrown away: whoever looks next
   brings a size, and gets everything anew. */
static void viewer_gone(struct session *session)
{
    session->viewer = NULL;
    session->left = true;
}

void line_drop(struct session *session, struct line *line)
{
    if (line == session->viewer)
        viewer_gone(session);
    close(line->socket);
    buffer_free(&line->in);
    buffer_free(&line->out);
    line->socket = -1;
}

void line_bye(struct session *session, struct line *line, int status, const char *text)
{
    if (line == session->viewer)
        viewer_gone(session);
    if (!line->leaving)
        (void)message_add_bye(&line->out, status, text);
    line->leaving = true;
    line->since = now();
    line_send(line);
}

void let_viewer_go(struct session *session, int status, const char *text)
{
    if (session->viewer != NULL)
        line_bye(session, session->viewer, status, text);
}

void line_read(struct line *line)
{
    enum flow flow;

    if (line->closed || line->leaving || buffer_room(&line->in) == 0)
        return;
    flow = buffer_read(&line->in, line->socket, LINE_IN);
    line->closed = flow == FLOW_END || flow == FLOW_BROKEN;
    line->deaf = line->deaf || line->closed;
}

void line_send(struct line *line)
{
    if (!line->deaf && buffer_write(&line->out, line->socket) == FLOW_BROKEN)
        line->deaf = true;
    if (line->deaf)
        buffer_clear(&line->out);
}

void write_to_viewer(struct session *session, const uint8_t *bytes, size_t count)
{
    struct line *line = session->viewer;

    if (line == NULL || line->deaf)
        return;
    (void)message_add(&line->out, MESSAGE_WRITE, bytes, count);
    line_send(line);
}

/* Keys have more room than programs, so that a program that writes much can be interrupted over a slow line. */
static size_t line_limit(const struct line *line)
{
    struct message message;

    return message_first(&line->in, &message) == MESSAGE_NONE ? LINE_LIMIT : LINE_KEYS_LIMIT;
}

bool viewer_has_room(struct session *session)
{
    struct line *line = session->viewer;

    if (line == NULL || line->deaf || line->out.length <= line_limit(line))
        return true;
    line_send(line);
    return line->out.length <= line_limit(line);
}

bool line_can_take(struct session *session, const struct line *line)
{
    struct message message;
    enum message_found found = message_first(&line->in, &message);

    if (line->leaving || session->over || found == MESSAGE_NONE)
        return false;
    if (found == MESSAGE_BAD)
        return true;
    if (message.kind == MESSAGE_KEYS && line == session->viewer)
        return can_tell(session) && panes_take_keys(&session->panes);
    if (message.kind == MESSAGE_LOOK && line == session->viewer)
        return can_tell(session);
    return true;
}

static unsigned within(unsigned least, unsigned most, unsigned number)
{
    return number < least ? least : number > most ? most : number;
}

/* Somebody begins to look, or has another size: the real screen is made fresh before anything else is sent. */
static bool take_look(struct session *session, struct line *line, const struct message *message)
{
    unsigned columns, rows;

    if (!message_look(message, &columns, &rows))
        return false;
    if (session->viewer != line) {
        let_viewer_go(session, STATUS_GOOD, "somebody else looks at the session now");
        go_on(session);
        session->viewer = line;
    }
    if (!can_tell(session))
        return true;
    session->left = false;
    (void)message_add(&line->out, MESSAGE_FRESH, NULL, 0);
    message_take(&line->in, message);
    tell_look(session, within(1, MACHINE_COLUMNS_MOST, columns), within(MACHINE_ROWS_LEAST, MACHINE_ROWS_MOST, rows));
    return true;
}

static bool take_keys(struct session *session, struct line *line, const struct message *message)
{
    if (session->viewer != line || message->length > MESSAGE_KEYS_MOST)
        return false;
    if (line->keys_done < message->length)
        tell_key(session, message->payload[line->keys_done++]);
    if (line->keys_done < message->length)
        return true;
    line->keys_done = 0;
    message_take(&line->in, message);
    return true;
}

static bool take_question(struct session *session, struct line *line)
{
    char text[MESSAGE_TEXT_MOST];
    int length = snprintf(text, sizeof text, "%ux%u, %s, process %ld", session->columns, session->rows,
                          session->viewer != NULL ? "looked at" : "nobody looks", (long)getpid());

    if (line == session->viewer)
        return false;
    (void)message_add(&line->out, MESSAGE_STATE, text, (size_t)length);
    line_send(line);
    line->leaving = true;
    return true;
}

/* One message, or one key of it. False: it is none that a viewer sends. */
static bool take_one(struct session *session, struct line *line)
{
    struct message message;

    if (message_first(&line->in, &message) != MESSAGE_WHOLE)
        return false;
    if (message.kind == MESSAGE_LOOK)
        return take_look(session, line, &message);
    if (message.kind == MESSAGE_KEYS)
        return take_keys(session, line, &message);
    return message.kind == MESSAGE_ASK && take_question(session, line);
}

void line_take(struct session *session, struct line *line)
{
    while (line_can_take(session, line))
        if (!take_one(session, line))
            line_bye(session, line, STATUS_FAILED, "the session does not understand this viewer");
}

bool line_wants_turn(struct session *session, const struct line *line)
{
    bool unread = line->hung && !line->closed && !line->leaving && buffer_room(&line->in) > 0;

    return line->socket >= 0 && (unread || line_is_done(line) || line_can_take(session, line));
}

bool line_is_done(const struct line *line)
{
    struct message message;

    if (line->leaving)
        return line->out.length == 0 || line->deaf || now() - line->since > BYE_TIME;
    return line->closed && message_first(&line->in, &message) == MESSAGE_NONE;
}
