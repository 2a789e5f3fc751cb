/* The lines to viewers: who looks, what is sent to them, and what they send. */
#ifndef GLASS_LINES_H
#define GLASS_LINES_H

#include "session.h"

/* A connected socket becomes a line, if its other side is of the same user; it is closed otherwise. */
void line_add(struct session *session, int socket);
void line_drop(struct session *session, struct line *line);
/* Says bye, and nothing of the line is read any more. */
void line_bye(struct session *session, struct line *line, int status, const char *text);

/* Once without blocking. */
void line_read(struct line *line);
void line_send(struct line *line);

/* Whether the first message of the line can be done now. */
bool line_can_take(struct session *session, const struct line *line);
/* Does what the line asks, as far as that is possible now. */
void line_take(struct session *session, struct line *line);
/* Whether there is something to do for the line without anything new. */
bool line_wants_turn(struct session *session, const struct line *line);
/* Whether all is done, so that the line can be dropped. */
bool line_is_done(const struct line *line);

/* The bytes go to whoever looks, and nowhere while nobody does: the next to look gets a fresh screen. */
void write_to_viewer(struct session *session, const uint8_t *bytes, size_t count);
bool viewer_has_room(struct session *session);
void let_viewer_go(struct session *session, int status, const char *text);

#endif
