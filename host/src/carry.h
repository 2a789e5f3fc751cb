/* Carrying: what comes is told to the machine, and its acts are done, in order. */
#ifndef GLASS_CARRY_H
#define GLASS_CARRY_H

#include "session.h"

/* Whether the machine waits, and there is room for what it may write: so it can be told something. */
bool can_tell(struct session *session);

/* The machine goes on until it waits or too much waits for the viewer. */
void go_on(struct session *session);

/* Each only if the machine can be told something. */
void tell_look(struct session *session, unsigned columns, unsigned rows);
void tell_key(struct session *session, uint8_t key);
void tell_bytes(struct session *session, uint64_t pane, const uint8_t *bytes, size_t count);
void tell_end(struct session *session, uint64_t pane);

/* If nobody looks any more and the machine does not know it yet. */
void tell_left(struct session *session);

/* The session ends with a status and a text for whoever looks. */
__attribute__((format(printf, 3, 4))) void end_session(struct session *session, int status, const char *format, ...);

#endif
