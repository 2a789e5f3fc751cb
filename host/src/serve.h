/* The server's loop. */
#ifndef GLASS_SERVE_H
#define GLASS_SERVE_H

#include "session.h"

/* Serves until the session is over, removes its socket and tells all viewers. */
void serve(struct session *session);

#endif
