/* Messages between a viewer and a server: one byte for the kind, four for the length, then the payload. */
#ifndef GLASS_MESSAGE_H
#define GLASS_MESSAGE_H

#include "buffer.h"

enum message_kind {
    /* from the viewer */
    MESSAGE_LOOK = 'L', /* columns and rows, two bytes each: begin to look, or another size */
    MESSAGE_KEYS = 'K', /* bytes that were typed, at most MESSAGE_KEYS_MOST */
    MESSAGE_ASK = 'Q',  /* how is the session? */
    /* from the server */
    MESSAGE_FRESH = 'F', /* make the real screen fresh */
    MESSAGE_WRITE = 'W', /* bytes for the screen, at most MESSAGE_WRITE_MOST */
    MESSAGE_BYE = 'B',   /* one byte, the viewer's status, and a text: no more comes */
    MESSAGE_STATE = 'I'  /* a text that says how the session is */
};

enum { MESSAGE_HEAD = 5, MESSAGE_KEYS_MOST = 1024, MESSAGE_WRITE_MOST = 65536, MESSAGE_TEXT_MOST = 512 };

struct message {
    enum message_kind kind;
    const uint8_t *payload; /* within the buffer, until that is changed */
    size_t length;
};

enum message_found { MESSAGE_NONE, MESSAGE_WHOLE, MESSAGE_BAD };

/* Adds a message, or nothing and answers false if there is no room. */
bool message_add(struct buffer *buffer, enum message_kind kind, const void *payload, size_t length);
bool message_add_look(struct buffer *buffer, unsigned columns, unsigned rows);
bool message_add_bye(struct buffer *buffer, int status, const char *text);

/* The first message of the buffer, if all of it is there. Bad: a length that the buffer could never hold. */
enum message_found message_first(const struct buffer *buffer, struct message *message);
void message_take(struct buffer *buffer, const struct message *message);

/* The size in a look; false if the message has another length. */
bool message_look(const struct message *message, unsigned *columns, unsigned *rows);

#endif
