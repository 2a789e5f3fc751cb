/* Putting messages into a buffer and finding them there again. Numbers have their high byte first. */
#include "message.h"

#include <string.h>

bool message_add(struct buffer *buffer, enum message_kind kind, const void *payload, size_t length)
{
    uint8_t head[MESSAGE_HEAD] = {
        (uint8_t)kind, (uint8_t)(length >> 24), (uint8_t)(length >> 16), (uint8_t)(length >> 8), (uint8_t)length,
    };

    if (buffer_room(buffer) < MESSAGE_HEAD + length)
        return false;
    return buffer_add(buffer, head, sizeof head) && buffer_add(buffer, payload, length);
}

bool message_add_look(struct buffer *buffer, unsigned columns, unsigned rows)
{
    uint8_t size[4] = {(uint8_t)(columns >> 8), (uint8_t)columns, (uint8_t)(rows >> 8), (uint8_t)rows};

    return message_add(buffer, MESSAGE_LOOK, size, sizeof size);
}

bool message_add_bye(struct buffer *buffer, int status, const char *text)
{
    uint8_t payload[1 + MESSAGE_TEXT_MOST];
    size_t length = strnlen(text, MESSAGE_TEXT_MOST);

    payload[0] = (uint8_t)status;
    memcpy(payload + 1, text, length);
    return message_add(buffer, MESSAGE_BYE, payload, 1 + length);
}

enum message_found message_first(const struct buffer *buffer, struct message *message)
{
    const uint8_t *head = buffer_first(buffer);
    size_t length;

    if (buffer->length < MESSAGE_HEAD)
        return MESSAGE_NONE;
    length = (size_t)head[1] << 24 | (size_t)head[2] << 16 | (size_t)head[3] << 8 | head[4];
    if (length > buffer->capacity - MESSAGE_HEAD)
        return MESSAGE_BAD;
    if (buffer->length - MESSAGE_HEAD < length)
        return MESSAGE_NONE;
    *message = (struct message){(enum message_kind)head[0], head + MESSAGE_HEAD, length};
    return MESSAGE_WHOLE;
}

void message_take(struct buffer *buffer, const struct message *message)
{
    buffer_take(buffer, MESSAGE_HEAD + message->length);
}

bool message_look(const struct message *message, unsigned *columns, unsigned *rows)
{
    const uint8_t *size = message->payload;

    if (message->length != 4)
        return false;
    *columns = (unsigned)size[0] << 8 | size[1];
    *rows = (unsigned)size[2] << 8 | size[3];
    return true;
}
