/* Bytes that wait: a row of fixed size; what waits is moved to its start when there is no room behind it. */
#include "buffer.h"

#include <errno.h>
#include <stdlib.h>
#include <string.h>
#include <unistd.h>

bool buffer_make(struct buffer *buffer, size_t capacity)
{
    *buffer = (struct buffer){.bytes = malloc(capacity), .capacity = capacity};
    return buffer->bytes != NULL;
}

void buffer_free(struct buffer *buffer)
{
    free(buffer->bytes);
    *buffer = (struct buffer){0};
}

void buffer_clear(struct buffer *buffer)
{
    buffer->start = 0;
    buffer->length = 0;
}

uint8_t *buffer_first(const struct buffer *buffer)
{
    return buffer->bytes + buffer->start;
}

size_t buffer_room(const struct buffer *buffer)
{
    return buffer->capacity - buffer->length;
}

/* Moves what waits so that there are so many free bytes behind it. There must be room for them. */
static void make_space(struct buffer *buffer, size_t count)
{
    if (buffer->capacity - buffer->start - buffer->length >= count)
        return;
    memmove(buffer->bytes, buffer_first(buffer), buffer->length);
    buffer->start = 0;
}

bool buffer_add(struct buffer *buffer, const void *bytes, size_t count)
{
    if (count > buffer_room(buffer))
        return false;
    if (count == 0)
        return true;
    make_space(buffer, count);
    memcpy(buffer_first(buffer) + buffer->length, bytes, count);
    buffer->length += count;
    return true;
}

void buffer_take(struct buffer *buffer, size_t count)
{
    buffer->start += count;
    buffer->length -= count;
    if (buffer->length == 0)
        buffer->start = 0;
}

static enum flow failed(void)
{
    return errno == EAGAIN || errno == EWOULDBLOCK || errno == EINTR ? FLOW_LATER : FLOW_BROKEN;
}

enum flow buffer_read(struct buffer *buffer, int file, size_t most)
{
    size_t count = buffer_room(buffer) < most ? buffer_room(buffer) : most;
    ssize_t got;

    if (count == 0)
        return FLOW_LATER;
    make_space(buffer, count);
    got = read(file, buffer_first(buffer) + buffer->length, count);
    if (got < 0)
        return failed();
    buffer->length += (size_t)got;
    return got == 0 ? FLOW_END : FLOW_SOME;
}

enum flow buffer_write(struct buffer *buffer, int file)
{
    ssize_t gone;

    if (buffer->length == 0)
        return FLOW_LATER;
    gone = write(file, buffer_first(buffer), buffer->length);
    if (gone < 0)
        return failed();
    buffer_take(buffer, (size_t)gone);
    return gone == 0 ? FLOW_LATER : FLOW_SOME;
}
