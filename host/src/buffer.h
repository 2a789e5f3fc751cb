/* Bytes that wait, in order, never more than the buffer was made for. */
#ifndef GLASS_BUFFER_H
#define GLASS_BUFFER_H

#include <stdbool.h>
#include <stddef.h>
#include <stdint.h>

struct buffer {
    uint8_t *bytes;
    size_t start;    /* where the first that waits is */
    size_t length;   /* how many wait */
    size_t capacity; /* start + length is never above it */
};

/* What came of reading or writing once without blocking. */
enum flow {
    FLOW_SOME,  /* some bytes went */
    FLOW_LATER, /* none now */
    FLOW_END,   /* the other side has closed */
    FLOW_BROKEN /* an error; errno tells which */
};

bool buffer_make(struct buffer *buffer, size_t capacity);
void buffer_free(struct buffer *buffer);
void buffer_clear(struct buffer *buffer);

/* The first byte that waits. */
uint8_t *buffer_first(const struct buffer *buffer);
size_t buffer_room(const struct buffer *buffer);

/* Adds all of the bytes, or none and answers false if there is no room. */
bool buffer_add(struct buffer *buffer, const void *bytes, size_t count);
void buffer_take(struct buffer *buffer, size_t count);

/* At most so many bytes from the file, as far as there is room. */
enum flow buffer_read(struct buffer *buffer, int file, size_t most);
/* As many bytes as the file takes. */
enum flow buffer_write(struct buffer *buffer, int file);

#endif
