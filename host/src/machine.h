/* The proved machine: it is told one thing, and answers with one act. This is the only way to it. */
#ifndef GLASS_MACHINE_H
#define GLASS_MACHINE_H

#include <stddef.h>
#include <stdint.h>

enum {
    MACHINE_COLUMNS_MOST = 200,
    MACHINE_ROWS_LEAST = 2,
    MACHINE_ROWS_MOST = 60,
    MACHINE_PANES_MOST = 32,
    MACHINE_BYTES_MOST = 4096, /* from a program at a time */
    MACHINE_OUT = 65536        /* the most bytes of one act */
};

/* The keys by which a person leaves. */
enum { MACHINE_PREFIX = 1, MACHINE_LEAVE = 'd' };

/* In the order of the numbers that the machine answers with. */
enum act_kind { ACT_REFUSED, ACT_WRITE, ACT_SEND, ACT_START, ACT_SIZE, ACT_STOP, ACT_LEAVE, ACT_OVER, ACT_WAIT };

struct act {
    enum act_kind kind;
    uint64_t pane;          /* send, start, size, stop */
    unsigned columns, rows; /* start, size */
    const uint8_t *bytes;   /* write, send: until the machine is told the next thing */
    size_t count;
};

/* The machine may use more stack than is usual: room is made for it, and taken back for programs that are started. */
void machine_more_stack(void);
void machine_less_stack(void);

/* Something comes. The act is to be done, and then the machine goes on until it waits, before the next thing is told. */
struct act machine_key(uint8_t key);
struct act machine_bytes(uint64_t pane, const uint8_t *bytes, size_t count);
struct act machine_end(uint64_t pane);
struct act machine_look(unsigned columns, unsigned rows);
struct act machine_go_on(void);

#endif
