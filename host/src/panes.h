/* The programs in panes: each has a process, a pseudo-terminal and bytes that wait to be written to it. */
#ifndef GLASS_PANES_H
#define GLASS_PANES_H

#include "buffer.h"
#include "machine.h"

#include <sys/types.h>

enum {
    PANE_INPUT_LIMIT = 65536, /* more than this waits: nothing is done that could add to it */
    PANE_AFTER_LIMIT = 262144 /* more than a pseudo-terminal holds: read at most so much after the process has ended */
};

struct pane {
    bool used;
    uint64_t number;      /* as the machine calls it */
    pid_t process;        /* 0 once it has been reaped: never a process of somebody else */
    int terminal;         /* the pseudo-terminal's master side, or -1 */
    bool stopped;         /* was told to stop once */
    bool drained;         /* the process has ended and all that it wrote has been read */
    long long quiet;      /* the terminal is closed on the other side: not tried again before this time */
    size_t after;         /* how many bytes were read since the process ended */
    struct buffer input;  /* for the program */
};

struct panes {
    struct pane all[MACHINE_PANES_MOST];
};

/* Milliseconds of a clock that never goes back. */
long long now(void);

/* Starts the words as a program for that pane. 0, or an error number: then nothing runs, and the pane is one that ended. */
int pane_start(struct panes *panes, const struct act *act, char *const *words);
void pane_size(struct panes *panes, const struct act *act);
void pane_send(struct panes *panes, const struct act *act);
/* The first time it is asked to hang up, the second time it is killed. */
void pane_stop(struct panes *panes, uint64_t number);
/* Forgets the pane, whose process has been reaped. */
void pane_forget(struct pane *pane);

/* Whether no program has so much input waiting that keys have to wait. */
bool panes_take_keys(const struct panes *panes);
/* Up to 4,096 bytes of what the program wrote. 0: none now; drained may be set then. */
size_t pane_read(struct pane *pane, uint8_t *bytes);
void pane_write(struct pane *pane);

/* Looks which processes have ended. */
void panes_reap(struct panes *panes);
void panes_hang_up(struct panes *panes);

#endif
