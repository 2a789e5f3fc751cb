/* A session as its server keeps it: the programs, the lines to viewers, and whether the machine waits. */
#ifndef GLASS_SESSION_H
#define GLASS_SESSION_H

#include "buffer.h"
#include "message.h"
#include "panes.h"
#include "socket.h"

enum {
    LINES_MOST = 8,
    LINE_LIMIT = 4096,      /* more than this waits for the viewer: programs are not read */
    LINE_KEYS_LIMIT = 65536 /* more than this waits for the viewer: keys are not read either */
};

/* A connection: to the viewer, to one that was let go and is still told so, or to one that has not said what it wants. */
struct line {
    int socket;        /* -1: this place is free */
    struct buffer in;  /* messages of which not all is done */
    struct buffer out; /* messages that are not sent yet */
    size_t keys_done;  /* of the first message, if it has keys */
    bool hung;         /* the other side has gone; what it sent before may still be there */
    bool closed;       /* all that it sent has been read */
    bool deaf;         /* the other side takes no more: what is to be sent is thrown away */
    bool leaving;      /* it was said bye: nothing of it is read, and it is closed when that is sent */
    long long since;   /* when it came, or was said bye */
};

struct session {
    struct folder folder;
    const char *name;
    char *const *command; /* for the first pane */
    char *const *shell;   /* for the others */
    int listener;
    long long accept_after; /* a connection could not be taken: not tried again before this time */
    int signals;
    struct panes panes;
    size_t turn; /* the pane that may be read first: the one behind the last that was */
    struct line lines[LINES_MOST];
    struct line *viewer; /* from which somebody looks; none while nobody does */
    bool left;           /* nobody looks any more, and the machine does not know it yet */
    unsigned columns, rows;
    bool begun;   /* the first program was started */
    bool busy;    /* the machine was told something and does not wait yet */
    bool over;    /* nothing more is told to the machine */
    int status;   /* for viewers, when it is over */
    char text[MESSAGE_TEXT_MOST];
};

#endif
