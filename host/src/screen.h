/* The real terminal that somebody sits at. */
#ifndef GLASS_SCREEN_H
#define GLASS_SCREEN_H

#include "buffer.h"

#include <termios.h>

struct screen {
    int keys;               /* standard input */
    int file;               /* the terminal once more, opened so that writing does not block */
    struct termios before;  /* how it was set */
    bool raw;               /* it is set for looking now */
    struct buffer bytes;    /* that wait to be written */
};

/* Complains and answers false if standard input and output are no terminal. */
bool screen_open(struct screen *screen);
void screen_size(unsigned *columns, unsigned *rows);

/* Bytes pass unread in both directions. */
bool screen_raw(struct screen *screen);
/* The screen as the machine takes a fresh one to be. False: no room among the bytes that wait. */
bool screen_fresh(struct screen *screen);
/* As it was, with the cursor below all that is shown; what waits is written first, if that does not take long. */
void screen_restore(struct screen *screen);
void screen_close(struct screen *screen);

#endif
