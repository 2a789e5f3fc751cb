/* The server: a process in the background that keeps one session. */
#ifndef GLASS_SERVER_H
#define GLASS_SERVER_H

#include "socket.h"

struct beginning {
    struct folder folder;
    const char *name;
    char **command;       /* for the first pane */
    const char *terminfo; /* the folder with our terminal type */
};

/* Forks the server, which listens to the socket. The viewer's end of a line to it, or -1 after a complaint. */
int server_start(const struct beginning *beginning, int listener);

#endif
