/* Where sessions are found: one socket for each, in a folder that nobody else can enter. */
#ifndef GLASS_SOCKET_H
#define GLASS_SOCKET_H

#include <stdbool.h>

enum { NAME_MOST = 32, FOLDER_MOST = 256 };

struct folder {
    char path[FOLDER_MOST];
};

/* 1 to 32 of A-Z a-z 0-9 _ -, not beginning with -. */
bool name_is_good(const char *name);

/* Makes the folder if it is not there, and checks that it is one's own and closed to others. Complains otherwise. */
bool folder_open(struct folder *folder);

/* While the lock is held nobody else begins a session there. A file, or -1 after a complaint. */
int folder_lock(const struct folder *folder);

/* A file, or -1: errno is ENOENT or ECONNREFUSED if there is no such session. */
int socket_connect(const struct folder *folder, const char *name);
/* A file that viewers can connect to, or -1. A socket that nobody listens to any more is replaced. */
int socket_listen(const struct folder *folder, const char *name);
void socket_remove(const struct folder *folder, const char *name);

/* Whether the process on the other side is of the same user. */
bool peer_is_own(int socket);

#endif
