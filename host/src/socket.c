/* The folder of sockets, its checks, and sockets by name. What is made here is closed on exec and does not block. */
#include "socket.h"

#include "report.h"

#include <errno.h>
#include <fcntl.h>
#include <stdio.h>
#include <stdlib.h>
#include <string.h>
#include <sys/file.h>
#include <sys/socket.h>
#include <sys/stat.h>
#include <sys/un.h>
#include <unistd.h>

enum { VIEWERS_WAITING = 8 };

bool name_is_good(const char *name)
{
    static const char letters[] = "ABCDEFGHIJKLMNOPQRSTUVWXYZabcdefghijklmnopqrstuvwxyz0123456789_-";
    size_t length = strlen(name);

    return length >= 1 && length <= NAME_MOST && name[0] != '-' && strspn(name, letters) == length;
}

/* $GLASS_DIR, or $XDG_RUNTIME_DIR/glass, or /tmp/glass-UID. */
static bool folder_path(struct folder *folder)
{
    const char *own = getenv("GLASS_DIR");
    const char *run = getenv("XDG_RUNTIME_DIR");
    int length;

    if (own != NULL && own[0] != '\0')
        length = snprintf(folder->path, sizeof folder->path, "%s", own);
    else if (run != NULL && run[0] != '\0')
        length = snprintf(folder->path, sizeof folder->path, "%s/glass", run);
    else
        length = snprintf(folder->path, sizeof folder->path, "/tmp/glass-%lu", (unsigned long)getuid());
    if (length > 0 && (size_t)length < sizeof folder->path)
        return true;
    complain("the socket folder's path is too long");
    return false;
}

static bool folder_is_safe(const char *path)
{
    struct stat state;

    if (lstat(path, &state) != 0) {
        complain("socket folder %s: %s", path, strerror(errno));
        return false;
    }
    if (!S_ISDIR(state.st_mode)) {
        complain("socket folder %s is not a folder", path);
        return false;
    }
    if (state.st_uid != getuid()) {
        complain("socket folder %s belongs to another user", path);
        return false;
    }
    if ((state.st_mode & 077) != 0) {
        complain("socket folder %s is open to others: its mode must be 0700", path);
        return false;
    }
    return true;
}

bool folder_open(struct folder *folder)
{
    if (!folder_path(folder))
        return false;
    if (mkdir(folder->path, 0700) != 0 && errno != EEXIST) {
        complain("cannot make the socket folder %s: %s", folder->path, strerror(errno));
        return false;
    }
    return folder_is_safe(folder->path);
}

int folder_lock(const struct folder *folder)
{
    char path[FOLDER_MOST + 8];
    int lock;

    (void)snprintf(path, sizeof path, "%s/.lock", folder->path);
    lock = open(path, O_RDWR | O_CREAT | O_CLOEXEC | O_NOFOLLOW, 0600);
    if (lock < 0 || flock(lock, LOCK_EX) != 0) {
        complain("cannot lock %s: %s", path, strerror(errno));
        if (lock >= 0)
            close(lock);
        return -1;
    }
    return lock;
}

static bool address_of(const struct folder *folder, const char *name, struct sockaddr_un *address)
{
    int length;

    *address = (struct sockaddr_un){.sun_family = AF_UNIX};
    length = snprintf(address->sun_path, sizeof address->sun_path, "%s/%s", folder->path, name);
    if (length > 0 && (size_t)length < sizeof address->sun_path)
        return true;
    errno = ENAMETOOLONG;
    return false;
}

static int new_socket(void)
{
    return socket(AF_UNIX, SOCK_STREAM | SOCK_CLOEXEC | SOCK_NONBLOCK, 0);
}

static int close_failed(int socket)
{
    int error = errno;

    close(socket);
    errno = error;
    return -1;
}

int socket_connect(const struct folder *folder, const char *name)
{
    struct sockaddr_un address;
    int line;

    if (!address_of(folder, name, &address) || (line = new_socket()) < 0)
        return -1;
    if (connect(line, (const struct sockaddr *)&address, sizeof address) != 0)
        return close_failed(line);
    if (!peer_is_own(line)) {
        errno = EPERM;
        return close_failed(line);
    }
    return line;
}

int socket_listen(const struct folder *folder, const char *name)
{
    struct sockaddr_un address;
    int listener, bound;
    mode_t mask;

    if (!address_of(folder, name, &address) || (listener = new_socket()) < 0)
        return -1;
    socket_remove(folder, name);
    mask = umask(077);
    bound = bind(listener, (const struct sockaddr *)&address, sizeof address);
    umask(mask);
    if (bound != 0 || listen(listener, VIEWERS_WAITING) != 0)
        return close_failed(listener);
    return listener;
}

void socket_remove(const struct folder *folder, const char *name)
{
    struct sockaddr_un address;

    if (address_of(folder, name, &address))
        (void)unlink(address.sun_path);
}

bool peer_is_own(int socket)
{
    struct ucred peer;
    socklen_t size = sizeof peer;

    return getsockopt(socket, SOL_SOCKET, SO_PEERCRED, &peer, &size) == 0 && peer.uid == getuid();
}
