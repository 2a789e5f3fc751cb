/* glass: the command line. */
#include "report.h"
#include "server.h"
#include "viewer.h"

#include <dirent.h>
#include <errno.h>
#include <signal.h>
#include <stdio.h>
#include <stdlib.h>
#include <string.h>
#include <sys/stat.h>
#include <unistd.h>

static const char version[] = "glass 0.1\n";
static const char help[] =
    "usage: glass [--session NAME] [--] [COMMAND [ARGUMENT ...]]\n"
    "       glass ls\n"
    "       glass --help | --version\n"
    "\n"
    "Looks at the session NAME (main if none is named). If it is not there it is started,\n"
    "with COMMAND or else the shell in it. It lives on when the terminal goes; the same\n"
    "command shows it again as it is. glass ls lists the sessions.\n"
    "Control-A is the prefix: with d after it the session is left; twice, it is sent on.\n";

struct wish {
    const char *name;
    char **command; /* ends with NULL; the first is NULL if none was given */
};

static int bad_usage(const char *what, const char *word)
{
    complain("%s%s", what, word);
    fputs("Try 'glass --help'.\n", stderr);
    return STATUS_USAGE;
}

/* Our terminal type beside the program, or where it is installed. */
static bool find_terminfo(char *path, size_t size)
{
    static const char *const places[] = {"terminfo", "../share/glass/terminfo"};
    char program[512], found[512];
    struct stat state;
    ssize_t length = readlink("/proc/self/exe", program, sizeof program - 1);
    char *end;

    if (length <= 0)
        return false;
    program[length] = '\0';
    end = strrchr(program, '/');
    if (end == NULL)
        return false;
    for (size_t i = 0; i < sizeof places / sizeof places[0]; i++) {
        (void)snprintf(path, size, "%.*s/%s", (int)(end - program), program, places[i]);
        (void)snprintf(found, sizeof found, "%.480s/g/glass", path);
        if (stat(found, &state) == 0)
            return true;
    }
    return false;
}

/* The session does not exist: makes its socket and its server. A line to it, or -1. */
static int begin(const struct folder *folder, const struct wish *wish)
{
    static char terminfo[600];
    struct beginning beginning = {.folder = *folder, .name = wish->name, .command = wish->command, .terminfo = terminfo};
    int listener, line;

    if (!find_terminfo(terminfo, sizeof terminfo)) {
        complain("the terminal type is not there: folder 'terminfo' beside the program");
        return -1;
    }
    listener = socket_listen(folder, wish->name);
    if (listener < 0) {
        complain("cannot make the socket of session %s in %s: %s", wish->name, folder->path, strerror(errno));
        return -1;
    }
    line = server_start(&beginning, listener);
    if (line < 0)
        socket_remove(folder, wish->name);
    close(listener);
    return line;
}

static int find_or_begin(const struct folder *folder, const struct wish *wish)
{
    int lock = folder_lock(folder);
    int line;

    if (lock < 0)
        return -1;
    line = socket_connect(folder, wish->name);
    if (line < 0 && (errno == ENOENT || errno == ECONNREFUSED))
        line = begin(folder, wish);
    else if (line < 0)
        complain("cannot reach session %s in %s: %s", wish->name, folder->path, strerror(errno));
    close(lock);
    return line;
}

static int look_at(const struct wish *wish)
{
    const char *inside = getenv("GLASS");
    struct folder folder;
    int line;

    if (inside != NULL && strcmp(inside, wish->name) == 0) {
        complain("this is inside session %s: it cannot be looked at from within itself", wish->name);
        return STATUS_FAILED;
    }
    if (!isatty(STDIN_FILENO) || !isatty(STDOUT_FILENO)) {
        complain("standard input and output must be a terminal");
        return STATUS_FAILED;
    }
    if (!folder_open(&folder))
        return STATUS_FAILED;
    line = find_or_begin(&folder, wish);
    return line < 0 ? STATUS_FAILED : view(line);
}

static int is_session(const struct dirent *entry)
{
    return name_is_good(entry->d_name);
}

static int list(void)
{
    struct folder folder;
    struct dirent **entries;
    int count, line;

    if (!folder_open(&folder))
        return STATUS_FAILED;
    count = scandir(folder.path, &entries, is_session, alphasort);
    if (count < 0) {
        complain("cannot read the socket folder %s: %s", folder.path, strerror(errno));
        return STATUS_FAILED;
    }
    for (int i = 0; i < count; i++) {
        line = socket_connect(&folder, entries[i]->d_name);
        if (line >= 0) {
            ask(line, entries[i]->d_name);
            close(line);
        }
        free(entries[i]);
    }
    free(entries);
    return STATUS_GOOD;
}

/* Takes the options; what is left is the command. A status, or -1 to go on. */
static int read_options(char **words, struct wish *wish)
{
    static const char session[] = "--session";

    for (; words[0] != NULL && words[0][0] == '-'; words++) {
        if (strcmp(words[0], "--") == 0) {
            words++;
            break;
        }
        if (strcmp(words[0], "--help") == 0 || strcmp(words[0], "--version") == 0)
            return fputs(words[0][2] == 'h' ? help : version, stdout) < 0;
        if (strcmp(words[0], session) == 0 && words[1] != NULL)
            wish->name = *++words;
        else if (strncmp(words[0], "--session=", sizeof session) == 0)
            wish->name = words[0] + sizeof session;
        else
            return bad_usage(strcmp(words[0], session) == 0 ? "a name must follow " : "no such option: ", words[0]);
    }
    wish->command = words;
    return -1;
}

int main(int count, char **words)
{
    struct wish wish = {.name = "main"};
    int status;

    (void)signal(SIGPIPE, SIG_IGN);
    (void)signal(SIGCHLD, SIG_DFL);
    if (getuid() != geteuid() || getgid() != getegid()) {
        complain("must not run set-uid or set-gid");
        return STATUS_FAILED;
    }
    if (count < 1)
        return STATUS_USAGE;
    if (count == 2 && strcmp(words[1], "ls") == 0)
        return list();
    status = read_options(words + 1, &wish);
    if (status >= 0)
        return status;
    if (!name_is_good(wish.name))
        return bad_usage("a session's name is 1 to 32 of A-Z a-z 0-9 _ -, and does not begin with '-': not ", wish.name);
    return look_at(&wish);
}
