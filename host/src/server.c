/* Becoming the server: two forks, a session of processes of its own, no files but the sockets, and what programs shall
   find in their environment. */
#include "server.h"

#include "lines.h"
#include "report.h"
#include "serve.h"

#include <errno.h>
#include <fcntl.h>
#include <signal.h>
#include <stdlib.h>
#include <string.h>
#include <sys/signalfd.h>
#include <sys/socket.h>
#include <sys/wait.h>
#include <unistd.h>

enum { FILE_LISTENER = 3, FILE_LINE, FILES_KEPT };

static struct session session;

/* What every program in a pane finds. */
static bool set_environment(const struct beginning *beginning)
{
    return setenv("TERM", "glass", 1) == 0 && setenv("TERMINFO", beginning->terminfo, 1) == 0
        && setenv("LC_ALL", "C", 1) == 0 && setenv("GLASS", beginning->name, 1) == 0 && unsetenv("COLUMNS") == 0
        && unsetenv("LINES") == 0 && unsetenv("TERMCAP") == 0;
}

/* Nothing of the terminal where the session was begun stays open. */
static bool keep_only(int listener, int line)
{
    int null = open("/dev/null", O_RDWR | O_CLOEXEC);
    int high_listener = fcntl(listener, F_DUPFD_CLOEXEC, FILES_KEPT);
    int high_line = fcntl(line, F_DUPFD_CLOEXEC, FILES_KEPT);

    if (null < 0 || high_listener < 0 || high_line < 0)
        return false;
    for (int file = STDIN_FILENO; file <= STDERR_FILENO; file++)
        if (dup2(null, file) < 0)
            return false;
    if (dup3(high_listener, FILE_LISTENER, O_CLOEXEC) < 0 || dup3(high_line, FILE_LINE, O_CLOEXEC) < 0)
        return false;
    return close_range(FILES_KEPT, ~0U, 0) == 0;
}

/* The signals that are read from a file; a broken line is no signal. */
static int open_signals(void)
{
    sigset_t set;

    sigemptyset(&set);
    sigaddset(&set, SIGCHLD);
    sigaddset(&set, SIGTERM);
    sigaddset(&set, SIGINT);
    (void)signal(SIGHUP, SIG_IGN);
    if (sigprocmask(SIG_SETMASK, &set, NULL) != 0)
        return -1;
    return signalfd(-1, &set, SFD_CLOEXEC | SFD_NONBLOCK);
}

static char *const *shell_words(void)
{
    static char plain[] = "/bin/sh";
    static char *words[2];
    char *own = getenv("SHELL");

    words[0] = own != NULL && own[0] == '/' ? own : plain;
    return words;
}

_Noreturn static void be_server(const struct beginning *beginning, int listener, int line)
{
    if (!keep_only(listener, line) || !set_environment(beginning))
        _exit(STATUS_FAILED);
    session.folder = beginning->folder;
    session.name = beginning->name;
    session.shell = shell_words();
    session.command = beginning->command[0] != NULL ? beginning->command : session.shell;
    session.listener = FILE_LISTENER;
    session.signals = open_signals();
    for (size_t i = 0; i < LINES_MOST; i++)
        session.lines[i].socket = -1;
    line_add(&session, FILE_LINE);
    machine_more_stack();
    if (session.signals >= 0)
        serve(&session);
    exit(session.status);
}

/* The second fork: the server is nobody's child, so nobody has to reap it, and it can get no controlling terminal. */
_Noreturn static void fork_again(const struct beginning *beginning, int listener, int line)
{
    pid_t process;

    if (setsid() < 0 || (process = fork()) < 0)
        _exit(STATUS_FAILED);
    if (process > 0)
        _exit(STATUS_GOOD);
    be_server(beginning, listener, line);
}

static bool wait_for(pid_t process)
{
    int status = 0;

    while (waitpid(process, &status, 0) < 0)
        if (errno != EINTR)
            return false;
    return WIFEXITED(status) && WEXITSTATUS(status) == STATUS_GOOD;
}

int server_start(const struct beginning *beginning, int listener)
{
    int ends[2];
    pid_t process;

    if (socketpair(AF_UNIX, SOCK_STREAM | SOCK_CLOEXEC | SOCK_NONBLOCK, 0, ends) != 0) {
        complain("cannot make a line to the session: %s", strerror(errno));
        return -1;
    }
    process = fork();
    if (process == 0)
        fork_again(beginning, listener, ends[1]);
    close(ends[1]);
    if (process > 0 && wait_for(process))
        return ends[0];
    complain("cannot start the session: %s", strerror(errno));
    close(ends[0]);
    return -1;
}
