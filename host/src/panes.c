/* The programs in panes: starting, sizes, bytes both ways, and ends. Signals go only to processes that are not reaped. */
#include "panes.h"

#include <errno.h>
#include <fcntl.h>
#include <pty.h>
#include <signal.h>
#include <sys/ioctl.h>
#include <sys/wait.h>
#include <time.h>
#include <unistd.h>

enum { QUIET = 100 };

long long now(void)
{
    struct timespec time;

    (void)clock_gettime(CLOCK_MONOTONIC, &time);
    return (long long)time.tv_sec * 1000 + time.tv_nsec / 1000000;
}

static struct pane *find(struct panes *panes, uint64_t number)
{
    for (size_t i = 0; i < MACHINE_PANES_MOST; i++)
        if (panes->all[i].used && panes->all[i].number == number)
            return &panes->all[i];
    return NULL;
}

static struct pane *find_free(struct panes *panes)
{
    for (size_t i = 0; i < MACHINE_PANES_MOST; i++)
        if (!panes->all[i].used)
            return &panes->all[i];
    return NULL;
}

/* In the new process: signals and limits as a program expects them, then the program, or the error number to the pipe. */
_Noreturn static void become(char *const *words, int report)
{
    sigset_t none;
    int error;

    sigemptyset(&none);
    for (int number = 1; number < NSIG; number++)
        (void)signal(number, SIG_DFL);
    (void)sigprocmask(SIG_SETMASK, &none, NULL);
    machine_less_stack();
    execvp(words[0], words);
    error = errno;
    (void)!write(report, &error, sizeof error);
    _exit(127);
}

/* What the new process reports before it is the program: 0 if the pipe closes, since then it is. */
static int wait_for_program(int report)
{
    int error = 0;
    ssize_t got;

    do
        got = read(report, &error, sizeof error);
    while (got < 0 && errno == EINTR);
    close(report);
    return got == (ssize_t)sizeof error ? error : 0;
}

static void set_flags(int terminal)
{
    (void)fcntl(terminal, F_SETFD, FD_CLOEXEC);
    (void)fcntl(terminal, F_SETFL, fcntl(terminal, F_GETFL) | O_NONBLOCK);
}

static struct winsize size_of(const struct act *act)
{
    return (struct winsize){.ws_col = (unsigned short)act->columns, .ws_row = (unsigned short)act->rows};
}

/* Forks on a pseudo-terminal of that size. 0 or an error number. */
static int run(struct pane *pane, struct winsize size, char *const *words)
{
    int report[2], error;

    if (pipe2(report, O_CLOEXEC) != 0)
        return errno;
    pane->process = forkpty(&pane->terminal, NULL, NULL, &size);
    if (pane->process == 0)
        become(words, report[1]);
    error = errno;
    close(report[1]);
    if (pane->process < 0) {
        close(report[0]);
        return error;
    }
    set_flags(pane->terminal);
    error = wait_for_program(report[0]);
    if (error != 0)
        (void)waitpid(pane->process, NULL, 0);
    return error;
}

int pane_start(struct panes *panes, const struct act *act, char *const *words)
{
    struct pane *pane = find_free(panes);
    int error;

    if (pane == NULL)
        return EAGAIN;
    *pane = (struct pane){.used = true, .number = act->pane, .terminal = -1};
    error = buffer_make(&pane->input, PANE_INPUT_LIMIT + MACHINE_OUT) ? run(pane, size_of(act), words) : ENOMEM;
    if (error != 0) {
        pane->process = 0;
        pane->drained = true;
    }
    return error;
}

void pane_size(struct panes *panes, const struct act *act)
{
    struct pane *pane = find(panes, act->pane);
    struct winsize size = size_of(act);

    if (pane != NULL && pane->terminal >= 0)
        (void)ioctl(pane->terminal, TIOCSWINSZ, &size);
}

/* There is always room: nothing that can add to the input is told to the machine above the limit. */
void pane_send(struct panes *panes, const struct act *act)
{
    struct pane *pane = find(panes, act->pane);

    if (pane != NULL && pane->process != 0)
        (void)buffer_add(&pane->input, act->bytes, act->count);
}

void pane_stop(struct panes *panes, uint64_t number)
{
    struct pane *pane = find(panes, number);

    if (pane == NULL || pane->process == 0)
        return;
    (void)kill(pane->process, pane->stopped ? SIGKILL : SIGHUP);
    (void)kill(pane->process, SIGCONT);
    pane->stopped = true;
}

void pane_forget(struct pane *pane)
{
    if (pane->terminal >= 0)
        close(pane->terminal);
    buffer_free(&pane->input);
    *pane = (struct pane){.terminal = -1};
}

bool panes_take_keys(const struct panes *panes)
{
    for (size_t i = 0; i < MACHINE_PANES_MOST; i++)
        if (panes->all[i].used && panes->all[i].input.length > PANE_INPUT_LIMIT)
            return false;
    return true;
}

/* Nothing came. Of a process that has ended nothing more will; of another it will, if it opens its terminal again. */
static void note_nothing(struct pane *pane, bool closed)
{
    if (pane->process == 0)
        pane->drained = true;
    else if (closed)
        pane->quiet = now() + QUIET;
}

size_t pane_read(struct pane *pane, uint8_t *bytes)
{
    ssize_t got = read(pane->terminal, bytes, MACHINE_BYTES_MOST);

    if (got <= 0) {
        if (got == 0 || errno != EINTR)
            note_nothing(pane, got == 0 || errno != EAGAIN);
        return 0;
    }
    if (pane->process == 0) {
        pane->after += (size_t)got;
        pane->drained = pane->after > PANE_AFTER_LIMIT;
    }
    return (size_t)got;
}

void pane_write(struct pane *pane)
{
    if (pane->process == 0)
        buffer_clear(&pane->input);
    else if (buffer_write(&pane->input, pane->terminal) == FLOW_BROKEN)
        note_nothing(pane, true);
}

void panes_reap(struct panes *panes)
{
    for (size_t i = 0; i < MACHINE_PANES_MOST; i++) {
        struct pane *pane = &panes->all[i];

        if (pane->used && pane->process != 0 && waitpid(pane->process, NULL, WNOHANG) == pane->process) {
            pane->process = 0;
            pane->quiet = 0;
        }
    }
}

void panes_hang_up(struct panes *panes)
{
    for (size_t i = 0; i < MACHINE_PANES_MOST; i++)
        if (panes->all[i].used)
            pane_stop(panes, panes->all[i].number);
}
