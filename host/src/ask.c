/* Asking a session how it is, for the list of sessions. */
#include "message.h"
#include "viewer.h"

#include <poll.h>
#include <stdio.h>

enum { IN = MESSAGE_HEAD + 1 + MESSAGE_TEXT_MOST, PATIENCE = 2000 };

/* Reads until a message is there. Later: none came in time. */
static enum flow read_answer(int line, struct buffer *in, struct message *answer)
{
    struct pollfd poll_line = {.fd = line, .events = POLLIN};
    enum flow flow = FLOW_SOME;

    while (flow == FLOW_SOME && message_first(in, answer) == MESSAGE_NONE)
        flow = poll(&poll_line, 1, PATIENCE) <= 0 ? FLOW_LATER : buffer_read(in, line, IN);
    return flow;
}

/* A session that is over meanwhile is not in the list. */
static void print_answer(int line, struct buffer *in, const char *name)
{
    struct message answer;
    enum flow flow = read_answer(line, in, &answer);

    if (flow == FLOW_LATER)
        printf("%s: does not answer\n", name);
    else if (flow == FLOW_SOME && message_first(in, &answer) == MESSAGE_WHOLE && answer.kind == MESSAGE_STATE)
        printf("%s: %.*s\n", name, (int)answer.length, (const char *)answer.payload);
}

void ask(int line, const char *name)
{
    struct buffer in = {0}, out = {0};

    if (buffer_make(&in, IN) && buffer_make(&out, MESSAGE_HEAD) && message_add(&out, MESSAGE_ASK, NULL, 0)
        && buffer_write(&out, line) == FLOW_SOME)
        print_answer(line, &in, name);
    buffer_free(&in);
    buffer_free(&out);
}
