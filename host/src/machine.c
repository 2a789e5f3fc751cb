/* The machine's memory, and the calls of its one function. An act whose numbers cannot be right is taken as refused. */
#include "machine.h"

#include <sys/resource.h>

enum { NUMBERS = 238304 };
enum { KIND_KEY, KIND_BYTES, KIND_END, KIND_LOOK, KIND_GO_ON };

static const rlim_t STACK = 64 << 20;

/* From the static library of crate glass_c. */
extern uint64_t glass_step(uint64_t *memory, size_t numbers, uint64_t kind, uint64_t a, uint64_t b,
                           const uint8_t *bytes, size_t length, uint8_t *out, size_t room, uint64_t *value,
                           size_t values);

static uint64_t memory[NUMBERS];
static uint8_t out[MACHINE_OUT];
static struct rlimit stack_before;
static int stack_raised;

void machine_more_stack(void)
{
    struct rlimit more;

    if (getrlimit(RLIMIT_STACK, &stack_before) != 0 || stack_before.rlim_cur >= STACK)
        return;
    more = stack_before;
    more.rlim_cur = more.rlim_max < STACK ? more.rlim_max : STACK;
    stack_raised = setrlimit(RLIMIT_STACK, &more) == 0;
}

void machine_less_stack(void)
{
    if (stack_raised)
        (void)setrlimit(RLIMIT_STACK, &stack_before);
}

/* What the value of an act holds, by its kind. */
static struct act read_act(uint64_t kind, uint64_t value)
{
    struct act act = {.kind = (enum act_kind)kind};

    if (act.kind == ACT_WRITE) {
        act.count = value;
    } else if (act.kind == ACT_SEND) {
        act.pane = value / 65536;
        act.count = value % 65536;
    } else if (act.kind == ACT_START || act.kind == ACT_SIZE) {
        act.pane = value / 65536;
        act.columns = (unsigned)(value / 256 % 256);
        act.rows = (unsigned)(value % 256);
    } else if (act.kind == ACT_STOP) {
        act.pane = value;
    }
    act.bytes = out;
    return act;
}

static struct act step(uint64_t kind, uint64_t a, uint64_t b, const uint8_t *bytes, size_t length)
{
    uint64_t value = 0;
    uint64_t answer = glass_step(memory, NUMBERS, kind, a, b, bytes, length, out, sizeof out, &value, 1);
    struct act act = read_act(answer, value);

    if (answer > ACT_WAIT || act.count > sizeof out)
        act.kind = ACT_REFUSED;
    return act;
}

/* An empty row of bytes still needs a place. */
static const uint8_t nothing[1];

struct act machine_key(uint8_t key)
{
    return step(KIND_KEY, key, 0, nothing, 0);
}

struct act machine_bytes(uint64_t pane, const uint8_t *bytes, size_t count)
{
    return step(KIND_BYTES, pane, 0, bytes, count);
}

struct act machine_end(uint64_t pane)
{
    return step(KIND_END, pane, 0, nothing, 0);
}

struct act machine_look(unsigned columns, unsigned rows)
{
    return step(KIND_LOOK, columns, rows, nothing, 0);
}

struct act machine_go_on(void)
{
    return step(KIND_GO_ON, 0, 0, nothing, 0);
}
