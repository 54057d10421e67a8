/* Measures the stack that calls use: stack FILE.., each a file of calls of one function. Every call of it that is not refused
   runs on a stack of its own that was filled with a pattern, and what is no longer the pattern was used. Prints the most for
   each function, below the host's frame: return addresses and arguments that are passed on the stack are included. */
#define _XOPEN_SOURCE 700
#include <stdio.h>
#include <stdlib.h>
#include <string.h>
#include <ucontext.h>

#include "format.h"
#include "library.h"
#include "picnic.h"

enum { PATTERN = 0xa5 };

static unsigned char stack[1 << 18];
static ucontext_t outside, inside;

/* The call that runs on the painted stack, what it answers, and how far below the frame that makes it the stack was used. */
static uint64_t (*painted)(const struct given *);
static struct given given[MOST_ARGUMENTS];
static volatile uint64_t answer;
static size_t depth;

/* Runs the call, and looks for the lowest byte that is not the pattern before anything else uses the stack. */
static void enter(void)
{
    volatile unsigned char frame = 0;
    size_t unused = 0;

    answer = painted(given);
    while (stack[unused] == PATTERN)
        unused++;
    depth = unused == 0 ? 0 : (size_t)((uintptr_t)&frame - (uintptr_t)&stack[unused]);
}

static void fail(const char *what)
{
    fprintf(stderr, "stack: %s\n", what);
    exit(1);
}

static void run_painted(void)
{
    memset(stack, PATTERN, sizeof stack);
    if (getcontext(&inside) != 0)
        fail("no context");
    inside.uc_stack.ss_sp = stack;
    inside.uc_stack.ss_size = sizeof stack;
    inside.uc_link = &outside;
    makecontext(&inside, enter, 0);
    if (swapcontext(&outside, &inside) != 0)
        fail("no other stack");
    if (depth == 0)
        fail("the stack is too small");
}

/* The stack that a call uses. */
static size_t used_by(const struct call *call, const struct function *function)
{
    give(given, call, 0, AT_ITS_PLACE);
    painted = function->make;
    run_painted();
    take_back(given, call);
    if (answer != call->answer)
        fail("a call answers something else");
    return depth;
}

static void measure(const char *path)
{
    struct reader *reader = open_calls(path);
    const struct function *function = NULL;
    struct call call;
    size_t most = 0;

    while (next_call(reader, &call)) {
        function = find_function(reader, &call);
        if (PICNIC_REFUSAL(call.answer) == PICNIC_FINE) {
            size_t bytes = used_by(&call, function);
            most = bytes > most ? bytes : most;
        }
        free_call(&call);
    }
    if (function == NULL)
        fail("a file without a call");
    printf("%-20s %10lu\n", function->name, (unsigned long)most);
    close_calls(reader);
}

int main(int argc, char **argv)
{
    int i;
    printf("%-20s %10s\n", "stack", "bytes");
    for (i = 1; i < argc; i++)
        measure(argv[i]);
    return 0;
}
