/* Makes the calls that files describe (README.md has the format) and holds what comes back against what the files say: the
   answer, and every byte of every slice and of the guard bytes around it. */
#include <signal.h>
#include <stdio.h>
#include <string.h>
#include <unistd.h>

#include "format.h"
#include "library.h"
#include "picnic.h"
#include "slices.h"

/* Each call is made in several ways: the pattern as it is or turned, so that a byte that was left out, or written where none
   may be, is not right by chance each time; and another pointer for slices of length 0. Of calls without such a slice the
   last way would be the first again. */
static const struct way {
    unsigned char mask;
    enum empty empty;
} ways[] = { { 0x00, AT_ITS_PLACE }, { 0xff, AT_ONE }, { 0x00, NULL_POINTER } };

enum { WAYS = sizeof ways / sizeof ways[0] };

/* Whether the first way is to be enough. */
static int once;

static int count_ways(const struct call *call)
{
    int i;
    if (once)
        return 1;
    for (i = 0; i < call->count; i++)
        if (call->arguments[i].kind != NUMBER && call->arguments[i].length == 0)
            return WAYS;
    return WAYS - 1;
}

/* The call that is being made, for a crash to name it. */
static const char *current = "no call";

static void crashed(int number)
{
    static const char words[] = ": the call crashed\n";
    (void)number;
    if (write(STDOUT_FILENO, current, strlen(current)) < 0 || write(STDOUT_FILENO, words, sizeof words - 1) < 0)
        _exit(4);
    _exit(3);
}

static int check_answer(const struct call *call, uint64_t answer)
{
    if (answer == call->answer)
        return 1;
    printf("%s: the answer is %lu, %lu and not %lu, %lu (refusal, length)\n", call->label,
           (unsigned long)PICNIC_REFUSAL(answer), (unsigned long)PICNIC_LENGTH(answer),
           (unsigned long)PICNIC_REFUSAL(call->answer), (unsigned long)PICNIC_LENGTH(call->answer));
    return 0;
}

/* Makes the call in one way; 1 if all is as it must be. */
static int make_call(const struct call *call, const struct function *function, const struct way *way)
{
    struct given given[MOST_ARGUMENTS];
    int i, fine;

    give(given, call, way->mask, way->empty);
    fflush(stdout);
    current = call->label;
    fine = check_answer(call, function->make(given));
    for (i = 0; i < call->count; i++)
        if (call->arguments[i].kind != NUMBER)
            fine &= check_slice(&given[i].slice, call->label, i + 1);
    take_back(given, call);
    return fine;
}

/* Makes the call in its ways, up to the first that is not fine. */
static int try_call(const struct call *call, const struct function *function)
{
    int i, count = count_ways(call);
    for (i = 0; i < count; i++)
        if (!make_call(call, function, &ways[i]))
            return 0;
    return 1;
}

int main(int argc, char **argv)
{
    int i;
    unsigned long passed = 0, failed = 0;

    once = argc > 1 && strcmp(argv[1], "once") == 0;
    signal(SIGSEGV, crashed);
    signal(SIGBUS, crashed);
    for (i = 1 + once; i < argc; i++) {
        struct reader *reader = open_calls(argv[i]);
        struct call call;
        while (next_call(reader, &call)) {
            if (try_call(&call, find_function(reader, &call)))
                passed++;
            else
                failed++;
            free_call(&call);
        }
        close_calls(reader);
    }
    if (passed + failed == 0) {
        fprintf(stderr, "usage: calls [once] FILE.., with calls in the files\n");
        return 2;
    }
    printf("%lu passed, %lu failed\n", passed, failed);
    return failed != 0;
}
