/* The functions that the header declares, and their arguments. */
#include "library.h"

#include <string.h>

#include "picnic.h"

/* A number and a slice as a function takes them. */
#define N(i) given[i].number
#define S(i) given[i].slice.start, given[i].slice.length

/* functions.h is made from the header and has a line for each function: its name, the kinds of its arguments, and the
   arguments as it takes them. */
#define FUNCTION(name, kinds, ...)                                                                                     \
    static uint64_t make_##name(const struct given *given)                                                             \
    {                                                                                                                  \
        return name(__VA_ARGS__);                                                                                      \
    }
#include "functions.h"
#undef FUNCTION

#define FUNCTION(name, kinds, ...) { #name, kinds, make_##name },
static const struct function functions[] = {
#include "functions.h"
};

static void check_kinds(const struct reader *reader, const struct call *call, const struct function *function)
{
    int i;
    if ((size_t)call->count != strlen(function->kinds))
        malformed(reader, "the function takes another number of arguments");
    for (i = 0; i < call->count; i++)
        if (call->arguments[i].kind != function->kinds[i])
            malformed(reader, "the function takes arguments of other kinds");
}

const struct function *find_function(const struct reader *reader, const struct call *call)
{
    size_t i;
    for (i = 0; i < sizeof functions / sizeof functions[0]; i++)
        if (strcmp(functions[i].name, call->function) == 0) {
            check_kinds(reader, call, &functions[i]);
            return &functions[i];
        }
    malformed(reader, "a function that the host does not know");
    return NULL;
}

void give(struct given *given, const struct call *call, unsigned char mask, enum empty empty)
{
    static uint64_t x = 1;
    int i;

    for (i = 0; i < call->count; i++)
        if (call->arguments[i].kind == NUMBER)
            given[i].number = call->arguments[i].number;
        else
            place_slice(&given[i].slice, &call->arguments[i], noise(&x) % 16, mask, empty);
}

void take_back(struct given *given, const struct call *call)
{
    int i;
    for (i = 0; i < call->count; i++)
        if (call->arguments[i].kind != NUMBER)
            free_slice(&given[i].slice);
}
