/* Files of calls, as README.md describes them. */
#ifndef FORMAT_H
#define FORMAT_H

#include <stddef.h>
#include <stdint.h>

/* A byte string on the heap. */
struct bytes {
    unsigned char *start;
    size_t length;
};

/* The kinds of arguments, as letters so that a function's arguments are a word. */
enum { NUMBER = 'n', INPUT = 'i', WRITTEN = 'w' };

struct argument {
    char kind;
    uint64_t number;    /* of a number */
    size_t length;      /* of a slice */
    struct bytes bytes; /* an input's contents, or what must stand at the start of a written slice */
};

enum { MOST_ARGUMENTS = 16 };

struct call {
    const char *label;
    const char *function;
    struct argument arguments[MOST_ARGUMENTS];
    int count;
    uint64_t answer;
};

struct reader;

/* Opens a file. This and the functions below end the program with a message if the file is not as it must be. */
struct reader *open_calls(const char *path);

/* Reads the next call; 0 at the end of the file. The call lasts until free_call. */
int next_call(struct reader *reader, struct call *call);
void free_call(struct call *call);

/* Says what is wrong at the line that was read last, and ends the program. */
void malformed(const struct reader *reader, const char *what);

void close_calls(struct reader *reader);

/* Memory that is there, or the end of the program. */
void *allocate(size_t size);

/* The next byte of noise; x is not 0. */
unsigned char noise(uint64_t *x);

#endif
