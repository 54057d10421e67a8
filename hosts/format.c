/* Reads files of calls. */
#include "format.h"

#include <errno.h>
#include <stdio.h>
#include <stdlib.h>
#include <string.h>

/* A byte string that the file defines. */
struct named {
    const char *name;
    struct bytes bytes;
    struct named *next;
};

/* The file is held in memory and cut into words where it stands. */
struct reader {
    const char *path;
    char *text;
    char *rest; /* what has not been read */
    unsigned long line;
    struct named *names;
};

static void stop(const char *path, const char *what)
{
    fprintf(stderr, "%s: %s\n", path, what);
    exit(2);
}

void malformed(const struct reader *reader, const char *what)
{
    fprintf(stderr, "%s:%lu: %s\n", reader->path, reader->line, what);
    exit(2);
}

void *allocate(size_t size)
{
    void *memory = malloc(size == 0 ? 1 : size);
    if (memory == NULL)
        stop("calls", "no memory is left");
    return memory;
}

unsigned char noise(uint64_t *x)
{
    *x ^= *x >> 12;
    *x ^= *x << 25;
    *x ^= *x >> 27;
    return (unsigned char)(*x * UINT64_C(0x2545f4914f6cdd1d) >> 56);
}

static char *read_text(const char *path)
{
    FILE *file = fopen(path, "rb");
    size_t size;
    char *text;

    if (file == NULL || fseek(file, 0, SEEK_END) != 0)
        stop(path, "cannot be read");
    size = (size_t)ftell(file);
    text = allocate(size + 1);
    rewind(file);
    text[fread(text, 1, size, file)] = '\0';
    fclose(file);
    if (strlen(text) != size)
        stop(path, "cannot be read to its end, or has a zero byte");
    return text;
}

struct reader *open_calls(const char *path)
{
    struct reader *reader = allocate(sizeof *reader);
    reader->path = path;
    reader->text = read_text(path);
    reader->rest = reader->text;
    reader->line = 0;
    reader->names = NULL;
    return reader;
}

void close_calls(struct reader *reader)
{
    while (reader->names != NULL) {
        struct named *named = reader->names;
        reader->names = named->next;
        free(named->bytes.start);
        free(named);
    }
    free(reader->text);
    free(reader);
}

/* Cuts off what stands before the next mark; NULL if nothing is left. */
static char *cut(char **rest, char mark)
{
    char *start = *rest, *end;

    if (start == NULL)
        return NULL;
    end = strchr(start, mark);
    if (end != NULL)
        *end++ = '\0';
    *rest = end;
    return start;
}

/* The next line that says something; NULL at the end. */
static char *next_line(struct reader *reader)
{
    char *line;

    do {
        line = cut(&reader->rest, '\n');
        reader->line++;
    } while (line != NULL && (*line == '\0' || *line == '#'));
    return line;
}

/* The next word or field, which must be there and not be empty. */
static char *need(const struct reader *reader, char **rest, char mark)
{
    char *word = cut(rest, mark);
    if (word == NULL || *word == '\0')
        malformed(reader, "something is missing");
    return word;
}

static void need_end(const struct reader *reader, const char *rest)
{
    if (rest != NULL)
        malformed(reader, "something is left over");
}

static uint64_t need_number(const struct reader *reader, char **rest, char mark)
{
    char *word = need(reader, rest, mark), *end;
    int base = strncmp(word, "0x", 2) == 0 ? 16 : 10;
    unsigned long long number;

    errno = 0;
    number = strtoull(word, &end, base);
    if (*word < '0' || *word > '9' || *end != '\0' || errno != 0 || number > UINT64_MAX)
        malformed(reader, "not a number");
    return number;
}

/* A number of bytes, small enough that sums of them are numbers too. */
static size_t need_length(const struct reader *reader, char **rest, char mark)
{
    uint64_t length = need_number(reader, rest, mark);
    if (length > (uint64_t)1 << 30)
        malformed(reader, "too many bytes");
    return (size_t)length;
}

/* Makes a string longer, and says where its new bytes start. */
static unsigned char *lengthen(struct bytes *bytes, size_t more)
{
    unsigned char *longer = allocate(bytes->length + more), *end = longer + bytes->length;
    if (bytes->length != 0)
        memcpy(longer, bytes->start, bytes->length);
    free(bytes->start);
    bytes->start = longer;
    bytes->length += more;
    return end;
}

static int digit(const struct reader *reader, char c)
{
    if (c >= '0' && c <= '9')
        return c - '0';
    if (c >= 'a' && c <= 'f')
        return c - 'a' + 10;
    malformed(reader, "not lower-case hex");
    return 0;
}

static void add_hex(const struct reader *reader, struct bytes *bytes, const char *digits)
{
    size_t i, length = strlen(digits);
    unsigned char *end = lengthen(bytes, length / 2);

    if (length % 2 != 0)
        malformed(reader, "an odd number of hex digits");
    for (i = 0; i < length / 2; i++)
        end[i] = (unsigned char)(16 * digit(reader, digits[2 * i]) + digit(reader, digits[2 * i + 1]));
}

static void add_noise(const struct reader *reader, struct bytes *bytes, uint64_t seed, size_t length)
{
    unsigned char *end = lengthen(bytes, length);
    size_t i;

    if (seed == 0)
        malformed(reader, "noise from the seed 0");
    for (i = 0; i < length; i++)
        end[i] = noise(&seed);
}

static const struct bytes *find(const struct reader *reader, const char *name)
{
    const struct named *named;
    for (named = reader->names; named != NULL; named = named->next)
        if (strcmp(named->name, name) == 0)
            return &named->bytes;
    return NULL;
}

static const struct bytes *need_named(const struct reader *reader, char **rest)
{
    const struct bytes *named = find(reader, need(reader, rest, ':'));
    if (named == NULL)
        malformed(reader, "a name that is not defined");
    return named;
}

static void add_part(const struct reader *reader, struct bytes *bytes, const struct bytes *whole, size_t from,
                     size_t length)
{
    if (from > whole->length || length > whole->length - from)
        malformed(reader, "not a part of the named bytes");
    memcpy(lengthen(bytes, length), whole->start + from, length);
}

static void add_piece(const struct reader *reader, struct bytes *bytes, char *piece)
{
    const char *kind = need(reader, &piece, ':');

    if (strcmp(kind, "hex") == 0) {
        if (piece == NULL)
            malformed(reader, "hex without a colon");
        add_hex(reader, bytes, piece);
        piece = NULL;
    } else if (strcmp(kind, "zeros") == 0) {
        size_t length = need_length(reader, &piece, ':');
        memset(lengthen(bytes, length), 0, length);
    } else if (strcmp(kind, "noise") == 0) {
        uint64_t seed = need_number(reader, &piece, ':');
        add_noise(reader, bytes, seed, need_length(reader, &piece, ':'));
    } else if (strcmp(kind, "named") == 0) {
        const struct bytes *whole = need_named(reader, &piece);
        add_part(reader, bytes, whole, 0, whole->length);
    } else if (strcmp(kind, "part") == 0) {
        const struct bytes *whole = need_named(reader, &piece);
        size_t from = need_length(reader, &piece, ':');
        add_part(reader, bytes, whole, from, need_length(reader, &piece, ':'));
    } else {
        malformed(reader, "not a kind of piece");
    }
    need_end(reader, piece);
}

/* The bytes that the pieces on the rest of a line stand for. */
static struct bytes read_pieces(const struct reader *reader, char *rest)
{
    struct bytes bytes = { NULL, 0 };
    lengthen(&bytes, 0);
    while (rest != NULL)
        add_piece(reader, &bytes, need(reader, &rest, ' '));
    return bytes;
}

static void define(struct reader *reader, char *rest)
{
    struct named *named = allocate(sizeof *named);
    named->name = need(reader, &rest, ' ');
    if (find(reader, named->name) != NULL)
        malformed(reader, "a name that is defined already");
    named->bytes = read_pieces(reader, rest);
    named->next = reader->names;
    reader->names = named;
}

static void add_argument(const struct reader *reader, struct call *call, const char *kind, char *rest)
{
    struct argument *argument = &call->arguments[call->count];

    if (call->count++ == MOST_ARGUMENTS)
        malformed(reader, "too many arguments");
    memset(argument, 0, sizeof *argument);
    if (strcmp(kind, "number") == 0) {
        argument->kind = NUMBER;
        argument->number = need_number(reader, &rest, ' ');
        need_end(reader, rest);
    } else if (strcmp(kind, "input") == 0) {
        argument->kind = INPUT;
        argument->bytes = read_pieces(reader, rest);
        argument->length = argument->bytes.length;
    } else if (strcmp(kind, "written") == 0) {
        argument->kind = WRITTEN;
        argument->length = need_length(reader, &rest, ' ');
        argument->bytes = read_pieces(reader, rest);
        if (argument->bytes.length > argument->length)
            malformed(reader, "more bytes than the slice has");
    } else {
        malformed(reader, "not a kind of argument");
    }
}

/* Reads the lines of a call behind its first, to its answer. */
static void read_arguments(struct reader *reader, struct call *call)
{
    char *line, *word;

    call->count = 0;
    while ((line = next_line(reader)) != NULL) {
        word = need(reader, &line, ' ');
        if (strcmp(word, "answer") == 0) {
            call->answer = need_number(reader, &line, ' ');
            need_end(reader, line);
            return;
        }
        add_argument(reader, call, word, line);
    }
    malformed(reader, "a call without an answer");
}

int next_call(struct reader *reader, struct call *call)
{
    char *line, *word;

    while ((line = next_line(reader)) != NULL) {
        word = need(reader, &line, ' ');
        if (strcmp(word, "define") == 0) {
            define(reader, line);
        } else if (strcmp(word, "call") == 0) {
            call->label = need(reader, &line, ' ');
            call->function = need(reader, &line, ' ');
            need_end(reader, line);
            read_arguments(reader, call);
            return 1;
        } else {
            malformed(reader, "neither a call nor a definition");
        }
    }
    return 0;
}

void free_call(struct call *call)
{
    int i;
    for (i = 0; i < call->count; i++)
        free(call->arguments[i].bytes.start);
}
