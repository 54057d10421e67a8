/* Lays out the slices of a call, and checks them after it. */
#include "slices.h"

#include <stdio.h>
#include <stdlib.h>
#include <string.h>

enum { GUARD = 64, MOST_OFF = 15, PERIOD = 256 };

/* The pattern's byte at place i of the block. It follows from how far that is from the slice's start, so that a slice has the
   same pattern, or the same turned, wherever it lies; and it repeats after a period. */
static unsigned char pattern(const struct slice *slice, size_t i)
{
    return (unsigned char)(((i - slice->place) * 29 + 17) ^ slice->mask);
}

/* Paints a part of the block with the pattern: the first period by its bytes, the others as copies. */
static void paint(const struct slice *slice, size_t from, size_t to)
{
    size_t i, length;

    for (i = from; i < to && i - from < PERIOD; i++)
        slice->block[i] = pattern(slice, i);
    for (; i < to; i += length) {
        length = to - i < PERIOD ? to - i : PERIOD;
        memcpy(slice->block + i, slice->block + i - PERIOD, length);
    }
}

/* Whether a part of the block is the pattern: the first period by its bytes, and each other byte as the one a period before. */
static int is_painted(const struct slice *slice, size_t from, size_t to)
{
    size_t i;

    for (i = from; i < to && i - from < PERIOD; i++)
        if (slice->block[i] != pattern(slice, i))
            return 0;
    return memcmp(slice->block + from, slice->block + i, to - i) == 0;
}

static uint8_t *empty_pointer(unsigned char *place, enum empty empty)
{
    switch (empty) {
    case AT_ONE:
        return (uint8_t *)1;
    case NULL_POINTER:
        return NULL;
    default:
        return place;
    }
}

void place_slice(struct slice *slice, const struct argument *argument, size_t off, unsigned char mask, enum empty empty)
{
    size_t held = argument->kind == INPUT ? argument->length : 0; /* bytes that the slice has before the call */

    slice->length = argument->length;
    slice->place = GUARD + off;
    slice->size = GUARD + MOST_OFF + slice->length + GUARD;
    slice->block = allocate(slice->size);
    slice->start = slice->block + slice->place;
    slice->expected = &argument->bytes;
    slice->mask = mask;
    paint(slice, 0, slice->place);
    memcpy(slice->start, argument->bytes.start, held);
    paint(slice, slice->place + held, slice->size);
    if (slice->length == 0)
        slice->start = empty_pointer(slice->start, empty);
}

/* What must stand at place i of the block. */
static unsigned char wanted(const struct slice *slice, size_t i)
{
    if (i >= slice->place && i - slice->place < slice->expected->length)
        return slice->expected->start[i - slice->place];
    return pattern(slice, i);
}

static int is_as_wanted(const struct slice *slice)
{
    size_t length = slice->expected->length;

    return is_painted(slice, 0, slice->place) &&
           memcmp(slice->block + slice->place, slice->expected->start, length) == 0 &&
           is_painted(slice, slice->place + length, slice->size);
}

/* Says where a byte of the block lies, as the call sees it. */
static void print_place(const struct slice *slice, size_t i)
{
    size_t end = slice->place + slice->length;

    if (i < slice->place)
        printf("%lu bytes before it", (unsigned long)(slice->place - i));
    else if (i >= end)
        printf("%lu bytes behind it", (unsigned long)(i - end + 1));
    else
        printf("byte %lu", (unsigned long)(i - slice->place));
}

int check_slice(const struct slice *slice, const char *label, int number)
{
    size_t i = 0;

    if (is_as_wanted(slice))
        return 1;
    while (slice->block[i] == wanted(slice, i))
        i++;
    printf("%s: argument %d, %lu bytes long: ", label, number, (unsigned long)slice->length);
    print_place(slice, i);
    printf(" is %02x, not %02x\n", slice->block[i], wanted(slice, i));
    return 0;
}

void free_slice(struct slice *slice)
{
    free(slice->block);
}
