/* The library doing jobs as Partner.java does: reads one a line from standard input and answers each with a line. All bytes are
   in lower-case hex.

   keys SET -> SECRET PUBLIC, from random bytes
   public SET SECRET BLOCK -> the public key
   sign SET SECRET PUBLIC MESSAGE -> the signature, with derived seeds
   sign-random SET SECRET PUBLIC MESSAGE -> the signature, with random seeds
   verify SET PUBLIC MESSAGE SIGNATURE -> the refusal's number

   If the library refuses anything but a signature, the answer is the word refused- and the number. */
#include <stdio.h>
#include <stdlib.h>
#include <string.h>

#include "draw.h"
#include "files.h"
#include "picnic.h"
#include "sets.h"

enum {
    SLICES = 3, /* as many as a job has at most */
    AT_ONCE = 256, /* random bytes */
    LINE = 2 * (PICNIC_MESSAGE_MOST + 2 * PICNIC_L5_FS_SIGNATURE)
};

struct slice {
    uint8_t *bytes;
    size_t length;
};

static char line[LINE];
static uint8_t tables[PICNIC_L5_FS_KEYS + PICNIC_L5_FS_LAYERS + PICNIC_L5_FS_CONSTANTS];
static uint8_t seeds[PICNIC_L5_FS_SEEDS], room[PICNIC_L5_FS_ROOM], output[PICNIC_L5_FS_SIGNATURE];

/* The tables of a set, and a slice, as arguments. */
#define TABLES(set)                                                                                                            \
    tables, (set)->keys, tables + (set)->keys, (set)->layers, tables + (set)->keys + (set)->layers, (set)->constants
#define SLICE(slice) (slice).bytes, (slice).length

static void fail(const char *what)
{
    fprintf(stderr, "interop: %s\n", what);
    exit(2);
}

static void print_hex(const uint8_t *bytes, size_t length)
{
    static const char digits[] = "0123456789abcdef";
    size_t i;

    for (i = 0; i < length; i++) {
        putchar(digits[bytes[i] >> 4]);
        putchar(digits[bytes[i] & 15]);
    }
}

/* Prints what a call wrote to the output, or that it refused. */
static void print_output(uint64_t answer)
{
    if (PICNIC_REFUSAL(answer) != PICNIC_FINE)
        printf("refused-%lu", (unsigned long)PICNIC_REFUSAL(answer));
    else
        print_hex(output, PICNIC_LENGTH(answer));
}

static void make_random(uint8_t *bytes, size_t length)
{
    size_t i, part;

    for (i = 0; i < length; i += part) {
        part = length - i < AT_ONCE ? length - i : AT_ONCE;
        if (!fill_with_random(bytes + i, part))
            fail("the system has no random bytes");
    }
}

/* Draws the tables of a set, unless they are there from the job before. */
static void lend_tables(const struct set *set)
{
    static const struct set *drawn;

    if (drawn != set)
        draw_tables(set->number, tables);
    drawn = set;
}

static void answer_public(const struct set *set, const struct slice *slices)
{
    print_output(picnic_public_key(set->number, TABLES(set), SLICE(slices[0]), SLICE(slices[1]), output, set->public_key));
}

static void answer_keys(const struct set *set, const struct slice *none)
{
    uint8_t secret[PICNIC_L5_FS_BLOCK], block[PICNIC_L5_FS_BLOCK];
    struct slice slices[2];

    (void)none;
    make_random(secret, set->block);
    make_random(block, set->block);
    slices[0].bytes = secret;
    slices[1].bytes = block;
    slices[0].length = slices[1].length = set->block;
    print_hex(secret, set->block);
    putchar(' ');
    answer_public(set, slices);
}

static void sign(const struct set *set, const struct slice *slices)
{
    print_output(picnic_sign(set->number, TABLES(set), SLICE(slices[0]), SLICE(slices[1]), SLICE(slices[2]), PICNIC_LIMIT_MOST,
                             seeds, set->seeds, room, set->room, output, set->signature));
}

static void answer_sign(const struct set *set, const struct slice *slices)
{
    uint64_t answer = picnic_seeds(set->number, SLICE(slices[0]), SLICE(slices[1]), SLICE(slices[2]), seeds, set->seeds);

    if (PICNIC_REFUSAL(answer) != PICNIC_FINE)
        print_output(answer);
    else
        sign(set, slices);
}

static void answer_sign_random(const struct set *set, const struct slice *slices)
{
    make_random(seeds, set->seeds);
    sign(set, slices);
}

static void answer_verify(const struct set *set, const struct slice *slices)
{
    uint64_t answer = picnic_verify(set->number, TABLES(set), SLICE(slices[0]), SLICE(slices[1]), PICNIC_LIMIT_MOST, room,
                                    set->room, SLICE(slices[2]));

    printf("%lu", (unsigned long)PICNIC_REFUSAL(answer));
}

static const struct job {
    const char *name;
    int slices;
    void (*answer)(const struct set *set, const struct slice *slices);
} jobs[] = {
    { "keys", 0, answer_keys },
    { "public", 2, answer_public },
    { "sign", 3, answer_sign },
    { "sign-random", 3, answer_sign_random },
    { "verify", 3, answer_verify },
};

static const struct job *find_job(const char *name)
{
    size_t i;

    for (i = 0; i < sizeof jobs / sizeof jobs[0]; i++)
        if (strcmp(jobs[i].name, name) == 0)
            return &jobs[i];
    return NULL;
}

static unsigned digit(char character)
{
    static const char digits[] = "0123456789abcdef";
    const char *found = character == '\0' ? NULL : strchr(digits, character);

    if (found == NULL)
        fail("a word is not in hex");
    return (unsigned)(found - digits);
}

/* The bytes of a word in hex. They take its place, the first half of it. */
static struct slice bytes_of(char *word)
{
    struct slice slice = { (uint8_t *)word, strlen(word) / 2 };
    size_t i;

    if (strlen(word) % 2 != 0)
        fail("a word is not in hex");
    for (i = 0; i < slice.length; i++)
        slice.bytes[i] = (uint8_t)(digit(word[2 * i]) << 4 | digit(word[2 * i + 1]));
    return slice;
}

static char *next_word(char *start)
{
    char *word = strtok(start, " \n");

    if (word == NULL)
        fail("a word is missing");
    return word;
}

/* Does the job in the line. */
static void do_job(void)
{
    struct slice slices[SLICES];
    const struct job *job = find_job(next_word(line));
    const struct set *set = find_set(next_word(NULL));
    int i;

    if (job == NULL || set == NULL)
        fail("there is no such job or no such set");
    for (i = 0; i < job->slices; i++)
        slices[i] = bytes_of(next_word(NULL));
    if (strtok(NULL, " \n") != NULL)
        fail("there is a word too many");
    lend_tables(set);
    job->answer(set, slices);
    putchar('\n');
}

int main(void)
{
    while (fgets(line, sizeof line, stdin) != NULL) {
        if (strchr(line, '\n') == NULL)
            fail("a line is too long, or the last line is not ended");
        do_job();
    }
    return ferror(stdin) || fflush(stdout) != 0 ? 2 : 0;
}
