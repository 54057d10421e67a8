/* Times one thing that the library does: bench-call WHAT SET TURNS TIMES FILE. The file has the key matrices, the layer
   matrices and the round constants of the set. A turn does the thing so many times. Prints the nanoseconds of one time in the
   quickest turn, and what came of the last in hex, which `second bench WHAT SET TURNS TIMES` has too if it did the same work. */
#include <stdio.h>
#include <stdlib.h>
#include <string.h>

#include "picnic.h"
#include "timing.h"

enum { MOST_TURNS = 10000, HASHED = 1048576, DIGEST = 32, MARK = 16 };

/* The lengths of each set, and the rate of its hash. */
#define SET(set, rate)                                                                                                 \
    {                                                                                                                  \
        PICNIC_##set, rate, PICNIC_##set##_BLOCK, PICNIC_##set##_KEYS, PICNIC_##set##_LAYERS, PICNIC_##set##_CONSTANTS, \
            PICNIC_##set##_SEEDS, PICNIC_##set##_ROOM, PICNIC_##set##_SIGNATURE                                        \
    }

static const struct set {
    uint64_t number;
    size_t rate, block, keys, layers, constants, seeds, room, signature;
} sets[] = { SET(L1_FS, 168), SET(L3_FS, 136), SET(L5_FS, 136) };

/* The set, and its tables. */
static const struct set *set;
static uint8_t tables[PICNIC_L5_FS_KEYS + PICNIC_L5_FS_LAYERS + PICNIC_L5_FS_CONSTANTS + 1];

#define TABLES                                                                                                         \
    tables, set->keys, tables + set->keys, set->layers, tables + set->keys + set->layers, set->constants

/* The secret key and the plaintext block: those of the published vectors. */
static uint8_t secret[PICNIC_L5_FS_BLOCK] = { 0x80 }, block[PICNIC_L5_FS_BLOCK] = { 0xab, 0xff };

/* What came of the last time. */
static uint8_t last[DIGEST];
static size_t last_length;

static void find_set(const char *number)
{
    size_t i;
    for (i = 0; i < sizeof sets / sizeof sets[0]; i++)
        if (sets[i].number == strtoul(number, NULL, 10))
            set = &sets[i];
    if (set == NULL)
        fail("there is no such set");
}

static unsigned long number_up_to(const char *text, unsigned long most)
{
    unsigned long number = strtoul(text, NULL, 10);
    if (number == 0 || number > most)
        fail("a number is 0 or too large");
    return number;
}

static void read_tables(const char *path)
{
    FILE *file = fopen(path, "rb");
    if (file == NULL || fread(tables, 1, sizeof tables, file) != set->keys + set->layers + set->constants)
        fail("the file does not hold the tables of the set");
    fclose(file);
}

static void check(uint64_t answer, uint64_t expected)
{
    if (answer != expected)
        fail("the library answers something else");
}

/* Hashing a long input, by the permutations that it takes. */
static uint8_t hashed[HASHED];

static void prepare_hash(void)
{
    size_t i;
    for (i = 0; i < HASHED; i++)
        hashed[i] = (uint8_t)(i % 251);
    last_length = DIGEST;
}

static void hash(void)
{
    check(picnic_hash(set->number, hashed, HASHED, last, DIGEST), DIGEST);
}

/* Encrypting, each time what the last time gave. */
static void prepare_encrypt(void)
{
    last_length = set->block;
    memcpy(last, block, set->block);
}

static void encrypt(void)
{
    uint8_t output[PICNIC_L5_FS_BLOCK];
    check(picnic_encrypt(set->number, TABLES, secret, set->block, last, set->block, output, set->block), set->block);
    memcpy(last, output, set->block);
}

/* Signing a message with derived seeds, and verifying the signature. A hash of the signature is what came of it. */
static const uint8_t message[] = "A package of record layouts and call sheets.";
enum { MESSAGE = sizeof message - 1 };
static uint8_t public_key[PICNIC_L5_FS_PUBLIC], seeds[PICNIC_L5_FS_SEEDS], room[PICNIC_L5_FS_ROOM];
static uint8_t signature[PICNIC_L5_FS_SIGNATURE];
static uint64_t length;

static void sign(void)
{
    length = picnic_sign(set->number, TABLES, secret, set->block, public_key, 2 * set->block, message, MESSAGE,
                         PICNIC_LIMIT_MOST, seeds, set->seeds, room, set->room, signature, set->signature);
}

static void verify(void)
{
    check(picnic_verify(set->number, TABLES, public_key, 2 * set->block, message, MESSAGE, PICNIC_LIMIT_MOST, room,
                        set->room, signature, (size_t)length),
          0);
}

static void prepare_sign(void)
{
    check(picnic_public_key(set->number, TABLES, secret, set->block, block, set->block, public_key, 2 * set->block),
          2 * set->block);
    check(picnic_seeds(set->number, secret, set->block, public_key, 2 * set->block, message, MESSAGE, seeds, set->seeds),
          set->seeds);
    sign();
    if (PICNIC_REFUSAL(length) != PICNIC_FINE)
        fail("picnic_sign refuses");
    last_length = MARK;
    check(picnic_hash(set->number, signature, (size_t)length, last, MARK), MARK);
}

/* The things that are timed. */
static const struct task {
    const char *name;
    void (*prepare)(void);
    void (*run)(void);
} tasks[] = {
    { "hash", prepare_hash, hash },
    { "encrypt", prepare_encrypt, encrypt },
    { "sign", prepare_sign, sign },
    { "verify", prepare_sign, verify },
};

static const struct task *find_task(const char *name)
{
    size_t i;
    for (i = 0; i < sizeof tasks / sizeof tasks[0]; i++)
        if (strcmp(tasks[i].name, name) == 0)
            return &tasks[i];
    fail("there is no such thing to time");
    return NULL;
}

static double turn(const struct task *task, unsigned long times)
{
    double start = now();
    unsigned long i;

    for (i = 0; i < times; i++)
        task->run();
    return (now() - start) / (double)times;
}

int main(int argc, char **argv)
{
    const struct task *task;
    unsigned long turns, times;
    double least, parts;
    size_t i;

    if (argc != 6)
        fail("not the arguments WHAT SET TURNS TIMES FILE");
    task = find_task(argv[1]);
    find_set(argv[2]);
    turns = number_up_to(argv[3], MOST_TURNS);
    times = number_up_to(argv[4], 1000000);
    read_tables(argv[5]);
    task->prepare();
    least = turn(task, times);
    for (i = 1; i < turns; i++) {
        double spent = turn(task, times);
        least = spent < least ? spent : least;
    }
    parts = task->run == hash ? (double)(HASHED / set->rate + 1) : 1;
    printf("%.1f ", least / parts);
    for (i = 0; i < last_length; i++)
        printf("%02x", last[i]);
    printf("\n");
    return 0;
}
