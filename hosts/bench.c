/* Times the library's SHAKE128 beside OpenSSL's, in one run. Both are timed in turns, by the processor time that they take,
   and the median counts, so that other work on the machine moves both alike and the ratio little. */
#include <openssl/crypto.h>
#include <openssl/evp.h>
#include <stdio.h>
#include <string.h>

#include "picnic.h"
#include "timing.h"

enum { TURNS = 31, RATE = 168, OUTPUT = 32, LONGEST = 1048576 };

/* What is timed: an input, hashed so many times in one turn that the turn takes some milliseconds. */
static const struct task {
    const char *name;
    size_t length;
    unsigned long times;
} tasks[] = { { "1 MiB", LONGEST, 3 }, { "100 bytes", 100, 10000 } };

static uint8_t input[LONGEST];

/* The answer of a hash goes here. */
static uint8_t output[OUTPUT];

static void library(size_t length)
{
    if (picnic_hash(PICNIC_L1_FS, input, length, output, OUTPUT) != OUTPUT)
        fail("picnic_hash refuses");
}

/* OpenSSL's function and the context that every call uses again. */
static EVP_MD *shake128;
static EVP_MD_CTX *context;

static void openssl(size_t length)
{
    if (!EVP_DigestInit_ex(context, shake128, NULL) || !EVP_DigestUpdate(context, input, length) ||
        !EVP_DigestFinalXOF(context, output, OUTPUT))
        fail("OpenSSL refuses");
}

/* Nanoseconds for each permutation: one for each block that is filled, and one for the last, which the padding fills. */
static double turn(void (*hash)(size_t), const struct task *task)
{
    double permutations = (double)(task->length / RATE + 1) * (double)task->times, start = now();
    unsigned long i;

    for (i = 0; i < task->times; i++)
        hash(task->length);
    return (now() - start) / permutations;
}

static void check_same(size_t length)
{
    uint8_t ours[OUTPUT];
    library(length);
    memcpy(ours, output, OUTPUT);
    openssl(length);
    if (memcmp(ours, output, OUTPUT) != 0)
        fail("the library and OpenSSL differ");
}

static void measure(const struct task *task)
{
    double ours[TURNS], theirs[TURNS], our_median, their_median;
    int i;

    check_same(task->length);
    for (i = 0; i < TURNS; i++) {
        ours[i] = turn(library, task);
        theirs[i] = turn(openssl, task);
    }
    our_median = median(ours, TURNS);
    their_median = median(theirs, TURNS);
    printf("%-12s %10.1f %10.1f %10.2f\n", task->name, our_median, their_median, our_median / their_median);
}

int main(void)
{
    size_t i;

    shake128 = EVP_MD_fetch(NULL, "SHAKE128", NULL);
    context = EVP_MD_CTX_new();
    if (shake128 == NULL || context == NULL)
        fail("OpenSSL has no SHAKE128");
    for (i = 0; i < LONGEST; i++)
        input[i] = (uint8_t)(i % 251);
    printf("SHAKE128 beside %s, ns for each permutation, median of %d\n", OpenSSL_version(OPENSSL_VERSION), TURNS);
    printf("%-12s %10s %10s %10s\n", "input", "library", "OpenSSL", "ratio");
    for (i = 0; i < sizeof tasks / sizeof tasks[0]; i++)
        measure(&tasks[i]);
    EVP_MD_CTX_free(context);
    EVP_MD_free(shake128);
    return 0;
}
