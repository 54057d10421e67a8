/* The main job: signs a package, verifies the signature, and shows what a verifier refuses: demo PACKAGE. The exit status is 0
   only if every call answers as it should. */
#include <stdio.h>
#include <stdlib.h>

#include "draw.h"
#include "files.h"
#include "names.h"
#include "picnic.h"

enum {
    SET = PICNIC_L1_FS,
    BLOCK = PICNIC_L1_FS_BLOCK,
    PUBLIC = PICNIC_L1_FS_PUBLIC,
    KEYS = PICNIC_L1_FS_KEYS,
    LAYERS = PICNIC_L1_FS_LAYERS,
    CONSTANTS = PICNIC_L1_FS_CONSTANTS,
    SEEDS = PICNIC_L1_FS_SEEDS,
    ROOM = PICNIC_L1_FS_ROOM,
    SIGNATURE = PICNIC_L1_FS_SIGNATURE,
    HEADER = (2 * PICNIC_L1_FS_VALUES + 7) / 8 /* a signature starts with its challenge values, two bits each */
};

/* The library takes no memory: whatever it reads or writes is the host's. Here are the tables, which everyone has; */
static uint8_t tables[KEYS + LAYERS + CONSTANTS];
/* what the maker of packages keeps; */
static uint8_t secret[BLOCK], seeds[SEEDS];
/* what goes to whoever loads the package; */
static uint8_t public_key[PUBLIC], package[PICNIC_MESSAGE_MOST + 1], signature[SIGNATURE];
static size_t package_length, signature_length;
/* and working room, for signing and for verifying. */
static uint8_t room[ROOM];

/* The tables as three slices. */
#define TABLES tables, KEYS, tables + KEYS, LAYERS, tables + KEYS + LAYERS, CONSTANTS

static void fail(const char *what)
{
    fprintf(stderr, "demo: %s\n", what);
    exit(1);
}

static void print_answer(FILE *file, uint64_t answer)
{
    uint32_t number = PICNIC_REFUSAL(answer);
    const struct refusal *refusal = refusal_of(number);

    fprintf(file, "%lu, %s, %s\n", (unsigned long)number, refusal->name, refusal->meaning);
}

/* A call that fills an output must not refuse, and must have written so many bytes. */
static void check_written(const char *call, uint64_t answer, uint64_t length)
{
    if (PICNIC_REFUSAL(answer) != PICNIC_FINE) {
        fprintf(stderr, "demo: %s refuses: ", call);
        print_answer(stderr, answer);
        exit(1);
    }
    if (answer != length) {
        fprintf(stderr, "demo: %s wrote another length than it should\n", call);
        exit(1);
    }
}

/* There is a byte of room behind the longest package, so a file that is longer is seen to be. That a package is too long or
   empty is left to the library to say. */
static void read_package(const char *path)
{
    if (!read_file(path, package, sizeof package, &package_length))
        fail("the package cannot be read");
}

/* The secret key and the plaintext block are random; the public key follows from them. */
static void make_keys(void)
{
    uint8_t block[BLOCK];

    if (!fill_with_random(secret, BLOCK) || !fill_with_random(block, BLOCK))
        fail("the system has no random bytes");
    check_written("picnic_public_key",
                  picnic_public_key(SET, TABLES, secret, BLOCK, block, BLOCK, public_key, PUBLIC), PUBLIC);
    printf("Keys       a secret key of %d bytes, a public key of %d bytes\n", BLOCK, PUBLIC);
}

/* The seeds are derived from the secret key and the package, not random: so no two packages get the same seeds, whatever the
   system's random bytes are worth by then, and signing a package again gives the same signature. How long that is follows from
   the challenge, so only the answer says. */
static void sign(void)
{
    uint64_t answer;

    check_written("picnic_seeds", picnic_seeds(SET, secret, BLOCK, public_key, PUBLIC, package, package_length, seeds, SEEDS),
                  SEEDS);
    printf("Package    %lu bytes\n", (unsigned long)package_length);
    answer = picnic_sign(SET, TABLES, secret, BLOCK, public_key, PUBLIC, package, package_length, PICNIC_LIMIT_MOST, seeds,
                         SEEDS, room, ROOM, signature, SIGNATURE);
    check_written("picnic_sign", answer, PICNIC_LENGTH(answer));
    forget(seeds, SEEDS);
    forget(secret, BLOCK);
    signature_length = PICNIC_LENGTH(answer);
    printf("Signature  %lu bytes\n", (unsigned long)signature_length);
}

/* Verifies the signature in one state of things, and prints the answer. It must have the refusal that is expected. */
static void verify(const char *state, uint64_t expected)
{
    uint64_t answer = picnic_verify(SET, TABLES, public_key, PUBLIC, package, package_length, PICNIC_LIMIT_MOST, room, ROOM,
                                    signature, signature_length);

    printf("  %-44s ", state);
    print_answer(stdout, answer);
    if (answer != expected << 32) {
        fflush(stdout);
        fprintf(stderr, "demo: the answer should have been ");
        print_answer(stderr, expected << 32);
        exit(1);
    }
}

/* Each damage is taken back before the next. */
static void show_refusals(void)
{
    package[package_length / 2] ^= 1;
    verify("one byte of the package changed", PICNIC_DIFFERS);
    package[package_length / 2] ^= 1;

    signature[HEADER - 1] ^= 1;
    verify("a padding bit of the signature's header set", PICNIC_HEADER);
    signature[HEADER - 1] ^= 1;

    signature_length--;
    verify("the signature's last byte cut off", PICNIC_WRONG_LENGTH);
    signature_length++;
}

int main(int argc, char **argv)
{
    if (argc != 2) {
        fprintf(stderr, "usage: demo PACKAGE\n");
        return 2;
    }
    read_package(argv[1]);
    draw_tables(SET, tables);
    printf("Set        %d, picnic-L1-FS\n", SET);
    make_keys();
    sign();
    printf("\nVerifying answers:\n");
    verify("package and signature as they are", PICNIC_FINE);
    show_refusals();
    printf("\nEverything was as expected.\n");
    return fflush(stdout) != 0;
}
