/* What the command does with files. */
#include "jobs.h"

#include <errno.h>
#include <stdio.h>
#include <stdlib.h>
#include <string.h>

#include "draw.h"
#include "files.h"
#include "names.h"
#include "picnic.h"

/* What is lent to the library, with room for the largest set. What comes from a file has a byte more, so that a file that is
   too long is seen to be; to refuse it is left to the library. */
static uint8_t tables[PICNIC_L5_FS_KEYS + PICNIC_L5_FS_LAYERS + PICNIC_L5_FS_CONSTANTS + 1];
static uint8_t public_key[PICNIC_L5_FS_PUBLIC + 1], message[PICNIC_MESSAGE_MOST + 1], signature[PICNIC_L5_FS_SIGNATURE + 1];
static uint8_t room[PICNIC_L5_FS_ROOM], unpacked[PICNIC_L5_FS_UNPACKED];
static size_t tables_length, public_length, message_length, signature_length;

/* The secrets. The file of a secret key has the plaintext block behind the key. */
static struct {
    uint8_t file[2 * PICNIC_L5_FS_BLOCK + 1], seeds[PICNIC_L5_FS_SEEDS];
} secrets;
static size_t secret_length;

static void clear_secrets(void)
{
    forget(&secrets, sizeof secrets);
}

/* How many bytes of a file are in the part that starts at a place and should have the given length. The last part of a file has
   all that is left. */
static size_t in_part(size_t length, size_t start, size_t should)
{
    size_t left = length > start ? length - start : 0;

    return left < should ? left : should;
}

static size_t in_last_part(size_t length, size_t start)
{
    return in_part(length, start, (size_t)-1);
}

/* The tables, and the two halves of a secret file, as slices. */
#define TABLES(set)                                                                                                            \
    tables, in_part(tables_length, 0, (set)->keys), tables + (set)->keys, in_part(tables_length, (set)->keys, (set)->layers),  \
        tables + (set)->keys + (set)->layers, in_last_part(tables_length, (set)->keys + (set)->layers)
#define SECRET(set) secrets.file, in_part(secret_length, 0, (set)->block)
#define BLOCK(set) secrets.file + (set)->block, in_last_part(secret_length, (set)->block)

/* Says what is wrong with a file. */
static void blame(const char *path, const char *reason)
{
    fprintf(stderr, "picnic: %s: %s\n", path, reason);
}

static void get(const char *path, uint8_t *bytes, size_t longest, size_t *length)
{
    if (!read_file(path, bytes, longest + 1, length)) {
        blame(path, strerror(errno));
        exit(BAD);
    }
}

/* Whether the last file is one of the others too: a slip on the command line must not cost a key. */
static int is_last_another(const struct job *job)
{
    const char *last = job->files[job->file_count - 1];
    int i;

    for (i = 0; i < job->file_count - 1; i++)
        if (is_same_file(job->files[i], last))
            return 1;
    return job->tables != NULL && is_same_file(job->tables, last);
}

/* Writes the last file. Says whether it could. */
static int put(const struct job *job, const uint8_t *bytes, size_t length)
{
    const char *path = job->files[job->file_count - 1];

    if (is_last_another(job))
        blame(path, "is named twice, and is not written over");
    else if (!write_file(path, bytes, length))
        blame(path, strerror(errno));
    else
        return 1;
    return 0;
}

static void put_or_end(const struct job *job, const uint8_t *bytes, size_t length)
{
    if (!put(job, bytes, length))
        exit(BAD);
}

/* The length in an answer. A refusal ends the program. */
static size_t done(uint64_t answer)
{
    uint32_t number = PICNIC_REFUSAL(answer);

    if (number != PICNIC_FINE) {
        fprintf(stderr, "picnic: %lu %s: %s\n", (unsigned long)number, refusal_of(number)->name, refusal_of(number)->meaning);
        exit(REFUSED);
    }
    return PICNIC_LENGTH(answer);
}

static void lend_tables(const struct job *job)
{
    size_t length = job->set->keys + job->set->layers + job->set->constants;

    if (job->tables != NULL) {
        get(job->tables, tables, length, &tables_length);
    } else {
        draw_tables(job->set->number, tables);
        tables_length = length;
    }
}

/* Before there is a secret in memory, it is seen to that it does not stay there. */
static void expect_secrets(void)
{
    if (atexit(clear_secrets) != 0)
        exit(BAD);
}

static void get_secret(const struct job *job)
{
    expect_secrets();
    get(job->files[0], secrets.file, 2 * job->set->block, &secret_length);
}

/* The public key of the secret one and the block. */
static void find_public_key(const struct job *job)
{
    const struct set *set = job->set;

    lend_tables(job);
    public_length = done(picnic_public_key(set->number, TABLES(set), SECRET(set), BLOCK(set), public_key, set->public_key));
}

void run_tables(const struct job *job)
{
    lend_tables(job);
    put_or_end(job, tables, tables_length);
}

static void make_secret(const struct job *job)
{
    expect_secrets();
    secret_length = 2 * job->set->block;
    if (!fill_with_random(secrets.file, secret_length)) {
        blame("the system's random bytes", strerror(errno));
        exit(BAD);
    }
}

/* Either both files are there afterwards, or neither. */
void run_keygen(const struct job *job)
{
    make_secret(job);
    find_public_key(job);
    if (!write_secret_file(job->files[0], secrets.file, secret_length)) {
        blame(job->files[0], strerror(errno));
        exit(BAD);
    }
    if (!put(job, public_key, public_length)) {
        remove(job->files[0]);
        exit(BAD);
    }
}

void run_public(const struct job *job)
{
    get_secret(job);
    find_public_key(job);
    put_or_end(job, public_key, public_length);
}

/* The seeds are derived, not random: so no two messages get the same seeds, and signing again gives the same signature. */
void run_sign(const struct job *job)
{
    const struct set *set = job->set;

    get_secret(job);
    get(job->files[1], message, PICNIC_MESSAGE_MOST, &message_length);
    find_public_key(job);
    done(picnic_seeds(set->number, SECRET(set), public_key, public_length, message, message_length, secrets.seeds, set->seeds));
    signature_length = done(picnic_sign(set->number, TABLES(set), SECRET(set), public_key, public_length, message,
                                        message_length, PICNIC_LIMIT_MOST, secrets.seeds, set->seeds, room, set->room,
                                        signature, set->signature));
    put_or_end(job, signature, signature_length);
}

void run_verify(const struct job *job)
{
    const struct set *set = job->set;

    get(job->files[0], public_key, set->public_key, &public_length);
    get(job->files[1], message, PICNIC_MESSAGE_MOST, &message_length);
    get(job->files[2], signature, set->signature, &signature_length);
    lend_tables(job);
    done(picnic_verify(set->number, TABLES(set), public_key, public_length, message, message_length, PICNIC_LIMIT_MOST, room,
                       set->room, signature, signature_length));
    puts("valid");
}

void run_read(const struct job *job)
{
    const struct set *set = job->set;
    size_t length;

    get(job->files[0], signature, set->signature, &signature_length);
    length = done(picnic_read(set->number, signature, signature_length, unpacked, set->unpacked));
    put_or_end(job, unpacked, length);
}
