/*
 * Picnic signatures, sets picnic-L1-FS, picnic-L3-FS and picnic-L5-FS, for C and C++ hosts.
 *
 * What a host must know:
 *
 * - Slices. A byte slice is two arguments, a pointer and then a length in bytes. A slice of length 0 is never read or
 *   written, so its pointer may be any.
 * - Overlap. A slice that a call writes (a pointer to bytes that are not const) must overlap no other slice of the call.
 *   The library cannot see this; it is the host's to keep.
 * - Answers. Each call answers one 64-bit number: the refusal in its upper half, the bytes written in its lower. A
 *   refusal other than PICNIC_FINE has 0 in its lower half. A call has one answer for every input: the first refusal
 *   that holds, in rising number unless the call says otherwise.
 * - Outputs. A call with an output fills its start and keeps what follows; a refusal keeps all of it.
 * - Signatures are those of Picnic 2.1 as its reference implementation has them: over the tables of the LowMC reference, a
 *   program that follows it accepts what picnic_sign writes, and picnic_verify accepts what that program signs.
 * - A call asks nothing of the host beforehand but valid slices. It keeps no state, takes no memory, and is safe to make
 *   from several threads on slices that are not shared.
 *
 * The lengths below are in bytes.
 */
#ifndef PICNIC_H
#define PICNIC_H

#include <stddef.h>
#include <stdint.h>

#ifdef __cplusplus
extern "C" {
#endif

/* The interface's number, raised whenever the arguments of a call or the meaning of its answer change. CHANGES.md, in the
   library's sources, says what changed with each. A header without a number is older than the first. */
#define PICNIC_INTERFACE 1

/* The two halves of an answer. */
#define PICNIC_REFUSAL(answer) ((uint32_t)((uint64_t)(answer) >> 32))
#define PICNIC_LENGTH(answer) ((uint32_t)((uint64_t)(answer) & 0xffffffffu))

/* Sets. */
#define PICNIC_L1_FS 1
#define PICNIC_L3_FS 2
#define PICNIC_L5_FS 3

/* Refusals. A call answers the first that holds. */
#define PICNIC_FINE 0     /* done, or valid */
#define PICNIC_NO_SET 1   /* the set is not 1, 2 or 3 */
#define PICNIC_TABLE 2    /* a table has another length */
#define PICNIC_KEY 3      /* a key or block has another length */
#define PICNIC_MESSAGE 4  /* the message is empty or longer than PICNIC_MESSAGE_MOST */
#define PICNIC_LIMIT 5    /* the block limit is 0 or above PICNIC_LIMIT_MOST */
#define PICNIC_ROOM 6     /* room or an output too short, seeds of a wrong length, or a hash output too long */
#define PICNIC_PAIR 7     /* the secret key and the public key do not belong together */
#define PICNIC_BLOCKS 8   /* fewer than T challenge values in the allowed blocks */
#define PICNIC_WRONG_LENGTH 9 /* the length of a signature or an unpacked form is wrong */
#define PICNIC_HEADER 10  /* a header pair 11, header padding not zero, or an unpacked value over 2 */
#define PICNIC_PADDING 11 /* transcript padding, or a share beside value 0, not zero */
#define PICNIC_DIFFERS 12 /* the signature is not valid */

/* For every set. */
#define PICNIC_SALT 32
#define PICNIC_MESSAGE_MOST 1048576
#define PICNIC_HASH_MOST 1048576
#define PICNIC_LIMIT_MOST 64

/* For each set: challenge values T; a block, a secret key or a share; a public key; a digest; the three lent tables;
   seeds with their salt; working room; the longest signature; the unpacked form. */
#define PICNIC_L1_FS_VALUES 219
#define PICNIC_L1_FS_BLOCK 16
#define PICNIC_L1_FS_PUBLIC 32
#define PICNIC_L1_FS_DIGEST 32
#define PICNIC_L1_FS_KEYS 43008
#define PICNIC_L1_FS_LAYERS 40960
#define PICNIC_L1_FS_CONSTANTS 320
#define PICNIC_L1_FS_SEEDS 10544
#define PICNIC_L1_FS_ROOM 31536
#define PICNIC_L1_FS_SIGNATURE 34032
#define PICNIC_L1_FS_UNPACKED 34196

#define PICNIC_L3_FS_VALUES 329
#define PICNIC_L3_FS_BLOCK 24
#define PICNIC_L3_FS_PUBLIC 48
#define PICNIC_L3_FS_DIGEST 48
#define PICNIC_L3_FS_KEYS 142848
#define PICNIC_L3_FS_LAYERS 138240
#define PICNIC_L3_FS_CONSTANTS 720
#define PICNIC_L3_FS_SEEDS 23720
#define PICNIC_L3_FS_ROOM 71064
#define PICNIC_L3_FS_SIGNATURE 76772
#define PICNIC_L3_FS_UNPACKED 77018

#define PICNIC_L5_FS_VALUES 438
#define PICNIC_L5_FS_BLOCK 32
#define PICNIC_L5_FS_PUBLIC 64
#define PICNIC_L5_FS_DIGEST 64
#define PICNIC_L5_FS_KEYS 319488
#define PICNIC_L5_FS_LAYERS 311296
#define PICNIC_L5_FS_CONSTANTS 1216
#define PICNIC_L5_FS_SEEDS 42080
#define PICNIC_L5_FS_ROOM 126144
#define PICNIC_L5_FS_SIGNATURE 132856
#define PICNIC_L5_FS_UNPACKED 133184

/*
 * Calls.
 *
 * | call              | refusals      | writes                                           | answers                |
 * |-------------------|---------------|--------------------------------------------------|------------------------|
 * | picnic_hash       | 1 6           | the whole output: SHAKE of input, with no prefix | the output's length    |
 * | picnic_encrypt    | 1 2 3 6       | LowMC of the block under the secret key          | PICNIC_.._BLOCK        |
 * | picnic_public_key | 1 2 3 6       | the public key: that, then the block             | PICNIC_.._PUBLIC       |
 * | picnic_seeds      | 1 3 4 6       | the seeds and the salt that a signer derives     | PICNIC_.._SEEDS        |
 * | picnic_challenge  | 1 5 6 8       | the values of a challenge, one a byte            | PICNIC_.._VALUES       |
 * | picnic_read       | 1 6 9 10 9 11 | the unpacked form of a signature                 | PICNIC_.._UNPACKED     |
 * | picnic_write      | 1 6 9 10 11   | the signature of an unpacked form                | the signature's length |
 * | picnic_sign       | 1 to 8        | the signature of a message                       | the signature's length |
 * | picnic_verify     | 1 to 6, 9 10  | nothing but the room                             | 0                      |
 * |                   | 9 11, 8 12    |                                                  |                        |
 */

/* SHAKE128 for set 1, SHAKE256 for sets 2 and 3. Input of any length; refusal 6 for an output longer than
   PICNIC_HASH_MOST. */
uint64_t picnic_hash(uint64_t set, const uint8_t *input, size_t input_length, uint8_t *output, size_t output_length);

/* LowMC over lent tables: key matrices, layer matrices and round constants of exactly PICNIC_.._KEYS, PICNIC_.._LAYERS
   and PICNIC_.._CONSTANTS bytes, each matrix row by row, bit 0 the highest bit of byte 0. The secret key and the
   plaintext block have PICNIC_.._BLOCK bytes; the output holds at least what is written. */
uint64_t picnic_encrypt(uint64_t set, const uint8_t *keys, size_t keys_length, const uint8_t *layers,
                        size_t layers_length, const uint8_t *constants, size_t constants_length, const uint8_t *secret,
                        size_t secret_length, const uint8_t *block, size_t block_length, uint8_t *output,
                        size_t output_length);
uint64_t picnic_public_key(uint64_t set, const uint8_t *keys, size_t keys_length, const uint8_t *layers,
                           size_t layers_length, const uint8_t *constants, size_t constants_length,
                           const uint8_t *secret, size_t secret_length, const uint8_t *block, size_t block_length,
                           uint8_t *output, size_t output_length);

/* Seeds for signing one message, from the secret key, the public key and the message. The output holds at least
   PICNIC_.._SEEDS bytes: the seed of round t and party j starts at (3 t + j) times the width of a seed; the salt is
   last. */
uint64_t picnic_seeds(uint64_t set, const uint8_t *secret, size_t secret_length, const uint8_t *public_key,
                      size_t public_length, const uint8_t *message, size_t message_length, uint8_t *output,
                      size_t output_length);

/* The first PICNIC_.._VALUES values of the challenge of input, each 0, 1 or 2, from at most limit blocks, 1 to
   PICNIC_LIMIT_MOST. Input of any length. Refusal 8 where the allowed blocks give fewer. */
uint64_t picnic_challenge(uint64_t set, const uint8_t *input, size_t input_length, uint64_t limit, uint8_t *output,
                          size_t output_length);

/* The unpacked form of a signature: PICNIC_.._VALUES values, one a byte; the salt; then for each round, in slots of one
   length, commitment, transcript, two seeds, and an input share, which is zeros beside value 0. The output holds at
   least PICNIC_.._UNPACKED bytes. Refused in this order: 9 for a signature shorter than its header and salt, 10, 9 for
   any other length than the header asks for, 11. */
uint64_t picnic_read(uint64_t set, const uint8_t *signature, size_t signature_length, uint8_t *output,
                     size_t output_length);

/* The signature of an unpacked form. Reading it gives the same form back. The output holds at least
   PICNIC_.._SIGNATURE bytes, however short the signature is. */
uint64_t picnic_write(uint64_t set, const uint8_t *unpacked, size_t unpacked_length, uint8_t *output,
                      size_t output_length);

/* Signs a message of 1 to PICNIC_MESSAGE_MOST bytes under a secret key. The public key is its ciphertext, then its
   plaintext block: refusal 7 if they are no pair. Limit: at most so many blocks of the challenge are read, 1 to
   PICNIC_LIMIT_MOST; refusal 8 if they give too few values. The seeds, PICNIC_.._SEEDS bytes, are random or from
   picnic_seeds, and never used for two messages; they and the secret key stay secret. The room holds at least
   PICNIC_.._ROOM bytes; so many of them are zero after an answer of 0 or 8. The output holds at least
   PICNIC_.._SIGNATURE bytes, however short the signature is; with 8 it is kept. */
uint64_t picnic_sign(uint64_t set, const uint8_t *keys, size_t keys_length, const uint8_t *layers, size_t layers_length,
                     const uint8_t *constants, size_t constants_length, const uint8_t *secret, size_t secret_length,
                     const uint8_t *public_key, size_t public_length, const uint8_t *message, size_t message_length,
                     uint64_t limit, const uint8_t *seeds, size_t seeds_length, uint8_t *room, size_t room_length,
                     uint8_t *output, size_t output_length);

/* Verifies the signature of a message under a public key: 0 if it is valid, 12 if the challenge recomputed from it is
   another. Limit and room as for signing; a limit no smaller than the signer's never turns a valid signature away. The
   room's PICNIC_.._ROOM bytes are zero after an answer of 0, 8 or 12. Refused in this order: 1 to 6; 9 for a signature
   shorter than its header and salt, 10, 9 for any other length than the header asks for, 11; 8, 12. */
uint64_t picnic_verify(uint64_t set, const uint8_t *keys, size_t keys_length, const uint8_t *layers,
                       size_t layers_length, const uint8_t *constants, size_t constants_length,
                       const uint8_t *public_key, size_t public_length, const uint8_t *message, size_t message_length,
                       uint64_t limit, uint8_t *room, size_t room_length, const uint8_t *signature,
                       size_t signature_length);

#ifdef __cplusplus
}
#endif

#endif
