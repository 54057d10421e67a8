/* Files, random bytes, and the clearing of secrets. Nothing is buffered, so no copy of a secret is left behind. What can fail
   says whether it did: 1 for done, 0 for not, and errno has the reason. */
#ifndef FILES_H
#define FILES_H

#include <stddef.h>
#include <stdint.h>

/* Fills bytes from a file, as far as it goes and they reach, and sets how many came. */
int read_file(const char *path, uint8_t *bytes, size_t most, size_t *length);

/* Writes a file, over one that is there. What could not be written whole is removed. */
int write_file(const char *path, const uint8_t *bytes, size_t length);

/* Writes a new file that only its owner can read. One that is there is left as it is. */
int write_secret_file(const char *path, const uint8_t *bytes, size_t length);

/* Whether two paths lead to one file that exists. */
int is_same_file(const char *one, const char *other);

/* Fills bytes, at most 256 of them, with the system's random bytes. */
int fill_with_random(uint8_t *bytes, size_t length);

/* Clears a secret. */
void forget(void *secret, size_t length);

#endif
