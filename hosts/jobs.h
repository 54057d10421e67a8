/* What the command does with files, a function for each of its subcommands. */
#ifndef JOBS_H
#define JOBS_H

#include <stddef.h>
#include <stdint.h>

#include "sets.h"

enum { REFUSED = 1, BAD = 2, MOST_FILES = 3 }; /* two exit statuses, and how many files a subcommand can take */

/* What the command line asks for. The last file is the one that is written, but in verifying. */
struct job {
    const struct set *set;
    const char *tables, *files[MOST_FILES]; /* tables: the file that has them, or NULL to draw them */
    int file_count;
};

/* Each does one job. A refusal of the library, and a file that cannot be read or written, end the program with a message and
   the status 1 or 2; then no file is written. Secrets are cleared however the program ends. */
void run_tables(const struct job *job);
void run_keygen(const struct job *job);
void run_public(const struct job *job);
void run_sign(const struct job *job);
void run_verify(const struct job *job);
void run_read(const struct job *job);

#endif
