/* The library as a command: tables, keys, signing, verifying and reading, on files. The exit status is 0 for done or valid, 1
   for what the library refuses, and 2 for bad usage and for files that cannot be read or written. */
#include <stdio.h>
#include <stdlib.h>
#include <string.h>

#include "jobs.h"
#include "picnic.h"

static const struct command {
    const char *name;
    void (*run)(const struct job *job);
    int takes_tables, file_count;
    const char *files, *does;
} commands[] = {
    { "tables", run_tables, 0, 1, "OUT", "writes the LowMC tables of the set" },
    { "keygen", run_keygen, 1, 2, "SECRET PUBLIC", "makes a secret key, in a new file, and its public key" },
    { "public", run_public, 1, 2, "SECRET PUBLIC", "writes the public key of a secret key" },
    { "sign", run_sign, 1, 3, "SECRET MESSAGE SIGNATURE", "signs a message" },
    { "verify", run_verify, 1, 3, "PUBLIC MESSAGE SIGNATURE", "verifies the signature of a message" },
    { "read", run_read, 0, 2, "SIGNATURE UNPACKED", "writes the unpacked form of a signature" },
};

enum { COMMANDS = sizeof commands / sizeof commands[0] };

static void print_usage(FILE *out, const struct command *command)
{
    fprintf(out, "picnic %s --set N %s%s\n", command->name, command->takes_tables ? "[--tables FILE] " : "", command->files);
}

/* Says what is wrong with the command line, and what it should be: of one command, or of each if that is not known. */
static void reject(const struct command *command, const char *what, const char *word)
{
    int i;

    fprintf(stderr, "picnic: %s%s\nusage:\n", what, word);
    for (i = 0; i < COMMANDS; i++)
        if (command == NULL || command == &commands[i])
            print_usage(stderr, &commands[i]);
    exit(BAD);
}

/* The exit status if nothing went wrong: what was printed must have gone out whole. */
static int status(void)
{
    return fflush(stdout) == 0 ? 0 : BAD;
}

static void help(void)
{
    int i;

    for (i = 0; i < COMMANDS; i++) {
        print_usage(stdout, &commands[i]);
        printf("    %s\n", commands[i].does);
    }
    printf("picnic help\n    prints this text\n"
           "picnic --version\n    prints the version and the number of the library's interface\n\n"
           "The set N is 1, 2 or 3, or by its name picnic-L1-FS, picnic-L3-FS or picnic-L5-FS. The tables are drawn anew,\n"
           "or read from a file that picnic tables wrote. The exit status is 0 for done or valid, 1 for what the library\n"
           "refuses, 2 for bad usage and for files that cannot be read or written.\n");
    exit(status());
}

static const struct command *find_command(const char *word)
{
    int i;

    for (i = 0; i < COMMANDS; i++)
        if (strcmp(commands[i].name, word) == 0)
            return &commands[i];
    reject(NULL, "there is no command ", word);
    return NULL;
}

/* Takes an option and the word behind it. */
static void take_option(const struct command *command, struct job *job, char **words)
{
    if (strcmp(words[0], "--help") == 0)
        help();
    if (words[1] == NULL)
        reject(command, "nothing stands behind ", words[0]);
    if (strcmp(words[0], "--set") == 0) {
        job->set = find_set(words[1]);
        if (job->set == NULL)
            reject(command, "there is no set ", words[1]);
    } else if (strcmp(words[0], "--tables") == 0 && command->takes_tables) {
        job->tables = words[1];
    } else {
        reject(command, "there is no such option here: ", words[0]);
    }
}

static void take_file(const struct command *command, struct job *job, const char *word)
{
    if (job->file_count == command->file_count)
        reject(command, "there is a file too many: ", word);
    job->files[job->file_count++] = word;
}

/* Takes what comes behind the command's name. Behind the word -- everything is a file. */
static void take_words(const struct command *command, struct job *job, char **words)
{
    int options = 1;

    while (*words != NULL)
        if (options && strcmp(*words, "--") == 0) {
            options = 0;
            words++;
        } else if (options && **words == '-') {
            take_option(command, job, words);
            words += 2;
        } else {
            take_file(command, job, *words++);
        }
    if (job->set == NULL)
        reject(command, "the set is missing", "");
    if (job->file_count < command->file_count)
        reject(command, "a file is missing", "");
}

int main(int argc, char **argv)
{
    const char *word = argc > 1 ? argv[1] : "";
    const struct command *command;
    struct job job = { NULL, NULL, { NULL }, 0 };

    if (strcmp(word, "help") == 0 || strcmp(word, "--help") == 0)
        help();
    if (strcmp(word, "--version") == 0) {
        printf("picnic " VERSION ", interface %d\n", PICNIC_INTERFACE);
        return status();
    }
    if (argc < 2)
        reject(NULL, "the command is missing", "");
    command = find_command(word);
    take_words(command, &job, argv + 2);
    command->run(&job);
    return status();
}
