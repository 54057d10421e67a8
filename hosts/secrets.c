/* Makes a call twice, first to learn what is public and then with its secrets unknown to memcheck, which reports every branch
   and every address that depends on them: secrets CALL SET TABLES, where the call is encrypt, public_key, seeds or sign, and
   the file has the tables that `second lend SET` writes. */
#include <stdio.h>
#include <stdlib.h>
#include <string.h>
#include <valgrind/memcheck.h>

#include "inputs.h"
#include "phases.h"

/* The values in the header of a signature, two bits each, the low one first. */
static void read_values(const struct inputs *in, uint8_t *values)
{
    size_t k;
    for (k = 0; k < in->lengths->values; k++) {
        unsigned pair = in->output[k / 4] >> (6 - 2 * (k % 4)) & 3u;
        values[k] = (uint8_t)(pair >> 1 | (pair & 1) << 1);
    }
}

static void hide(const struct inputs *in)
{
    (void)VALGRIND_MAKE_MEM_UNDEFINED(in->secret, in->lengths->block);
    (void)VALGRIND_MAKE_MEM_UNDEFINED(in->seeds, in->lengths->seeds);
}

/* Signs with the room watched, and prints the reports of each phase. */
static int sign_in_phases(struct inputs *in)
{
    static const char *const names[PHASES] = { "pair", "first-pass", "challenge", "second-pass" };
    uint8_t values[PICNIC_L5_FS_VALUES], frame = 0;
    unsigned reports[PHASES];
    int i, reached;

    read_values(in, values);
    hide(in);
    watch_room(values, in->lengths->values, &frame);
    make_call(in, "sign");
    reached = unwatch_room(reports);
    for (i = 0; i < PHASES; i++)
        printf("%s %u\n", names[i], reports[i]);
    return reached;
}

int main(int argc, char **argv)
{
    struct inputs in;

    if (argc != 4 || !RUNNING_ON_VALGRIND) {
        fprintf(stderr, "usage: valgrind secrets CALL SET TABLES\n");
        return 2;
    }
    if (!lend_inputs(&in, atoi(argv[2]), argv[3]) || (in.room = lay_room(in.lengths->room, in.lengths->digest)) == NULL)
        return 2;
    draw_secrets(&in, 0);
    if (PICNIC_REFUSAL(make_call(&in, argv[1])) != PICNIC_FINE)
        return 2;
    if (strcmp(argv[1], "sign") == 0)
        return sign_in_phases(&in) ? 0 : 2;
    hide(&in);
    make_call(&in, argv[1]);
    printf("all %u\n", (unsigned)VALGRIND_COUNT_ERRORS);
    return 0;
}
