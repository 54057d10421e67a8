/* Makes a call four times, with some secrets, with all their bits turned, and so once more, for trace.c to compare: traced
   CALL SET TABLES LIMIT. The slices lie where they are each time. */
#include <stdio.h>
#include <stdlib.h>

#include "format.h"
#include "inputs.h"

void begin_trace(void);
void end_trace(void);

int main(int argc, char **argv)
{
    struct inputs in;
    uint64_t refusal = 0;
    volatile int i; /* so that the loop stays one, and each call is made from the same place */

    if (argc != 5 || !lend_inputs(&in, atoi(argv[2]), argv[3])) {
        fprintf(stderr, "usage: traced CALL SET TABLES LIMIT\n");
        return 2;
    }
    in.limit = (uint64_t)atoi(argv[4]);
    in.room = allocate(in.lengths->room);
    for (i = 0; i < 4; i++) {
        draw_secrets(&in, i % 2 == 0 ? 0 : 0xff);
        begin_trace();
        refusal = PICNIC_REFUSAL(make_call(&in, argv[1]));
        end_trace();
    }
    printf("refusal %d\n", (int)refusal);
    return 0;
}
