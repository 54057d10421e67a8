/* The command, and behind it a look at the secrets that are left in memory when it ends: if one is, the exit status is 3. */
#define main run_command
#include "../picnic.c"
#undef main
#include "../jobs.c"

#include <unistd.h>

/* What was registered first is called last, so this comes after all that the command does at its end. */
static void look(void)
{
    const uint8_t *bytes = (const uint8_t *)&secrets;
    size_t i;

    for (i = 0; i < sizeof secrets; i++)
        if (bytes[i] != 0)
            _exit(3);
}

int main(int argc, char **argv)
{
    if (atexit(look) != 0)
        return 4;
    return run_command(argc, argv);
}
