/* The room of a signing call is watched by taking its pages away: each touch that begins a phase ends in a signal, whose
   handler gives the pages back and counts what memcheck has reported so far. */
#define _GNU_SOURCE
#include "phases.h"

#include <signal.h>
#include <string.h>
#include <sys/mman.h>
#include <unistd.h>
#include <valgrind/memcheck.h>

static struct {
    unsigned char *start, *boundary, *end; /* pages of the first part and of the last bytes */
    const uint8_t *values;
    size_t count;
    const unsigned char *frame;
    enum phase phase;
    int whole; /* the last bytes were written */
    int found; /* places that hold the values */
    unsigned reports[PHASES];
} room;

uint8_t *lay_room(size_t length, size_t last)
{
    size_t page = (size_t)sysconf(_SC_PAGESIZE), first = (length - last + page - 1) / page * page;
    size_t rest = (last + page - 1) / page * page;

    room.start = mmap(NULL, first + rest, PROT_READ | PROT_WRITE, MAP_PRIVATE | MAP_ANONYMOUS, -1, 0);
    if (room.start == MAP_FAILED)
        return NULL;
    room.boundary = room.start + first;
    room.end = room.boundary + rest;
    return room.boundary - (length - last);
}

static void protect(unsigned char *from, unsigned char *to, int how)
{
    if (mprotect(from, (size_t)(to - from), how) != 0)
        _exit(4);
}

/* Ends a phase: what was reported up to here and not before is its. */
static void next_phase(void)
{
    unsigned before = 0;
    int i;

    for (i = 0; i < (int)room.phase; i++)
        before += room.reports[i];
    room.reports[room.phase] = (unsigned)VALGRIND_COUNT_ERRORS - before;
    room.phase++;
    VALGRIND_PRINTF("phase %d\n", (int)room.phase);
}

/* Makes every copy of the values on the stack known. */
static void show_values(void)
{
    const unsigned char *place;
    unsigned char here = 0;

    for (place = &here; place + room.count <= room.frame; place++)
        if (memcmp(place, room.values, room.count) == 0) {
            (void)VALGRIND_MAKE_MEM_DEFINED(place, room.count);
            room.found++;
        }
}

/* Begins the phase that a touch of this place begins. */
static void touch(const unsigned char *place)
{
    if (place < room.start || place >= room.end)
        _exit(3);
    if (place >= room.boundary) {
        room.whole = 1;
        protect(room.boundary, room.end, PROT_READ | PROT_WRITE);
        protect(room.start, room.boundary, PROT_NONE);
        return;
    }
    next_phase();
    protect(room.start, room.boundary, room.phase == CHALLENGE ? PROT_READ : PROT_READ | PROT_WRITE);
    if (room.phase == CHALLENGE) /* what is given back would count as known */
        (void)VALGRIND_MAKE_MEM_UNDEFINED(room.start, room.boundary - room.start);
    if (room.phase == SECOND_PASS)
        show_values();
}

/* Nothing that the handler does is a report. The registers that it finds may count as unknown, as those of the call that was
   left; what it returns by is made known, and the call gets its own registers back. */
static void touched(int number, siginfo_t *info, void *context)
{
    (void)number;
    (void)context;
    VALGRIND_DISABLE_ERROR_REPORTING;
    (void)VALGRIND_MAKE_MEM_DEFINED(__builtin_frame_address(0), 2 * sizeof(void *));
    touch(info->si_addr);
    VALGRIND_ENABLE_ERROR_REPORTING;
}

void watch_room(const uint8_t *values, size_t count, const void *frame)
{
    struct sigaction action;

    memset(&action, 0, sizeof action);
    action.sa_sigaction = touched;
    action.sa_flags = SA_SIGINFO;
    sigaction(SIGSEGV, &action, NULL);
    room.values = values;
    room.count = count;
    room.frame = frame;
    VALGRIND_PRINTF("phase 0\n");
    protect(room.start, room.end, PROT_NONE);
}

int unwatch_room(unsigned reports[PHASES])
{
    int reached = room.phase == SECOND_PASS && room.whole && room.found > 0;

    next_phase();
    signal(SIGSEGV, SIG_DFL);
    protect(room.start, room.end, PROT_READ | PROT_WRITE);
    memcpy(reports, room.reports, sizeof room.reports);
    return reached;
}
