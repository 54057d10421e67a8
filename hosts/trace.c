/* A plugin of the emulator that holds the traces of calls against each other: where the processor goes, block by block, and
   every address that it reads or writes. The emulated program makes a call four times between a call of one function and a
   call of another, whose addresses are the plugin's arguments: with some secrets, with others, and so once more. Of the first
   two traces the plugin keeps and compares sums, one for each window of events; if they differ it finds the first event that
   does, from the last two. It prints `same EVENTS`, or `differs PLACE EVENTS`: the address of the code from which the traces
   part, and how many events there were before.

   The emulator's header is not packaged, so what is used of it is declared here. */
#include <stdint.h>
#include <stdio.h>
#include <stdlib.h>

struct qemu_plugin_tb;
struct qemu_plugin_insn;
size_t qemu_plugin_tb_n_insns(const struct qemu_plugin_tb *);
uint64_t qemu_plugin_tb_vaddr(const struct qemu_plugin_tb *);
struct qemu_plugin_insn *qemu_plugin_tb_get_insn(const struct qemu_plugin_tb *, size_t);
uint64_t qemu_plugin_insn_vaddr(const struct qemu_plugin_insn *);
void qemu_plugin_register_vcpu_tb_trans_cb(uint64_t, void (*)(uint64_t, struct qemu_plugin_tb *));
void qemu_plugin_register_vcpu_tb_exec_cb(struct qemu_plugin_tb *, void (*)(unsigned, void *), int, void *);
void qemu_plugin_register_vcpu_mem_cb(struct qemu_plugin_insn *, void (*)(unsigned, uint32_t, uint64_t, void *), int, int,
                                      void *);
void qemu_plugin_register_atexit_cb(uint64_t, void (*)(uint64_t, void *), void *);
int qemu_plugin_install(uint64_t id, const void *info, int argc, char **argv);

enum { NO_REGISTERS = 0, READ_AND_WRITE = 3, WINDOW = 4096, WINDOWS = 1 << 20, PASSES = 4 };

int qemu_plugin_version = VERSION;

static uint64_t begin, end;            /* the functions between whose calls a trace is taken */
static int pass, tracing;              /* which of the four calls is made, and whether one is */
static uint64_t count, sum, block;     /* events of this trace and their sum; the block that runs */
static uint64_t sums[WINDOWS], total;  /* of the first trace: the sum behind each window, and its events */
static uint64_t window = UINT64_MAX;   /* the first one whose sums differ */
static uint64_t kept[WINDOW];          /* that window's events in the third trace */
static uint64_t kept_count;            /* how many they are */
static uint64_t parted, parted_count;  /* where the traces part, and the events before */

static void stop(const char *what)
{
    fprintf(stderr, "trace: %s\n", what);
    exit(2);
}

/* A window is at its end: keeps its sum, or compares it. */
static void close_window(uint64_t which)
{
    if (which >= WINDOWS)
        stop("more events than sums are kept of");
    if (pass == 1)
        sums[which] = sum;
    else if (pass == 2 && window == UINT64_MAX && sums[which] != sum)
        window = which;
}

/* An event of the window that differs: keeps it, or compares it. */
static void look(uint64_t event, uint64_t place)
{
    uint64_t i = count % WINDOW;
    if (pass == 3)
        kept[kept_count++] = event;
    else if (pass == 4 && parted == 0 && (i >= kept_count || kept[i] != event)) {
        parted = place;
        parted_count = count;
    }
}

/* Takes an event that code at a place caused. */
static void take(uint64_t event, uint64_t place)
{
    if (!tracing)
        return;
    if (count / WINDOW == window)
        look(event, place);
    sum = (sum ^ event) * UINT64_C(0x9e3779b97f4a7c15);
    sum ^= sum >> 29;
    if (++count % WINDOW == 0)
        close_window(count / WINDOW - 1);
}

static void begin_trace(void)
{
    pass++;
    tracing = 1;
    count = sum = block = 0;
}

/* The last window is as short as it is; the number of events goes into its sum. */
static void end_trace(void)
{
    tracing = 0;
    sum ^= count;
    close_window(count / WINDOW);
    total = count;
}

/* A block of code runs. That it does was decided at the end of the block before. */
static void run(unsigned cpu, void *address)
{
    uint64_t place = (uint64_t)(uintptr_t)address;
    (void)cpu;
    if (place == begin)
        begin_trace();
    else if (place == end)
        end_trace();
    else
        take(place, block);
    block = place;
}

/* Code reads or writes memory. The highest bit tells such an event from a block. */
static void touch(unsigned cpu, uint32_t info, uint64_t memory, void *address)
{
    (void)cpu;
    (void)info;
    take(memory | (uint64_t)1 << 63, (uint64_t)(uintptr_t)address);
}

static void translated(uint64_t id, struct qemu_plugin_tb *tb)
{
    size_t i;
    (void)id;
    qemu_plugin_register_vcpu_tb_exec_cb(tb, run, NO_REGISTERS, (void *)(uintptr_t)qemu_plugin_tb_vaddr(tb));
    for (i = 0; i < qemu_plugin_tb_n_insns(tb); i++) {
        struct qemu_plugin_insn *insn = qemu_plugin_tb_get_insn(tb, i);
        void *address = (void *)(uintptr_t)qemu_plugin_insn_vaddr(insn);
        qemu_plugin_register_vcpu_mem_cb(insn, touch, NO_REGISTERS, READ_AND_WRITE, address);
    }
}

static void finish(uint64_t id, void *nothing)
{
    (void)id;
    (void)nothing;
    if (pass != PASSES || tracing)
        stop("the program did not make its four calls");
    if (window == UINT64_MAX)
        printf("same %llu\n", (unsigned long long)total);
    else
        printf("differs %016llx %llu\n", (unsigned long long)parted, (unsigned long long)parted_count);
    fflush(stdout);
}

int qemu_plugin_install(uint64_t id, const void *info, int argc, char **argv)
{
    (void)info;
    if (argc != 2 || sscanf(argv[0], "begin=%lx", &begin) != 1 || sscanf(argv[1], "end=%lx", &end) != 1)
        return 1;
    qemu_plugin_register_vcpu_tb_trans_cb(id, translated);
    qemu_plugin_register_atexit_cb(id, finish, NULL);
    return 0;
}
