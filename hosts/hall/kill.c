/* Kills `hall journal append` at random moments, and looks at the file after each: "If power fails after any number of bytes of one block, all other
 * slots kept, recovery gives the state before that block if fewer than 512 bytes were written and the state after it if all were."
 *
 * kill PROGRAM FILE TIMES [SEED]: each time a child process appends a block of 1 to 63 next children to the journal in FILE, and is killed after a
 * pause between none and a quarter more than such a process takes as a rule. Then the file must hold all other slots as they were, and in the
 * block's slot its first bytes with erased ones behind them; and it must recover to the hall before the block or behind it. The next block goes to
 * the file as it is then, torn slots among the others, until it is full and a new one is made. The last lines say how the kills fell. */
#define _GNU_SOURCE
#include <errno.h>
#include <fcntl.h>
#include <inttypes.h>
#include <signal.h>
#include <stdio.h>
#include <stdlib.h>
#include <string.h>
#include <sys/wait.h>
#include <time.h>
#include <unistd.h>

#include "pasa.h"

enum { BYTES = PASA_SLOTS * PASA_SLOT, TRIED = 20 };

static const char *program, *file;

/* What there was before an append, and the block that it is to write. */
static uint8_t before[BYTES], after[BYTES], found[BYTES];
static uint64_t words[PASA_NODES], block[PASA_BLOCK_MOST];
static size_t nodes, block_count, block_slot;

/* How the kills fell; and how often the first so many bytes of a block were there. */
static unsigned finished, written[PASA_SLOT + 1], journals;

static _Noreturn void fail(const char *what)
{
    fprintf(stderr, "hosts/hall/kill: %s, in slot %zu, a block of %zu; the file is %s\n", what, block_slot, block_count, file);
    exit(1);
}

static uint64_t random_state;

static uint64_t any(void)
{
    uint64_t z = random_state += UINT64_C(0x9E3779B97F4A7C15);
    z = (z ^ z >> 30) * UINT64_C(0xBF58476D1CE4E5B9);
    z = (z ^ z >> 27) * UINT64_C(0x94D049BB133111EB);
    return z ^ z >> 31;
}

static void read_file(uint8_t *bytes)
{
    int descriptor = open(file, O_RDONLY);
    if (descriptor < 0 || read(descriptor, bytes, BYTES) != BYTES || read(descriptor, &(uint8_t){0}, 1) != 0)
        fail("the journal has another length");
    close(descriptor);
}

static pid_t start(char *const *arguments)
{
    pid_t child = fork();
    if (child == 0) {
        int nowhere = open("/dev/null", O_RDWR);
        dup2(nowhere, STDOUT_FILENO);
        execv(program, arguments);
        _exit(127);
    }
    if (child < 0)
        fail("no process can be started");
    return child;
}

/* Whether a process ended by itself, with its work done. */
static int ended(pid_t child)
{
    int status;
    while (waitpid(child, &status, 0) < 0)
        if (errno != EINTR)
            fail("a process cannot be waited for");
    if (WIFSIGNALED(status) && WTERMSIG(status) == SIGKILL)
        return 0;
    if (!WIFEXITED(status) || WEXITSTATUS(status) != 0)
        fail("hall fails");
    return 1;
}

static void new_journal(void)
{
    char *arguments[] = {(char *)program, "journal", "new", (char *)file, "128", NULL};
    unlink(file);
    if (!ended(start(arguments)))
        fail("hall is killed by somebody else");
    journals++;
}

/* The next children of nodes of the hall and of the block itself. */
static void make_block(void)
{
    uint64_t known[PASA_NODES];
    size_t count = nodes, most = 1 + any() % PASA_BLOCK_MOST;
    memcpy(known, words, sizeof known);
    block_count = 0;
    while (block_count < most && count < PASA_NODES) {
        struct pasa_node node = pasa_journal_record(known, count, known[any() % count]).node;
        struct pasa_child given = any() % 2 != 0 ? pasa_child_router(node) : pasa_child_host(node);
        if (given.refusal == PASA_DONE)
            known[count++] = block[block_count++] = given.child;
    }
}

/* The journal as it stands, the hall in it, and a block for it; where there is no room for one, a new journal. */
static void prepare(void)
{
    struct pasa_block placed = {0, PASA_NO_ROOM};
    for (int twice = 0; twice < 2; twice++) {
        read_file(before);
        struct pasa_recovered recovered = pasa_journal_recover(before, BYTES, words, PASA_NODES);
        if (recovered.refusal != PASA_DONE)
            fail("the journal does not recover");
        nodes = recovered.nodes;
        make_block();
        memcpy(after, before, BYTES);
        if (block_count > 0)
            placed = pasa_journal_write(after, BYTES, block, block_count);
        if (placed.refusal == PASA_DONE)
            break;
        new_journal();
    }
    if (placed.refusal != PASA_DONE)
        fail("no block can be made");
    block_slot = placed.slot;
}

static pid_t append(void)
{
    static char digits[PASA_BLOCK_MOST][20];
    char *arguments[4 + PASA_BLOCK_MOST + 1] = {(char *)program, "journal", "append", (char *)file};
    for (size_t i = 0; i < block_count; i++) {
        snprintf(digits[i], sizeof digits[i], "0x%" PRIx64, block[i]);
        arguments[4 + i] = digits[i];
    }
    arguments[4 + block_count] = NULL;
    return start(arguments);
}

/* How many bytes of the block are in its slot; all others of the file are as they were. */
static size_t bytes_written(void)
{
    size_t at = block_slot * PASA_SLOT, count = PASA_SLOT;
    read_file(found);
    while (count > 0 && found[at + count - 1] == 0xFF)
        count--;
    memcpy(before + at, after + at, count);
    if (memcmp(found, before, BYTES) != 0)
        fail("the file holds something else than the beginning of the block");
    return count;
}

/* The hall before the block, or behind it where all of it is written. */
static void compare(size_t count)
{
    uint64_t got[PASA_NODES];
    struct pasa_recovered recovered = pasa_journal_recover(found, BYTES, got, PASA_NODES);
    if (recovered.refusal != PASA_DONE)
        fail("the journal does not recover");
    if (count == PASA_SLOT)
        for (size_t i = 0; i < block_count; i++)
            words[nodes++] = block[i];
    if (recovered.nodes != nodes || memcmp(got, words, sizeof got) != 0)
        fail("the journal recovers to another hall");
}

static double now(void)
{
    struct timespec time;
    clock_gettime(CLOCK_MONOTONIC, &time);
    return (double)time.tv_sec + 1e-9 * (double)time.tv_nsec;
}

static int by_size(const void *one, const void *other)
{
    double a = *(const double *)one, b = *(const double *)other;
    return (a > b) - (a < b);
}

/* The median time of some appends that nobody kills. */
static double usual_time(void)
{
    double times[TRIED];
    for (int i = 0; i < TRIED; i++) {
        prepare();
        double begun = now();
        if (!ended(append()))
            fail("hall is killed by somebody else");
        times[i] = now() - begun;
        compare(bytes_written());
    }
    qsort(times, TRIED, sizeof *times, by_size);
    return times[TRIED / 2];
}

static void append_and_kill(double longest)
{
    prepare();
    double pause = longest * (double)(any() % 1000000) / 1e6;
    pid_t child = append();
    nanosleep(&(struct timespec){(time_t)pause, (long)(1e9 * (pause - (double)(time_t)pause))}, NULL);
    kill(child, SIGKILL);
    int done = ended(child);
    size_t count = bytes_written();
    if (done && count != PASA_SLOT)
        fail("hall says done, and the block is not there");
    compare(count);
    finished += (unsigned)done;
    written[count]++;
}

int main(int count, char **arguments)
{
    if (count < 4) {
        fprintf(stderr, "usage: kill PROGRAM FILE TIMES [SEED]\n");
        return 2;
    }
    program = arguments[1];
    file = arguments[2];
    unsigned long times = strtoul(arguments[3], NULL, 10);
    random_state = count > 4 ? strtoull(arguments[4], NULL, 10) : 1;
    new_journal();
    double begun = now(), longest = 1.25 * usual_time();
    for (unsigned long i = 0; i < times; i++)
        append_and_kill(longest);
    unsigned torn = 0, lengths = 0;
    for (size_t k = 1; k < PASA_SLOT; k++) {
        torn += written[k];
        lengths += written[k] > 0;
    }
    printf("%lu appends killed at random moments within %.1f ms, %u of them when they had ended: %.0f s, %u journals\n", times, 1e3 * longest,
           finished, now() - begun, journals);
    printf("%u kills before the first byte, %u in the midst of a slot (%u numbers of bytes, 511 bytes %u times), %u behind the last byte\n", written[0],
           torn, lengths, written[PASA_SLOT - 1], written[PASA_SLOT]);
    if (times >= 500 && torn == 0) {
        fprintf(stderr, "no kill fell in the midst of a slot\n");
        return 1;
    }
    printf("after each the journal recovered to the hall before the block or behind it\n");
    return 0;
}
