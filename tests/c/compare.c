/* Compares the library with the model.
 *
 *   compare               the paper's examples, then every seed; prints what was compared and reached
 *   compare SEED          one seed alone
 *   compare SEED CALLS    its first calls only: what a difference prints as the command to make it again
 *
 * The exit status is 0 if nothing differs and everything expected was reached. */
#define _DEFAULT_SOURCE
#include <stdatomic.h>
#include <stdio.h>
#include <stdlib.h>
#include <string.h>
#include <sys/mman.h>
#include <sys/wait.h>
#include <unistd.h>

#include "kinds.h"
#include "paper.h"
#include "reached.h"

static const struct {
    void (*run)(void);
    uint64_t calls; /* enough for a seed */
} kinds[] = {
    { camera_kind, 100000 }, { driver_kind, 20000 }, { random_kind, 50000 }, { images_kind, 50000 },
    { limits_kind, 20000 }, { files_kind, 20000 }, { writer_kind, 20000 }, { full_kind, 40000 }, { compressed_kind, 20000 }, { codes_kind, 20000 },
    { buffers_kind, 40000 }, { turns_kind, 2000 },
};

enum { KINDS = sizeof kinds / sizeof *kinds, ROUNDS = 48, SEEDS = 1 + ROUNDS * KINDS };

/* Seed 0 is the paper's examples. The others go through the kinds, with the buffers lent in a different way each round. A seed makes the same calls
 * alone as among the others: nothing is left of an earlier one. */
static void run_seed(uint64_t seed, uint64_t last)
{
    const uint64_t round = seed ? (seed - 1) / KINDS : 0;
    const unsigned kind = seed ? (unsigned)((seed - 1) % KINDS) : 0;
    const lending how = { .at_end = round % 2 == 0, .read_only = round % 8 < 2 };
    random_seed(seed);
    memset(&t, 0, sizeof t);
    memset(file, 0, sizeof file);
    checked_seed(seed, how, kinds[kind].calls, last);
    if (seed) kinds[kind].run();
    else paper_examples();
}

static int run_one(const char *seed, const char *calls)
{
    run_seed(strtoull(seed, NULL, 10), calls ? strtoull(calls, NULL, 10) : 0);
    printf("seed %s: no difference in all its calls\n", seed);
    return 0;
}

/* ---- all seeds ---- */

/* As many processes as there are processors, of which each takes the next seed that none has taken. Those beside the first send their counters at the end;
 * one that finds a difference prints it and ends without. */
enum { MOST_BESIDE = 15 };

static atomic_uint *next_seed; /* in memory that they share */

static void take_seeds(void)
{
    for (unsigned seed; (seed = atomic_fetch_add(next_seed, 1)) < SEEDS;) run_seed(seed, 0);
}

static void failed(const char *what)
{
    perror(what);
    exit(2);
}

/* Starts a process; where its counters will come from. */
static FILE *process_beside(void)
{
    int ends[2];
    if (pipe(ends)) failed("pipe");
    const pid_t child = fork();
    if (child < 0) failed("fork");
    if (child) {
        close(ends[1]);
        return fdopen(ends[0], "rb");
    }
    close(ends[0]);
    take_seeds();
    size_t count;
    const uint64_t *counters = reached_counters(&count);
    FILE *to = fdopen(ends[1], "wb");
    exit(to && fwrite(counters, sizeof *counters, count, to) == count && fclose(to) == 0 ? 0 : 2);
}

/* Adds the counters of a process to this one's; false if it has not sent them. */
static bool add_counters(FILE *from)
{
    size_t count;
    uint64_t *counters = reached_counters(&count), counter;
    for (size_t i = 0; i < count; i++) {
        if (fread(&counter, sizeof counter, 1, from) != 1) return false;
        counters[i] += counter;
    }
    return true;
}

static int run_all(void)
{
    const long processors = sysconf(_SC_NPROCESSORS_ONLN);
    const unsigned beside = processors < 1 ? 0 : processors > MOST_BESIDE ? MOST_BESIDE : (unsigned)processors - 1;
    FILE *from[MOST_BESIDE];
    next_seed = mmap(NULL, sizeof *next_seed, PROT_READ | PROT_WRITE, MAP_SHARED | MAP_ANONYMOUS, -1, 0);
    if (next_seed == MAP_FAILED) failed("mmap");
    for (unsigned i = 0; i < beside; i++) from[i] = process_beside();
    take_seeds();
    bool alike = true;
    for (unsigned i = 0; i < beside; i++) alike &= from[i] && add_counters(from[i]);
    while (wait(NULL) > 0) continue;
    if (!alike) return 1;
    const bool complete = checked_summary();
    printf("%d seeds, no difference%s\n", SEEDS, complete ? "" : "; but something was NEVER reached");
    return complete ? 0 : 1;
}

int main(int count, char **arguments)
{
    setvbuf(stdout, NULL, _IOLBF, 0);
    checked_start(arguments[0]);
    return count > 1 ? run_one(arguments[1], count > 2 ? arguments[2] : NULL) : run_all();
}
