/* What the fuzzer sees of the proved archive, into whose code no compiler put counters: each block of it begins with a breakpoint. Where
 * one is reached for the first time it is taken away, and libFuzzer is told by a counter. Code that was seen costs nothing any more.
 *
 * BLOCKS names a file of addresses in hexadecimal, ascending but for the first, which is that of bim_read, each with a word that is for the eye
 * (tests/blocks writes it). At the end those that were not reached are written beside it, to BLOCKS.left. */
#define _GNU_SOURCE
#include <signal.h>
#include <stdint.h>
#include <stdio.h>
#include <stdlib.h>
#include <sys/mman.h>
#include <ucontext.h>
#include <unistd.h>
#include "bim.h"

enum { MOST = 1 << 14, BREAKPOINT = 0xcc };

__attribute__((section("__libfuzzer_extra_counters"))) static uint8_t reached[MOST];
static struct {
    uint8_t *at, was;
} blocks[MOST];
static size_t count, seen;
static uintptr_t base;

static void at_breakpoint(int number, siginfo_t *info, void *context)
{
    greg_t *next = &((ucontext_t *)context)->uc_mcontext.gregs[REG_RIP];
    const uint8_t *at = (const uint8_t *)*next - 1;
    size_t low = 0, high = count;
    (void)number, (void)info;
    while (low + 1 < high) {
        const size_t middle = (low + high) / 2;
        *(blocks[middle].at <= at ? &low : &high) = middle;
    }
    if (count == 0 || blocks[low].at != at)
        _exit(3);
    *blocks[low].at = blocks[low].was;
    reached[low] = 1;
    seen++;
    --*next;
}

static void no_blocks(const char *why)
{
    fprintf(stderr, "BLOCKS: %s\n", why);
    exit(2);
}

/* libFuzzer calls this before all else. */
int LLVMFuzzerInitialize(int *argc, char ***argv)
{
    const char *path = getenv("BLOCKS");
    FILE *file = path == NULL ? NULL : fopen(path, "r");
    const uintptr_t page = (uintptr_t)sysconf(_SC_PAGESIZE);
    struct sigaction action = {.sa_sigaction = at_breakpoint, .sa_flags = SA_SIGINFO};
    uintptr_t listed;
    uint8_t *begin, *end;
    size_t i;
    (void)argc, (void)argv;
    if (file == NULL || fscanf(file, "%lx %*s", &listed) != 1)
        no_blocks("no file");
    base = (uintptr_t)bim_read - listed;
    while (fscanf(file, "%lx %*s", &listed) == 1) {
        if (count == MOST || (count > 0 && (uint8_t *)(base + listed) <= blocks[count - 1].at))
            no_blocks("too many, or out of order");
        blocks[count++].at = (uint8_t *)(base + listed);
    }
    fclose(file);
    if (count == 0)
        no_blocks("none");
    begin = (uint8_t *)((uintptr_t)blocks[0].at / page * page);
    end = blocks[count - 1].at + 1;
    if (sigaction(SIGTRAP, &action, NULL) != 0 || mprotect(begin, (size_t)(end - begin), PROT_READ | PROT_WRITE | PROT_EXEC) != 0)
        no_blocks("the code cannot be changed");
    for (i = 0; i < count; i++) {
        blocks[i].was = *blocks[i].at;
        *blocks[i].at = BREAKPOINT;
    }
    return 0;
}

/* How many blocks there are, and were reached; which were not, into the file. */
void blocks_told(size_t *all, size_t *of_them)
{
    char path[4096];
    FILE *file;
    size_t i;
    *all = count;
    *of_them = seen;
    snprintf(path, sizeof path, "%s.left", getenv("BLOCKS"));
    file = fopen(path, "w");
    for (i = 0; i < count && file != NULL; i++)
        if (*blocks[i].at == BREAKPOINT)
            fprintf(file, "%016lx\n", (uintptr_t)blocks[i].at - base);
    if (file != NULL)
        fclose(file);
}
