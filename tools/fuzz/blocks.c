/* Tells libFuzzer which blocks of the library an input is the first to reach, since the library carries no instrumentation.
 *
 * The file that the variable BLOCKS names has the address of each, a line each, as blocks.py writes it. A trap stands there until
 * the block is reached. At the end the addresses of those that weren't go to the file that UNREACHED names. */
#define _GNU_SOURCE
#include <inttypes.h>
#include <signal.h>
#include <stdio.h>
#include <stdlib.h>
#include <sys/mman.h>
#include <ucontext.h>

#define MOST 65536
#define TRAP 0xcc

static uint8_t reached[MOST] __attribute__((section("__libfuzzer_extra_counters")));
/* In rising order. */
static uintptr_t blocks[MOST];
static uint8_t first_bytes[MOST];
static size_t count;

static int by_address(const void *a, const void *b)
{
    uintptr_t one = *(const uintptr_t *)a, other = *(const uintptr_t *)b;
    return (one > other) - (one < other);
}

static void on_trap(int number, siginfo_t *info, void *context)
{
    (void)number, (void)info;
    greg_t *registers = ((ucontext_t *)context)->uc_mcontext.gregs;
    uintptr_t address = (uintptr_t)registers[REG_RIP] - 1;
    uintptr_t *found = bsearch(&address, blocks, count, sizeof *blocks, by_address);
    if (found == NULL)
        abort();
    size_t at = (size_t)(found - blocks);
    *(uint8_t *)address = first_bytes[at];
    reached[at] = 1;
    registers[REG_RIP] = (greg_t)address;
}

static void tell_unreached(void)
{
    const char *path = getenv("UNREACHED");
    FILE *file = path != NULL ? fopen(path, "w") : NULL;
    for (size_t at = 0; file != NULL && at < count; at++)
        if (*(uint8_t *)blocks[at] == TRAP)
            fprintf(file, "%" PRIxPTR "\n", blocks[at]);
    if (file != NULL)
        fclose(file);
}

int LLVMFuzzerInitialize(int *words_count, char ***words)
{
    (void)words_count, (void)words;
    const char *path = getenv("BLOCKS");
    FILE *file = path != NULL ? fopen(path, "r") : NULL;
    while (file != NULL && count < MOST && fscanf(file, "%" SCNxPTR "%*[^\n]", &blocks[count]) == 1)
        count++;
    if (file != NULL)
        fclose(file);
    if (count == 0)
        return 0;
    uintptr_t first = blocks[0] & ~(uintptr_t)4095, end = (blocks[count - 1] + 4096) & ~(uintptr_t)4095;
    struct sigaction action = { .sa_sigaction = on_trap, .sa_flags = SA_SIGINFO };
    if (mprotect((void *)first, end - first, PROT_READ | PROT_WRITE | PROT_EXEC) != 0 || sigaction(SIGTRAP, &action, NULL) != 0)
        abort();
    for (size_t at = 0; at < count; at++) {
        first_bytes[at] = *(uint8_t *)blocks[at];
        *(uint8_t *)blocks[at] = TRAP;
    }
    atexit(tell_unreached);
    return 0;
}
