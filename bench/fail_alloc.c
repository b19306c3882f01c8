/* Loaded before a program (LD_PRELOAD), it lets one of the program's own calls of malloc and realloc fail: the one whose
 * number FAIL_ALLOC says, the first being 1. Where that is 0 none fails, and at the end it says how many there were. */
#define _GNU_SOURCE
#include <errno.h>
#include <link.h>
#include <stdatomic.h>
#include <stdint.h>
#include <stdio.h>
#include <stdlib.h>

extern void *__libc_malloc(size_t size);
extern void *__libc_realloc(void *block, size_t size);

static atomic_long made;
static long failing = -1;
static uintptr_t low = UINTPTR_MAX, high;

/* Where the program lies; it is the first that is told. */
static int find(struct dl_phdr_info *info, size_t size, void *nothing) {
    (void)size, (void)nothing;
    for (int k = 0; k < info->dlpi_phnum; k++) {
        const ElfW(Phdr) *part = &info->dlpi_phdr[k];
        if (part->p_type != PT_LOAD) continue;
        uintptr_t from = info->dlpi_addr + part->p_vaddr;
        if (from < low) low = from;
        if (from + part->p_memsz > high) high = from + part->p_memsz;
    }
    return 1;
}

__attribute__((constructor)) static void begin(void) {
    const char *word = getenv("FAIL_ALLOC");
    if (word) failing = atol(word);
    dl_iterate_phdr(find, NULL);
}

__attribute__((destructor)) static void end(void) {
    if (failing == 0) fprintf(stderr, "growths %ld\n", (long)made);
}

static int fails(void *caller) {
    uintptr_t place = (uintptr_t)caller;
    return low <= place && place < high && atomic_fetch_add(&made, 1) + 1 == failing;
}

void *malloc(size_t size) {
    if (fails(__builtin_return_address(0))) return errno = ENOMEM, NULL;
    return __libc_malloc(size);
}

void *realloc(void *block, size_t size) {
    if (fails(__builtin_return_address(0))) return errno = ENOMEM, NULL;
    return __libc_realloc(block, size);
}
