/* Refuses a program one request for memory: a library whose allocations go to the C library's but for one.
 *
 *   cc -O2 -Wall -Wextra -shared -fPIC -o refuse_memory.so refuse_memory.c
 *   REFUSE_AT=N LD_PRELOAD=./refuse_memory.so PROGRAM ..
 *
 * The Nth request that PROGRAM makes returns no memory, with ENOMEM; all others are passed on, and so are those that the C
 * library makes for itself. Requests are counted from 1, over all threads. The line "memory was refused" on standard error
 * says that it came to that. Without a REFUSE_AT nothing is refused, and the last line there is "N requests for memory".
 * PROGRAM has to be linked dynamically.
 */
#define _GNU_SOURCE
#include <errno.h>
#include <link.h>
#include <stdatomic.h>
#include <stddef.h>
#include <stdint.h>
#include <stdio.h>
#include <stdlib.h>
#include <unistd.h>

extern void *__libc_malloc(size_t);
extern void *__libc_calloc(size_t, size_t);
extern void *__libc_realloc(void *, size_t);
extern void *__libc_memalign(size_t, size_t);

static uintptr_t code_from, code_to;
static unsigned long refuse_at;
static atomic_ulong requests;

/* Notes where the code of the program lies: it is the first object. */
static int note_program(struct dl_phdr_info *info, size_t size, void *data) {
    (void)size, (void)data;
    for (int i = 0; i < info->dlpi_phnum; i++) {
        const ElfW(Phdr) *part = &info->dlpi_phdr[i];
        if (part->p_type == PT_LOAD && part->p_flags & PF_X) {
            code_from = info->dlpi_addr + part->p_vaddr;
            code_to = code_from + part->p_memsz;
        }
    }
    return 1;
}

__attribute__((constructor)) static void begin(void) {
    const char *text = getenv("REFUSE_AT");
    refuse_at = text ? strtoul(text, NULL, 10) : 0;
    dl_iterate_phdr(note_program, NULL);
}

__attribute__((destructor)) static void end(void) {
    if (!refuse_at) dprintf(STDERR_FILENO, "%lu requests for memory\n", atomic_load(&requests));
}

/* Counts a request, and returns whether it is the one to be refused. */
static int is_refused(const void *caller) {
    static const char said[] = "memory was refused\n";
    if ((uintptr_t)caller < code_from || (uintptr_t)caller >= code_to) return 0;
    if (atomic_fetch_add(&requests, 1) + 1 != refuse_at) return 0;
    if (write(STDERR_FILENO, said, sizeof said - 1) < 0) abort();
    errno = ENOMEM;
    return 1;
}

#define CALLER __builtin_return_address(0)

void *malloc(size_t size) {
    return is_refused(CALLER) ? NULL : __libc_malloc(size);
}

void *calloc(size_t count, size_t size) {
    return is_refused(CALLER) ? NULL : __libc_calloc(count, size);
}

void *realloc(void *block, size_t size) {
    return is_refused(CALLER) ? NULL : __libc_realloc(block, size);
}

void *memalign(size_t alignment, size_t size) {
    return is_refused(CALLER) ? NULL : __libc_memalign(alignment, size);
}

void *aligned_alloc(size_t alignment, size_t size) {
    return is_refused(CALLER) ? NULL : __libc_memalign(alignment, size);
}

int posix_memalign(void **block, size_t alignment, size_t size) {
    if (is_refused(CALLER)) return ENOMEM;
    void *found = __libc_memalign(alignment, size);
    if (!found) return ENOMEM;
    *block = found;
    return 0;
}
