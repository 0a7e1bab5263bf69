/* Refuses one allocation of a program that it is loaded before, and counts them all.
 *
 * REFUSE_AT is the number of the allocation that is refused, from 1; with 0 none is. REFUSE_COUNT names a file of eight
 * bytes, which is mapped, so that the count stands there however the program ends. An allocation is a call of malloc, calloc, aligned_alloc or posix_memalign, or
 * one of realloc that may grow.
 */
#define _GNU_SOURCE
#include <errno.h>
#include <fcntl.h>
#include <stdatomic.h>
#include <stdlib.h>
#include <sys/mman.h>
#include <unistd.h>

extern void *__libc_malloc(size_t);
extern void *__libc_calloc(size_t, size_t);
extern void *__libc_realloc(void *, size_t);
extern void *__libc_memalign(size_t, size_t);

static _Atomic(unsigned long) *count;
static unsigned long refused;

__attribute__((constructor)) static void begin(void) {
    const char *at = getenv("REFUSE_AT"), *name = getenv("REFUSE_COUNT");
    int file = name ? open(name, O_RDWR) : -1;
    void *made = file >= 0 ? mmap(NULL, sizeof *count, PROT_READ | PROT_WRITE, MAP_SHARED, file, 0) : MAP_FAILED;
    if (file >= 0)
        close(file);
    refused = at ? strtoul(at, NULL, 10) : 0;
    if (made != MAP_FAILED)
        count = made;
}

static int is_refused(void) {
    if (!count || atomic_fetch_add(count, 1) + 1 != refused)
        return 0;
    errno = ENOMEM;
    return 1;
}

void *malloc(size_t size) { return is_refused() ? NULL : __libc_malloc(size); }

void *calloc(size_t n, size_t size) { return is_refused() ? NULL : __libc_calloc(n, size); }

void *realloc(void *old, size_t size) { return size && is_refused() ? NULL : __libc_realloc(old, size); }

void *aligned_alloc(size_t to, size_t size) { return is_refused() ? NULL : __libc_memalign(to, size); }

int posix_memalign(void **out, size_t to, size_t size) {
    void *made = is_refused() ? NULL : __libc_memalign(to, size);
    if (!made)
        return ENOMEM;
    *out = made;
    return 0;
}
