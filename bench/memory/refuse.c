// Refuses one growth of memory: the call of that number, counted from 1, to malloc, calloc or realloc that asks for more.
// With REFUSE unset or 0 none is refused; at its end the program's number of such calls is put into the file of COUNT.
#define _GNU_SOURCE
#include <errno.h>
#include <stdatomic.h>
#include <stddef.h>
#include <stdio.h>
#include <stdlib.h>
#include <sys/syscall.h>
#include <unistd.h>

extern void *__libc_malloc(size_t);
extern void *__libc_calloc(size_t, size_t);
extern void *__libc_realloc(void *, size_t);
extern void *__libc_memalign(size_t, size_t);

static atomic_long calls;
static long refused = -1;

static int is_refused(void) {
    if (refused < 0) {
        const char *number = getenv("REFUSE");
        refused = number ? atol(number) : 0;
    }
    return atomic_fetch_add(&calls, 1) + 1 == refused;
}

void *malloc(size_t size) {
    if (is_refused()) { errno = ENOMEM; return NULL; }
    return __libc_malloc(size);
}

void *calloc(size_t count, size_t size) {
    if (is_refused()) { errno = ENOMEM; return NULL; }
    return __libc_calloc(count, size);
}

void *realloc(void *old, size_t size) {
    if (is_refused()) { errno = ENOMEM; return NULL; }
    return __libc_realloc(old, size);
}

int posix_memalign(void **to, size_t align, size_t size) {
    if (is_refused()) return ENOMEM;
    *to = __libc_memalign(align, size);
    return *to ? 0 : ENOMEM;
}

void *aligned_alloc(size_t align, size_t size) {
    if (is_refused()) { errno = ENOMEM; return NULL; }
    return __libc_memalign(align, size);
}

// The program ends by this call.
void _exit(int status) {
    long number = calls;
    const char *name = getenv("COUNT");
    FILE *file = name ? fopen(name, "w") : NULL;
    if (file) { fprintf(file, "%ld\n", number); fclose(file); }
    syscall(SYS_exit_group, status);
    __builtin_unreachable();
}
