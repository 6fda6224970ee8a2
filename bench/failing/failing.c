/* Refuses one request for memory: that with the number FAIL_NTH, counted from 1, by whatever thread. At
 * the program's end the number of all requests goes into the file FAIL_COUNT, where one is named: from
 * _exit, by which mj ends, and else from a destructor. */
#include <errno.h>
#include <stdatomic.h>
#include <stdio.h>
#include <stdlib.h>
#include <sys/syscall.h>
#include <unistd.h>

extern void *__libc_malloc(size_t), *__libc_realloc(void *, size_t), *__libc_calloc(size_t, size_t);
extern void *__libc_memalign(size_t, size_t);

static atomic_long nth = -1, count;

static int fails(void) {
    if (nth < 0) {
        const char *text = getenv("FAIL_NTH");
        nth = text ? atol(text) : 0;
    }
    if (++count != nth) {
        return 0;
    }
    errno = ENOMEM;
    return 1;
}

void *malloc(size_t size) { return fails() ? NULL : __libc_malloc(size); }
void *realloc(void *old, size_t size) { return fails() ? NULL : __libc_realloc(old, size); }
void *calloc(size_t many, size_t size) { return fails() ? NULL : __libc_calloc(many, size); }

int posix_memalign(void **place, size_t align, size_t size) {
    *place = fails() ? NULL : __libc_memalign(align, size);
    return *place ? 0 : ENOMEM;
}

void *aligned_alloc(size_t align, size_t size) { return fails() ? NULL : __libc_memalign(align, size); }

__attribute__((destructor)) static void tell(void) {
    const char *name = getenv("FAIL_COUNT");
    long all = count;
    FILE *file = name ? fopen(name, "w") : NULL;
    if (file) {
        fprintf(file, "%ld\n", all);
        fclose(file);
    }
}

void _exit(int status) {
    tell();
    syscall(SYS_exit_group, status);
    __builtin_unreachable();
}
