/* Put before a program with LD_PRELOAD: counts its requests for memory, and refuses the one whose number, from 1, REFUSE_AT says.
 * At the end it writes how many requests there were, up to the refused one and behind it, into the file that REFUSE_COUNT names.
 * Requests of the C library at its start count as the program's own. */
#define _GNU_SOURCE
#include <errno.h>
#include <fcntl.h>
#include <stdatomic.h>
#include <stddef.h>
#include <stdlib.h>
#include <sys/syscall.h>
#include <unistd.h>

extern void *__libc_malloc(size_t);
extern void *__libc_calloc(size_t, size_t);
extern void *__libc_realloc(void *, size_t);
extern void *__libc_memalign(size_t, size_t);

static atomic_ulong asked;
static unsigned long refused;

__attribute__((constructor)) static void begin(void) {
    const char *number = getenv("REFUSE_AT");
    atomic_store(&asked, 0);
    refused = number ? strtoul(number, NULL, 10) : 0;
}

static int is_refused(void) {
    unsigned long now = atomic_fetch_add(&asked, 1) + 1;
    if (refused == 0 || now != refused) {
        return 0;
    }
    errno = ENOMEM;
    return 1;
}

void *malloc(size_t size) {
    return is_refused() ? NULL : __libc_malloc(size);
}

void *calloc(size_t count, size_t size) {
    return is_refused() ? NULL : __libc_calloc(count, size);
}

void *realloc(void *old, size_t size) {
    return is_refused() ? NULL : __libc_realloc(old, size);
}

void *memalign(size_t align, size_t size) {
    return is_refused() ? NULL : __libc_memalign(align, size);
}

void *aligned_alloc(size_t align, size_t size) {
    return memalign(align, size);
}

int posix_memalign(void **into, size_t align, size_t size) {
    void *got = memalign(align, size);
    if (!got) {
        return ENOMEM;
    }
    *into = got;
    return 0;
}

__attribute__((destructor)) static void tell(void) {
    const char *name = getenv("REFUSE_COUNT");
    char digits[24];
    int at = sizeof digits;
    unsigned long left = atomic_load(&asked);
    int file;
    if (!name || (file = open(name, O_WRONLY | O_CREAT | O_TRUNC, 0600)) < 0) {
        return;
    }
    do {
        digits[--at] = (char)('0' + left % 10);
        left /= 10;
    } while (left);
    if (write(file, digits + at, sizeof digits - at) < 0) {
        syscall(SYS_exit_group, 99);
    }
    close(file);
}

/* A program that uses threads ends so, and runs no destructor. */
void _exit(int status) {
    tell();
    syscall(SYS_exit_group, status);
    __builtin_unreachable();
}
