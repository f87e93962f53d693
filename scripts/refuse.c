/* Refuses memory: loaded under a program by LD_PRELOAD, it lets the REFUSE-th request for memory fail, and all behind it where REFUSE_ALL is
   set. At the end it writes the number of requests to the file REFUSE_COUNT, where that is set. */
#define _GNU_SOURCE
#include <errno.h>
#include <fcntl.h>
#include <stdio.h>
#include <stdlib.h>
#include <sys/syscall.h>
#include <unistd.h>

extern void *__libc_malloc(size_t), *__libc_calloc(size_t, size_t), *__libc_realloc(void *, size_t), *__libc_memalign(size_t, size_t);

static unsigned long asked, refused;
static int all;

__attribute__((constructor)) static void begin(void) {
    const char *text = getenv("REFUSE");
    refused = text ? strtoul(text, 0, 10) : 0;
    all = getenv("REFUSE_ALL") != 0;
    asked = 0;
}

static void end(void) {
    const char *name = getenv("REFUSE_COUNT");
    int file = name ? open(name, O_WRONLY | O_CREAT | O_TRUNC, 0644) : -1;
    if (file >= 0) dprintf(file, "%lu\n", asked);
}

/* The program ends by this call, which runs no destructor. */
void _exit(int status) {
    end();
    syscall(SYS_exit_group, status);
    __builtin_unreachable();
}

static int is_refused(void) {
    unsigned long number = __sync_add_and_fetch(&asked, 1);
    if (refused && (number == refused || (all && number > refused))) { errno = ENOMEM; return 1; }
    return 0;
}

void *malloc(size_t size) { return is_refused() ? 0 : __libc_malloc(size); }
void *calloc(size_t count, size_t size) { return is_refused() ? 0 : __libc_calloc(count, size); }
void *realloc(void *old, size_t size) { return is_refused() ? 0 : __libc_realloc(old, size); }
void *aligned_alloc(size_t align, size_t size) { return is_refused() ? 0 : __libc_memalign(align, size); }
void *memalign(size_t align, size_t size) { return aligned_alloc(align, size); }

int posix_memalign(void **place, size_t align, size_t size) {
    void *made = aligned_alloc(align, size);
    if (!made) return ENOMEM;
    *place = made;
    return 0;
}
