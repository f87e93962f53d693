/* Lets calls of the system fail: loaded under a program by LD_PRELOAD, it lets the FAULT_READ-th read of a file fail, with EIO, or the
   FAULT_WRITE-th write and all behind it, with ENOSPC, as on a disk that is full. Before the SHRINK-th read the file that is read loses all
   behind what was read of it. At the end it writes the numbers of reads and writes to the file FAULT_COUNT, where that is set. Reads are
   counted until the first write: all inputs are read before. What goes to standard error is not counted. */
#define _GNU_SOURCE
#include <errno.h>
#include <fcntl.h>
#include <stdio.h>
#include <stdlib.h>
#include <sys/stat.h>
#include <sys/syscall.h>
#include <unistd.h>

static unsigned long reads, writes;

static unsigned long number_of(const char *name) {
    const char *text = getenv(name);
    return text ? strtoul(text, 0, 10) : 0;
}

/* The program ends by this call, which runs no destructor. */
void _exit(int status) {
    const char *name = getenv("FAULT_COUNT");
    int file = name ? (int)syscall(SYS_open, name, O_WRONLY | O_CREAT | O_TRUNC, 0644) : -1;
    if (file >= 0) dprintf(file, "%lu %lu\n", reads, writes);
    syscall(SYS_exit_group, status);
    __builtin_unreachable();
}

static void shrink(int file) {
    char path[64];
    snprintf(path, sizeof path, "/proc/self/fd/%d", file);
    if (truncate(path, lseek(file, 0, SEEK_CUR)) != 0) abort();
}

ssize_t read(int file, void *piece, size_t size) {
    struct stat told;
    if (!writes && fstat(file, &told) == 0 && S_ISREG(told.st_mode)) {
        unsigned long number = __sync_add_and_fetch(&reads, 1);
        if (number == number_of("FAULT_READ")) { errno = EIO; return -1; }
        if (number == number_of("SHRINK")) shrink(file);
    }
    return syscall(SYS_read, file, piece, size);
}

ssize_t write(int file, const void *piece, size_t size) {
    unsigned long number = 0, failing = number_of("FAULT_WRITE");
    if (file != 2) number = __sync_add_and_fetch(&writes, 1);
    if (failing && number >= failing) { errno = ENOSPC; return -1; }
    return syscall(SYS_write, file, piece, size);
}
