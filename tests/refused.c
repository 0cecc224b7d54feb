/* Loaded before the C library of the process: refuses one request for memory, or lets one read or write
   fail, and tells how many there were. For tests/refused-memory; no part of the program. */
#define _GNU_SOURCE
#include <errno.h>
#include <fcntl.h>
#include <stdio.h>
#include <stdlib.h>
#include <string.h>
#include <sys/syscall.h>
#include <unistd.h>

extern void *__libc_malloc(size_t);
extern void *__libc_realloc(void *, size_t);

static long memory, reads, writes, refused_memory, failing_read, failing_write, piece;

static long number(const char *name) {
    const char *text = getenv(name);
    return text ? atol(text) : 0;
}

__attribute__((constructor)) static void begin(void) {
    refused_memory = number("REFUSE_MEMORY");
    failing_read = number("FAIL_READ");
    failing_write = number("FAIL_WRITE");
    piece = number("PIECE");
    memory = reads = writes = 0;
}

__attribute__((destructor)) static void end(void) {
    char line[80];
    const char *to = getenv("COUNTS");
    int file = to ? open(to, O_WRONLY | O_CREAT | O_TRUNC, 0600) : -1;
    if (file >= 0) {
        int length = snprintf(line, sizeof line, "%ld %ld %ld\n", memory, reads, writes);
        syscall(SYS_write, file, line, (size_t)length);
        close(file);
    }
}

void *malloc(size_t size) {
    if (++memory == refused_memory) {
        errno = ENOMEM;
        return NULL;
    }
    return __libc_malloc(size);
}

void *realloc(void *old, size_t size) {
    if (++memory == refused_memory) {
        errno = ENOMEM;
        return NULL;
    }
    return __libc_realloc(old, size);
}

static size_t at_most(size_t size) { return piece && size > (size_t)piece ? (size_t)piece : size; }

ssize_t read(int file, void *to, size_t size) {
    if (++reads == failing_read) {
        errno = EIO;
        return -1;
    }
    return syscall(SYS_read, file, to, at_most(size));
}

ssize_t write(int file, const void *from, size_t size) {
    /* What is told on standard error neither fails nor counts. */
    if (file == 1 && ++writes == failing_write) {
        errno = EIO;
        return -1;
    }
    return syscall(SYS_write, file, from, file == 1 ? at_most(size) : size);
}

ssize_t __write(int file, const void *from, size_t size) { return write(file, from, size); }
