/* Loaded before the C library of the process: each read and each write moves at most PIECE bytes, and the file COUNTS
   gets how many of them were made shorter. For tests/files; no part of the program. */
#define _GNU_SOURCE
#include <fcntl.h>
#include <stdio.h>
#include <stdlib.h>
#include <sys/syscall.h>
#include <unistd.h>

static long piece, shorter;

__attribute__((constructor)) static void begin(void) {
    const char *text = getenv("PIECE");
    piece = text ? atol(text) : 0;
}

__attribute__((destructor)) static void end(void) {
    char line[40];
    const char *to = getenv("COUNTS");
    int file = to ? open(to, O_WRONLY | O_CREAT | O_TRUNC, 0600) : -1;
    if (file >= 0) {
        int length = snprintf(line, sizeof line, "%ld\n", shorter);
        syscall(SYS_write, file, line, (size_t)length);
        close(file);
    }
}

static size_t at_most(size_t size) {
    if (piece && size > (size_t)piece) {
        shorter++;
        return (size_t)piece;
    }
    return size;
}

ssize_t read(int file, void *to, size_t size) { return syscall(SYS_read, file, to, at_most(size)); }

ssize_t write(int file, const void *from, size_t size) { return syscall(SYS_write, file, from, at_most(size)); }

ssize_t __write(int file, const void *from, size_t size) { return write(file, from, size); }

ssize_t pread(int file, void *to, size_t size, off_t at) { return syscall(SYS_pread64, file, to, at_most(size), at); }

ssize_t pread64(int file, void *to, size_t size, off64_t at) { return syscall(SYS_pread64, file, to, at_most(size), at); }
