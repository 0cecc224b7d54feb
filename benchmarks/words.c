/* Loaded before the C library of the process: gives its main the words of the file WORDS, each ended by a zero
   byte, in place of those of the command line, of which the kernel takes no word above 128 KiB. For keys.sh. */
#define _GNU_SOURCE
#include <dlfcn.h>
#include <fcntl.h>
#include <stdlib.h>
#include <sys/stat.h>
#include <unistd.h>

typedef int (*start)(int (*)(int, char **, char **), int, char **, void (*)(void), void (*)(void), void (*)(void), void *);

static char *words[16];

int __libc_start_main(int (*main)(int, char **, char **), int argc, char **argv, void (*init)(void),
                      void (*fini)(void), void (*end)(void), void *stack) {
    start real = (start)dlsym(RTLD_NEXT, "__libc_start_main");
    const char *path = getenv("WORDS");
    int file = path ? open(path, O_RDONLY) : -1;
    struct stat of;
    if (file >= 0 && fstat(file, &of) == 0) {
        char *text = malloc((size_t)of.st_size + 1);
        ssize_t length = text ? read(file, text, (size_t)of.st_size) : -1;
        words[0] = argv[0];
        argc = 1;
        for (ssize_t at = 0, from = 0; at < length && argc < 15; at++)
            if (text[at] == '\0') {
                words[argc++] = text + from;
                from = at + 1;
            }
        close(file);
        argv = words;
    }
    return real(main, argc, argv, init, fini, end, stack);
}
