/* Loaded before a program: its allocation of the number REFUSE, counted from 1, is refused. With COUNTED the file of that name gets the
   number of allocations so far. */
#include <errno.h>
#include <fcntl.h>
#include <stddef.h>
#include <stdio.h>
#include <stdlib.h>
#include <unistd.h>

extern void *__libc_malloc(size_t), *__libc_calloc(size_t, size_t), *__libc_realloc(void *, size_t), *__libc_memalign(size_t, size_t);

static long refused = -1, made = 0;

static int stands(void) {
    if (refused < 0) {
        const char *words = getenv("REFUSE");
        refused = words ? atol(words) : 0;
    }
    made += 1;
    const char *path = getenv("COUNTED");
    if (path) {
        char text[24];
        int file = open(path, O_WRONLY | O_CREAT | O_TRUNC, 0600);
        int length = snprintf(text, sizeof text, "%ld", made);
        if (write(file, text, (size_t)length) != length) _exit(70);
        close(file);
    }
    if (made != refused) return 1;
    errno = ENOMEM;
    return 0;
}

void *malloc(size_t size) { return stands() ? __libc_malloc(size) : NULL; }
void *calloc(size_t count, size_t size) { return stands() ? __libc_calloc(count, size) : NULL; }
void *realloc(void *old, size_t size) { return stands() ? __libc_realloc(old, size) : NULL; }
void *memalign(size_t align, size_t size) { return stands() ? __libc_memalign(align, size) : NULL; }
void *aligned_alloc(size_t align, size_t size) { return memalign(align, size); }
int posix_memalign(void **place, size_t align, size_t size) {
    void *room = memalign(align, size);
    if (room == NULL) return ENOMEM;
    *place = room;
    return 0;
}
