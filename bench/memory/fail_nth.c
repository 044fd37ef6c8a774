// Preloaded beside a program: its call of malloc or realloc with the number FAIL_NTH, from 1, finds no memory. A call of realloc to
// nothing counts too. Where that call was made, a line `failed` is written to the file FAILED_AT.
#include <fcntl.h>
#include <stdlib.h>
#include <unistd.h>

extern void *__libc_malloc(size_t size);
extern void *__libc_realloc(void *block, size_t size);

static long left = -1;

static int fails(void) {
    if (left == -1) {
        const char *text = getenv("FAIL_NTH");
        left = text ? atol(text) : 0;
    }
    if (left == 0 || --left > 0)
        return 0;
    const char *path = getenv("FAILED_AT");
    int file = path ? open(path, O_WRONLY | O_CREAT | O_TRUNC, 0600) : -1;
    if (file >= 0) {
        if (write(file, "failed\n", 7) != 7)
            abort();
        close(file);
    }
    return 1;
}

void *malloc(size_t size) { return fails() ? NULL : __libc_malloc(size); }

void *realloc(void *block, size_t size) { return fails() ? NULL : __libc_realloc(block, size); }
