/* A library for LD_PRELOAD: of a program's requests for memory the one whose number, from 1, stands in REFUSED_GROWTH is refused. At the end the number of requests is
   written, in ten digits, at the beginning of the file that GROWTHS names. */
#define _GNU_SOURCE
#include <errno.h>
#include <fcntl.h>
#include <stddef.h>
#include <stdio.h>
#include <stdlib.h>
#include <unistd.h>

extern void *__libc_malloc(size_t size);
extern void *__libc_calloc(size_t count, size_t size);
extern void *__libc_realloc(void *block, size_t size);
extern void *__libc_memalign(size_t alignment, size_t size);

static unsigned long requests, refused;
static int is_ready;

static int is_refused(void) {
    if (!is_ready) return 0;
    requests++;
    return requests == refused;
}

__attribute__((constructor)) static void begin(void) {
    const char *number = getenv("REFUSED_GROWTH");
    if (number) refused = strtoul(number, NULL, 10);
    is_ready = 1;
}

__attribute__((destructor)) static void end(void) {
    is_ready = 0;
    const char *file = getenv("GROWTHS");
    if (!file) return;
    char text[16];
    int length = snprintf(text, sizeof text, "%010lu\n", requests), f = open(file, O_CREAT | O_WRONLY, 0600);
    if (f < 0) return;
    if (write(f, text, (size_t)length) != length) _exit(99);
    close(f);
}

void *malloc(size_t size) {
    if (is_refused()) return errno = ENOMEM, NULL;
    return __libc_malloc(size);
}

void *calloc(size_t count, size_t size) {
    if (is_refused()) return errno = ENOMEM, NULL;
    return __libc_calloc(count, size);
}

void *realloc(void *block, size_t size) {
    if (is_refused()) return errno = ENOMEM, NULL;
    return __libc_realloc(block, size);
}

void *aligned_alloc(size_t alignment, size_t size) {
    if (is_refused()) return errno = ENOMEM, NULL;
    return __libc_memalign(alignment, size);
}

void *memalign(size_t alignment, size_t size) {
    if (is_refused()) return errno = ENOMEM, NULL;
    return __libc_memalign(alignment, size);
}

int posix_memalign(void **block, size_t alignment, size_t size) {
    if (is_refused()) return ENOMEM;
    *block = __libc_memalign(alignment, size);
    return *block ? 0 : ENOMEM;
}
