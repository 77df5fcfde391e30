/* Is loaded before the allocator of the C library. Each request's size is written as a line to the file descriptor in
 * REQUESTS; the request whose number, from 1, is REFUSED is refused. */
#include <errno.h>
#include <stdio.h>
#include <stdlib.h>
#include <unistd.h>

void *__libc_malloc(size_t size);
void *__libc_calloc(size_t count, size_t size);
void *__libc_realloc(void *old, size_t size);
void *__libc_memalign(size_t alignment, size_t size);

static int requests_to = -1;
static long refused;
static long requests;

__attribute__((constructor)) static void begin(void) {
    refused = atol(getenv("REFUSED"));
    requests_to = atoi(getenv("REQUESTS"));
}

static int is_refused(size_t size) {
    if (requests_to < 0)
        return 0;
    char line[32];
    int length = snprintf(line, sizeof line, "%zu\n", size);
    if (write(requests_to, line, length) != length)
        abort();
    requests++;
    if (requests != refused)
        return 0;
    errno = ENOMEM;
    return 1;
}

void *malloc(size_t size) {
    return is_refused(size) ? NULL : __libc_malloc(size);
}

void *calloc(size_t count, size_t size) {
    return is_refused(count * size) ? NULL : __libc_calloc(count, size);
}

void *realloc(void *old, size_t size) {
    return is_refused(size) ? NULL : __libc_realloc(old, size);
}

void *memalign(size_t alignment, size_t size) {
    return is_refused(size) ? NULL : __libc_memalign(alignment, size);
}

void *aligned_alloc(size_t alignment, size_t size) {
    return memalign(alignment, size);
}

int posix_memalign(void **result, size_t alignment, size_t size) {
    void *block = memalign(alignment, size);
    if (!block)
        return ENOMEM;
    *result = block;
    return 0;
}
