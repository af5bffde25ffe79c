/* Refuses the request for memory with the number REFUSE_AT, counted from 1, and lets all others through. With
   REFUSE_COUNT set, the number of requests is written to standard error at the end. To be preloaded; see `run`. */
#include <errno.h>
#include <stddef.h>
#include <stdlib.h>
#include <unistd.h>

extern void *__libc_malloc(size_t);
extern void *__libc_calloc(size_t, size_t);
extern void *__libc_realloc(void *, size_t);
extern void *__libc_memalign(size_t, size_t);

static long requests, refuse_at = -1;
static int counting;

static int refused(void) { return counting && ++requests == refuse_at && (errno = ENOMEM); }

__attribute__((constructor)) static void begin(void) {
    char *at = getenv("REFUSE_AT");
    if (at) refuse_at = atol(at);
    counting = 1;
}

__attribute__((destructor)) static void end(void) {
    char digits[24];
    int first = sizeof digits;
    long left = requests;
    if (!getenv("REFUSE_COUNT")) return;
    digits[--first] = '\n';
    do digits[--first] = '0' + left % 10; while (left /= 10);
    if (write(2, digits + first, sizeof digits - first) < 0) _exit(5);
}

void *malloc(size_t size) { return refused() ? NULL : __libc_malloc(size); }
void *calloc(size_t count, size_t size) { return refused() ? NULL : __libc_calloc(count, size); }
void *realloc(void *old, size_t size) { return refused() ? NULL : __libc_realloc(old, size); }
void *memalign(size_t to, size_t size) { return refused() ? NULL : __libc_memalign(to, size); }
void *aligned_alloc(size_t to, size_t size) { return refused() ? NULL : __libc_memalign(to, size); }
int posix_memalign(void **out, size_t to, size_t size) {
    void *made = refused() ? NULL : __libc_memalign(to, size);
    if (!made) return ENOMEM;
    *out = made;
    return 0;
}
