// Refuses the growth of memory whose number is in REFUSE, counted from 1, and no other. Where that growth comes, it leaves the
// file that REFUSED names. The file that ASKED names says how many bytes the largest growth until now asked for. To be loaded
// before the C library: see refused-growths.
#include <errno.h>
#include <fcntl.h>
#include <stdatomic.h>
#include <stdio.h>
#include <stdlib.h>
#include <unistd.h>

extern void *__libc_malloc(size_t);
extern void *__libc_calloc(size_t, size_t);
extern void *__libc_realloc(void *, size_t);
extern void *__libc_memalign(size_t, size_t);

static atomic_long grown;
static atomic_size_t most;

// Each time that a growth asks for more than all before it.
static void say_most(size_t size) {
    const char *file = getenv("ASKED");
    if (!file)
        return;
    char text[32];
    int length = snprintf(text, sizeof text, "%zu\n", size);
    int to = open(file, O_CREAT | O_WRONLY | O_TRUNC, 0644);
    if (to < 0 || write(to, text, length) != length)
        abort();
    close(to);
}

static int is_refused(size_t size) {
    size_t known = atomic_load(&most);
    while (size > known && !atomic_compare_exchange_weak(&most, &known, size)) {
    }
    if (size > known)
        say_most(size);
    const char *number = getenv("REFUSE");
    if (!number || atomic_fetch_add(&grown, 1) + 1 != atol(number))
        return 0;
    const char *file = getenv("REFUSED");
    if (file)
        close(open(file, O_CREAT | O_WRONLY, 0644));
    errno = ENOMEM;
    return 1;
}

void *malloc(size_t size) { return is_refused(size) ? NULL : __libc_malloc(size); }

void *calloc(size_t count, size_t size) {
    return is_refused(count * size) ? NULL : __libc_calloc(count, size);
}

void *realloc(void *old, size_t size) {
    return is_refused(size) ? NULL : __libc_realloc(old, size);
}

void *aligned_alloc(size_t align, size_t size) {
    return is_refused(size) ? NULL : __libc_memalign(align, size);
}

int posix_memalign(void **made, size_t align, size_t size) {
    if (is_refused(size))
        return ENOMEM;
    *made = __libc_memalign(align, size);
    return *made ? 0 : ENOMEM;
}
