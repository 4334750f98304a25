// Refuses one allocation of the program that this is loaded into by LD_PRELOAD, and counts all of them. The
// file that REFUSE_COUNTS names holds three numbers of 64 bits: how many allocations come up to the one that
// is refused, and with it, or 0 for none; how many were made; how many were refused.
#define _GNU_SOURCE
#include <dlfcn.h>
#include <errno.h>
#include <fcntl.h>
#include <stddef.h>
#include <stdint.h>
#include <stdlib.h>
#include <sys/mman.h>
#include <unistd.h>

struct counts {
    int64_t left;
    int64_t made;
    int64_t refused;
};

static struct counts none;
static struct counts *counts = &none;

__attribute__((constructor)) static void open_counts(void) {
    const char *path = getenv("REFUSE_COUNTS");
    int file = path ? open(path, O_RDWR | O_CLOEXEC) : -1;
    if (file < 0)
        return;
    void *mapped = mmap(NULL, sizeof(struct counts), PROT_READ | PROT_WRITE, MAP_SHARED, file, 0);
    close(file);
    if (mapped != MAP_FAILED)
        counts = mapped;
}

static int is_refused(void) {
    counts->made += 1;
    if (counts->left == 0 || --counts->left != 0)
        return 0;
    counts->refused += 1;
    errno = ENOMEM;
    return 1;
}

void *malloc(size_t size) {
    static void *(*next)(size_t);
    if (!next)
        next = (void *(*)(size_t))dlsym(RTLD_NEXT, "malloc");
    return is_refused() ? NULL : next(size);
}

void *realloc(void *old, size_t size) {
    static void *(*next)(void *, size_t);
    if (!next)
        next = (void *(*)(void *, size_t))dlsym(RTLD_NEXT, "realloc");
    return is_refused() ? NULL : next(old, size);
}
