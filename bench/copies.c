// Stands in for memcpy, memmove and memset of the C library (LD_PRELOAD), and tells at the end how many bytes were copied and how many filled.
#include <stddef.h>
#include <stdio.h>

static size_t copied, filled;

void *memmove(void *to, const void *from, size_t n) {
    volatile unsigned char *t = to;
    const unsigned char *f = from;
    copied += n;
    if (t < f)
        for (size_t i = 0; i < n; i++) t[i] = f[i];
    else
        for (size_t i = n; i > 0; i--) t[i - 1] = f[i - 1];
    return to;
}

void *memcpy(void *to, const void *from, size_t n) { return memmove(to, from, n); }

void *memset(void *to, int value, size_t n) {
    volatile unsigned char *t = to;
    filled += n;
    for (size_t i = 0; i < n; i++) t[i] = (unsigned char)value;
    return to;
}

__attribute__((destructor)) static void tell(void) { fprintf(stderr, "%zu %zu\n", copied, filled); }
