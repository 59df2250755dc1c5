"""What `refuse` and `growths` refuse requests for memory by: a part of a C library that stands before the C library's own calls. The text before it declares size_t, dlsym, getenv, atol and
NULL; between FOUND and CALLS stands `is_refused`, which says of each request whether it is refused, and a constructor that calls `find`."""

FOUND = r"""
static long refused = -1;
static int report = -1;
static void *(*next_malloc)(size_t), *(*next_calloc)(size_t, size_t), *(*next_realloc)(void *, size_t), *(*next_aligned)(size_t, size_t);
static int (*next_memalign)(void **, size_t, size_t);
static char early[65536]; static size_t early_used;
static void find(void) {
    next_malloc = dlsym((void *)-1, "malloc"); next_calloc = dlsym((void *)-1, "calloc"); next_realloc = dlsym((void *)-1, "realloc");
    next_aligned = dlsym((void *)-1, "aligned_alloc"); next_memalign = dlsym((void *)-1, "posix_memalign");
    const char *n = getenv("REFUSED"); if (n) refused = atol(n);
    const char *r = getenv("REPORT"); if (r) report = atol(r);
}
"""

CALLS = r"""
void *malloc(size_t n) { if (!next_malloc) { void *p = early + early_used; early_used += (n + 15) / 16 * 16; return p; } return is_refused() ? NULL : next_malloc(n); }
void *calloc(size_t a, size_t b) {
    if (!next_calloc) { void *p = early + early_used; early_used += (a * b + 15) / 16 * 16; return p; }
    return is_refused() ? NULL : next_calloc(a, b);
}
void *realloc(void *p, size_t n) { return is_refused() ? NULL : next_realloc(p, n); }
void *aligned_alloc(size_t a, size_t n) { return is_refused() ? NULL : next_aligned(a, n); }
int posix_memalign(void **p, size_t a, size_t n) { return is_refused() ? 12 : next_memalign(p, a, n); }
"""
