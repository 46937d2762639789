/* Loaded before the C library: counts the bytes that the allocator has given to a program and not got back, and at each of the
   program's lines on standard error that begin with "held" prints their number on standard output. The first other line ends the
   program. It looks at the program from outside; no crate holds C.
   cc -shared -fPIC -O2 held.c -o held.so -ldl; LD_PRELOAD=./held.so PROGRAM */
#define _GNU_SOURCE
#include <dlfcn.h>
#include <malloc.h>
#include <stdio.h>
#include <string.h>
#include <unistd.h>

static void *(*next_malloc)(size_t), *(*next_realloc)(void *, size_t), *(*next_calloc)(size_t, size_t);
static int (*next_memalign)(void **, size_t, size_t);
static void *(*next_aligned)(size_t, size_t);
static void (*next_free)(void *);
static long held;
/* what dlsym asks for before the functions are found */
static char early[65536];
static size_t used;

__attribute__((constructor)) static void start(void) {
  next_calloc = dlsym(RTLD_NEXT, "calloc");
  next_realloc = dlsym(RTLD_NEXT, "realloc");
  next_memalign = dlsym(RTLD_NEXT, "posix_memalign");
  next_aligned = dlsym(RTLD_NEXT, "aligned_alloc");
  next_free = dlsym(RTLD_NEXT, "free");
  next_malloc = dlsym(RTLD_NEXT, "malloc");
}

static int is_early(void *p) { return (char *)p >= early && (char *)p < early + sizeof early; }
static void *given(void *p) {
  if (p && !is_early(p)) held += malloc_usable_size(p);
  return p;
}
static void *give_early(size_t n) {
  void *p = early + used;
  used += (n + 15) & ~15UL;
  return p;
}
void *malloc(size_t n) { return next_malloc ? given(next_malloc(n)) : give_early(n); }
void *calloc(size_t a, size_t b) { return next_malloc ? given(next_calloc(a, b)) : give_early(a * b); }
void *aligned_alloc(size_t a, size_t n) { return given(next_aligned(a, n)); }
int posix_memalign(void **p, size_t a, size_t n) {
  int failed = next_memalign(p, a, n);
  if (!failed) given(*p);
  return failed;
}
void free(void *p) {
  if (!p || is_early(p)) return;
  held -= malloc_usable_size(p);
  next_free(p);
}
void *realloc(void *p, size_t n) {
  if (p && is_early(p)) return memcpy(malloc(n), p, n);
  long before = p ? malloc_usable_size(p) : 0;
  void *moved = next_realloc(p, n);
  if (moved) held += malloc_usable_size(moved) - before;
  return moved;
}
ssize_t write(int file, const void *text, size_t n) {
  ssize_t (*next_write)(int, const void *, size_t) = dlsym(RTLD_NEXT, "write");
  static int within;
  const char *line = text;
  if (file != 2) return next_write(file, text, n);
  /* a line may come in several pieces */
  if (!within) {
    if (n < 4 || memcmp(line, "held", 4)) _exit(0);
    char told[32];
    int length = snprintf(told, sizeof told, "%ld\n", held);
    next_write(1, told, length);
  }
  within = n == 0 || line[n - 1] != '\n';
  return n;
}
