/* Loaded before the C library: fails the allocation number REFUSE of a program, or the start of the thread number THREAD, and says
   so with a line on standard error. Growths are counted from the first on, and by an atomic step, since threads grow at once. It
   looks at the program from outside; no crate holds C. It says itself what it takes of the C library, since the kit's clang,
   which compiles it, has no headers of that.
   clang -shared -fPIC -O2 -nostdlib -fuse-ld=lld refusals.c -o refusals.so; LD_PRELOAD=./refusals.so REFUSE=3 PROGRAM */
#define NULL ((void *)0)
#define RTLD_NEXT ((void *)-1L)
#define EAGAIN 11
#define ENOMEM 12
#define errno (*__errno_location())

typedef unsigned long size_t;
typedef long ssize_t;
typedef unsigned long pthread_t;
typedef struct pthread_attr pthread_attr_t;

void *dlsym(void *, const char *);
int *__errno_location(void);
char *getenv(const char *);
long atol(const char *);
ssize_t write(int, const void *, size_t);

static void *(*next_malloc)(size_t), *(*next_realloc)(void *, size_t), *(*next_calloc)(size_t, size_t);
static int (*next_memalign)(void **, size_t, size_t);
static void *(*next_aligned)(size_t, size_t);
static int (*next_create)(pthread_t *, const pthread_attr_t *, void *(*)(void *), void *);
static long refused_growth, refused_thread, growths, threads;
/* what dlsym asks for before the functions are found */
static char early[65536];
static size_t used;

static long number(const char *name) {
  const char *text = getenv(name);
  return text ? atol(text) : 0;
}

__attribute__((constructor)) static void start(void) {
  next_calloc = dlsym(RTLD_NEXT, "calloc");
  next_realloc = dlsym(RTLD_NEXT, "realloc");
  next_memalign = dlsym(RTLD_NEXT, "posix_memalign");
  next_aligned = dlsym(RTLD_NEXT, "aligned_alloc");
  next_create = dlsym(RTLD_NEXT, "pthread_create");
  refused_growth = number("REFUSE");
  refused_thread = number("THREAD");
  next_malloc = dlsym(RTLD_NEXT, "malloc");
}

/* Counts, and says that the one that is to be refused was met. */
static int is_met(long *count, long which, const char *line, size_t length) {
  if (which == 0 || __atomic_add_fetch(count, 1, __ATOMIC_SEQ_CST) != which) return 0;
  return write(2, line, length) == (ssize_t)length;
}
static int is_refused(void) {
  static const char line[] = "growth refused\n";
  if (!is_met(&growths, refused_growth, line, sizeof line - 1)) return 0;
  errno = ENOMEM;
  return 1;
}
static void *give_early(size_t n) {
  void *p = early + used;
  used += (n + 15) & ~15UL;
  return p;
}
void *malloc(size_t n) { return !next_malloc ? give_early(n) : is_refused() ? NULL : next_malloc(n); }
void *calloc(size_t a, size_t b) { return !next_malloc ? give_early(a * b) : is_refused() ? NULL : next_calloc(a, b); }
void *realloc(void *p, size_t n) { return is_refused() ? NULL : next_realloc(p, n); }
void *aligned_alloc(size_t a, size_t n) { return is_refused() ? NULL : next_aligned(a, n); }
int posix_memalign(void **p, size_t a, size_t n) { return is_refused() ? ENOMEM : next_memalign(p, a, n); }
int pthread_create(pthread_t *thread, const pthread_attr_t *with, void *(*run)(void *), void *of) {
  static const char line[] = "thread refused\n";
  return is_met(&threads, refused_thread, line, sizeof line - 1) ? EAGAIN : next_create(thread, with, run, of);
}
