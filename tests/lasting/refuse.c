// Loaded with LD_PRELOAD: the call with the number in REFUSE, counted from 1, of those that change what is on the disk fails with EIO. A write writes half of
// its bytes first. Each of these calls adds a byte to the file that is named in COUNT.
#define _GNU_SOURCE
#include <dlfcn.h>
#include <errno.h>
#include <fcntl.h>
#include <stdlib.h>
#include <sys/syscall.h>
#include <sys/types.h>
#include <unistd.h>

static long made;

// Counts a call, and says whether it is the one that fails.
static int is_refused(void) {
    const char *which = getenv("REFUSE"), *name = getenv("COUNT");
    int count = name ? open(name, O_WRONLY | O_CREAT | O_APPEND, 0666) : -1;
    if (count >= 0) {
        syscall(SYS_write, count, ".", 1);
        close(count);
    }
    return ++made == (which ? atol(which) : 0);
}

static int refused(void) {
    errno = EIO;
    return -1;
}

#define REAL(type, name, ...) ((type (*)(__VA_ARGS__))dlsym(RTLD_NEXT, name))

ssize_t pwrite64(int file, const void *bytes, size_t count, off_t at) {
    ssize_t (*real)(int, const void *, size_t, off_t) = REAL(ssize_t, "pwrite64", int, const void *, size_t, off_t);
    if (!is_refused()) return real(file, bytes, count, at);
    real(file, bytes, count / 2, at);
    return refused();
}

ssize_t pwrite(int file, const void *bytes, size_t count, off_t at) {
    return pwrite64(file, bytes, count, at);
}

ssize_t write(int file, const void *bytes, size_t count) {
    ssize_t (*real)(int, const void *, size_t) = REAL(ssize_t, "write", int, const void *, size_t);
    if (file <= 2 || !is_refused()) return real(file, bytes, count);
    real(file, bytes, count / 2);
    return refused();
}

int fdatasync(int file) {
    return is_refused() ? refused() : REAL(int, "fdatasync", int)(file);
}

int fsync(int file) {
    return is_refused() ? refused() : REAL(int, "fsync", int)(file);
}

int ftruncate64(int file, off_t length) {
    return is_refused() ? refused() : REAL(int, "ftruncate64", int, off_t)(file, length);
}

int ftruncate(int file, off_t length) {
    return ftruncate64(file, length);
}

int rename(const char *from, const char *to) {
    return is_refused() ? refused() : REAL(int, "rename", const char *, const char *)(from, to);
}
