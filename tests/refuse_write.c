/* Refuses or notes calls that change files: LD_PRELOAD=refuse_write.so REFUSE_PATH=path .. PROGRAM ..
   The calls of all threads that write, cut or sync a file whose name begins with that path are counted. With REFUSE_NTH=n the
   nth is refused, with the error REFUSE_ERRNO; with REFUSE_ALL=1 so is each behind it; and with REFUSE_HALF=1 the nth puts half
   of its bytes, if it writes. Where one was refused, the file that REFUSED names is made. With NOTED each call that is made is
   noted in the file that it names: a line with a letter (w, c or s), the file's name, the place and the number of bytes, and
   behind it the bytes that were written. */
#define _GNU_SOURCE
#include <errno.h>
#include <fcntl.h>
#include <limits.h>
#include <stdio.h>
#include <stdlib.h>
#include <string.h>
#include <sys/syscall.h>
#include <sys/types.h>
#include <sys/uio.h>
#include <unistd.h>

static long counted = 0;

/* Puts bytes into the file that a variable names, if it is set. */
static void put(const char *variable, const char *line, const void *bytes, size_t count) {
    const char *path = getenv(variable);
    int file = path ? (int)syscall(SYS_openat, AT_FDCWD, path, O_CREAT | O_WRONLY | O_APPEND, 0600) : -1;
    struct iovec parts[2] = {{(void *)line, strlen(line)}, {(void *)bytes, count}};
    if (file < 0)
        return;
    syscall(SYS_writev, file, parts, 2);
    syscall(SYS_close, file);
}

/* The name of a file, without its folder; or NULL, where it is none of those whose calls are counted. */
static const char *counted_name(int file, char *name) {
    const char *path = getenv("REFUSE_PATH");
    char link[64];
    snprintf(link, sizeof link, "/proc/self/fd/%d", file);
    ssize_t length = path ? readlink(link, name, PATH_MAX - 1) : -1;
    if (length < 0)
        return NULL;
    name[length] = 0;
    return strncmp(name, path, strlen(path)) == 0 ? strrchr(name, '/') + 1 : NULL;
}

/* Whether a call on a file is refused: 0, 1, or 2 if it is the nth. */
static int is_refused(int file) {
    char name[PATH_MAX];
    if (counted_name(file, name) == NULL)
        return 0;
    const char *number = getenv("REFUSE_NTH");
    long wanted = number ? atol(number) : 0, now = __sync_add_and_fetch(&counted, 1);
    if (wanted < 1 || now < wanted || (now > wanted && getenv("REFUSE_ALL") == NULL))
        return 0;
    put("REFUSED", "x", "", 0);
    return now == wanted ? 2 : 1;
}

/* The error that is wanted. */
static int failed(void) {
    const char *number = getenv("REFUSE_ERRNO");
    errno = number ? atoi(number) : EIO;
    return -1;
}

/* Notes a call that was made. */
static void note(char kind, int file, long at, const void *bytes, size_t count) {
    char name[PATH_MAX], line[PATH_MAX + 64];
    int kept = errno;
    const char *own = counted_name(file, name);
    if (own != NULL) {
        snprintf(line, sizeof line, "%c %s %ld %zu\n", kind, own, at, count);
        put("NOTED", line, bytes, count);
    }
    errno = kept;
}

static ssize_t written(int file, const void *bytes, size_t count, off_t at) {
    int refused = is_refused(file);
    if (refused == 2 && getenv("REFUSE_HALF") != NULL && count > 1) {
        refused = 0;
        count /= 2;
    }
    if (refused)
        return failed();
    long done = at < 0 ? syscall(SYS_write, file, bytes, count) : syscall(SYS_pwrite64, file, bytes, count, at);
    if (done >= 0)
        note('w', file, at, bytes, done);
    return done;
}

ssize_t write(int file, const void *bytes, size_t count) { return written(file, bytes, count, -1); }

ssize_t pwrite(int file, const void *bytes, size_t count, off_t at) { return written(file, bytes, count, at); }

ssize_t pwrite64(int file, const void *bytes, size_t count, off64_t at) { return written(file, bytes, count, at); }

int ftruncate(int file, off_t length) {
    int done = is_refused(file) ? failed() : (int)syscall(SYS_ftruncate, file, length);
    if (done == 0)
        note('c', file, length, "", 0);
    return done;
}

int ftruncate64(int file, off64_t length) { return ftruncate(file, length); }

int fsync(int file) {
    int done = is_refused(file) ? failed() : (int)syscall(SYS_fsync, file);
    if (done == 0)
        note('s', file, 0, "", 0);
    return done;
}

int fdatasync(int file) {
    int done = is_refused(file) ? failed() : (int)syscall(SYS_fdatasync, file);
    if (done == 0)
        note('s', file, 0, "", 0);
    return done;
}
