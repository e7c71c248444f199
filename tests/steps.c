/* Stands between host/desk.c and the system, put there by the linker's --wrap. It counts the calls of the system from 1 on; at the one that STEP names
 * the process is killed (STEP_DOES=kill), or the call fails (STEP_DOES=fail), a writing after half of its bytes. The calls are written to the file that
 * STEPS names, a line each. */
#define _POSIX_C_SOURCE 200809L
#include <errno.h>
#include <fcntl.h>
#include <signal.h>
#include <stdarg.h>
#include <stdio.h>
#include <stdlib.h>
#include <string.h>
#include <sys/types.h>
#include <unistd.h>

int __real_open(const char *path, int flags, ...);
ssize_t __real_read(int fd, void *to, size_t n);
ssize_t __real_write(int fd, const void *from, size_t n);
int __real_fsync(int fd);
int __real_rename(const char *from, const char *to);
int __real_link(const char *from, const char *to);
int __real_unlink(const char *path);
int __real_fflush(FILE *file);

static int here(const char *call, const char *path) {
    static int count;
    const char *step = getenv("STEP"), *steps = getenv("STEPS"), *slash = path == NULL ? NULL : strrchr(path, '/');
    FILE *log = steps == NULL ? NULL : fopen(steps, "a");
    if (log != NULL) {
        fprintf(log, "%s%s%s\n", call, path == NULL ? "" : " ", path == NULL ? "" : slash == NULL ? path : slash + 1);
        fclose(log);
    }
    return step != NULL && ++count == atoi(step);
}

static int stopped(void) {
    const char *does = getenv("STEP_DOES");
    if (does != NULL && strcmp(does, "kill") == 0) raise(SIGKILL);
    errno = EIO;
    return -1;
}

int __wrap_open(const char *path, int flags, ...) {
    int mode = 0;
    if (flags & O_CREAT) {
        va_list more;
        va_start(more, flags);
        mode = va_arg(more, int);
        va_end(more);
    }
    return here("open", path) ? stopped() : __real_open(path, flags, mode);
}

ssize_t __wrap_write(int fd, const void *from, size_t n) {
    if (!here("write", NULL)) return __real_write(fd, from, n);
    return __real_write(fd, from, n / 2) < 0 ? -1 : stopped();
}

ssize_t __wrap_read(int fd, void *to, size_t n) { return here("read", NULL) ? stopped() : __real_read(fd, to, n); }
int __wrap_fsync(int fd) { return here("fsync", NULL) ? stopped() : __real_fsync(fd); }
int __wrap_rename(const char *from, const char *to) { return here("rename", to) ? stopped() : __real_rename(from, to); }
int __wrap_link(const char *from, const char *to) { return here("link", to) ? stopped() : __real_link(from, to); }
int __wrap_unlink(const char *path) { return here("unlink", path) ? stopped() : __real_unlink(path); }
int __wrap_fflush(FILE *file) { return here("fflush", NULL) ? stopped() : __real_fflush(file); }
