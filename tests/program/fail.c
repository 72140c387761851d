/* For tests: a library for LD_PRELOAD that makes one call of one kind fail, according to FAIL. `memory:3` refuses the third allocation, `read:1`
 * fails the first read, `write:2` the second write, `sync:1` the first fsync or fdatasync, and `send:1`, `recv:1` and `setsockopt:1` the first
 * such call at a socket. `write:2+` also fails each later write to the same file. When a call has failed, the file in FAILED is created.
 * `accept4:while` fails each such call while the file in FAILING exists. If KILLS is set, the process is killed instead of failing the call.
 * calls.c handles more kinds. Each read, recv, write and send transfers at most PIECE bytes. */
#define _GNU_SOURCE
#include <dlfcn.h>
#include <errno.h>
#include <fcntl.h>
#include <signal.h>
#include <stdlib.h>
#include <string.h>
#include <sys/socket.h>
#include <unistd.h>

static long left = -1;

/* Whether this call, of this kind, must fail. */
static int fails(const char *kind) {
    const char *fail = getenv("FAIL");
    size_t len = strlen(kind);
    if (!fail || strncmp(fail, kind, len) != 0 || fail[len] != ':')
        return 0;
    const char *meanwhile = getenv("FAILING");
    if (meanwhile)
        return access(meanwhile, F_OK) == 0;
    if (left < 0)
        left = atol(fail + len + 1);
    if (left == 0 || --left > 0)
        return 0;
    const char *path = getenv("FAILED");
    int file = path ? open(path, O_CREAT | O_WRONLY, 0600) : -1;
    if (file >= 0)
        close(file);
    if (getenv("KILLS"))
        kill(getpid(), SIGKILL);
    return 1;
}

/* Whether later calls must fail too. */
static int goes_on(void) {
    const char *fail = getenv("FAIL");
    return fail && strchr(fail, '+');
}

/* Returns how many of these bytes one call transfers. */
static size_t piece(size_t count) {
    const char *text = getenv("PIECE");
    size_t most = text ? strtoul(text, NULL, 10) : 0;
    return most > 0 && most < count ? most : count;
}

static void *real(const char *name) { return dlsym(RTLD_NEXT, name); }

void *malloc(size_t size) {
    static void *(*next)(size_t);
    if (!next)
        next = (void *(*)(size_t))real("malloc");
    if (fails("memory")) {
        errno = ENOMEM;
        return NULL;
    }
    return next(size);
}

void *realloc(void *old, size_t size) {
    static void *(*next)(void *, size_t);
    if (!next)
        next = (void *(*)(void *, size_t))real("realloc");
    if (fails("memory")) {
        errno = ENOMEM;
        return NULL;
    }
    return next(old, size);
}

int fsync(int file) {
    static int (*next)(int);
    if (!next)
        next = (int (*)(int))real("fsync");
    if (fails("sync")) {
        errno = EIO;
        return -1;
    }
    return next(file);
}

int fdatasync(int file) {
    static int (*next)(int);
    if (!next)
        next = (int (*)(int))real("fdatasync");
    if (fails("sync")) {
        errno = EIO;
        return -1;
    }
    return next(file);
}

ssize_t read(int file, void *buffer, size_t count) {
    static ssize_t (*next)(int, void *, size_t);
    if (!next)
        next = (ssize_t(*)(int, void *, size_t))real("read");
    if (fails("read")) {
        errno = EIO;
        return -1;
    }
    return next(file, buffer, piece(count));
}

ssize_t write(int file, const void *buffer, size_t count) {
    static ssize_t (*next)(int, const void *, size_t);
    static int stuck = -1;
    if (!next)
        next = (ssize_t(*)(int, const void *, size_t))real("write");
    if (file == stuck || fails("write")) {
        if (goes_on())
            stuck = file;
        errno = EIO;
        return -1;
    }
    return next(file, buffer, piece(count));
}

ssize_t __write(int file, const void *buffer, size_t count) { return write(file, buffer, count); }

ssize_t send(int socket, const void *buffer, size_t count, int flags) {
    static ssize_t (*next)(int, const void *, size_t, int);
    if (!next)
        next = (ssize_t(*)(int, const void *, size_t, int))real("send");
    if (fails("send")) {
        errno = EIO;
        return -1;
    }
    return next(socket, buffer, piece(count), flags);
}

ssize_t recv(int socket, void *buffer, size_t count, int flags) {
    static ssize_t (*next)(int, void *, size_t, int);
    if (!next)
        next = (ssize_t(*)(int, void *, size_t, int))real("recv");
    if (fails("recv")) {
        errno = EIO;
        return -1;
    }
    return next(socket, buffer, piece(count), flags);
}

int setsockopt(int socket, int level, int option, const void *value, socklen_t length) {
    static int (*next)(int, int, int, const void *, socklen_t);
    if (!next)
        next = (int (*)(int, int, int, const void *, socklen_t))real("setsockopt");
    if (fails("setsockopt")) {
        errno = EIO;
        return -1;
    }
    return next(socket, level, option, value, length);
}
