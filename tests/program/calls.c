/* Like fail.c, for system calls other than reads, writes and allocations: `accept4:2` fails the second accept4, and so on with the name of
 * each call below. */
#include "fail.c"
#include <stdarg.h>
#include <stdio.h>
#include <sys/epoll.h>
#include <sys/file.h>
#include <sys/stat.h>

/* Defines a call with this name and these parameters, which it passes on to the system's. */
#define CALL(name, parameters, passed) \
    int name parameters { \
        static int(*next) parameters; \
        if (!next) \
            next = (int(*) parameters)real(#name); \
        if (fails(#name)) { \
            errno = EIO; \
            return -1; \
        } \
        return next passed; \
    }

CALL(accept4, (int listener, __SOCKADDR_ARG address, socklen_t *length, int flags), (listener, address, length, flags))
CALL(bind, (int socket, __CONST_SOCKADDR_ARG address, socklen_t length), (socket, address, length))
CALL(connect, (int socket, __CONST_SOCKADDR_ARG address, socklen_t length), (socket, address, length))
CALL(epoll_create1, (int flags), (flags))
CALL(epoll_ctl, (int poll, int what, int file, struct epoll_event *event), (poll, what, file, event))
CALL(flock, (int file, int how), (file, how))
CALL(ftruncate, (int file, off_t length), (file, length))
CALL(getsockname, (int socket, __SOCKADDR_ARG address, socklen_t *length), (socket, address, length))
CALL(listen, (int socket, int backlog), (socket, backlog))
CALL(rename, (const char *from, const char *to), (from, to))
CALL(shutdown, (int socket, int how), (socket, how))
CALL(socket, (int family, int type, int protocol), (family, type, protocol))
CALL(statx, (int folder, const char *path, int flags, unsigned mask, struct statx *found), (folder, path, flags, mask, found))
CALL(unlink, (const char *path), (path))

int open(const char *path, int flags, ...) {
    static int (*next)(const char *, int, ...);
    if (!next)
        next = (int (*)(const char *, int, ...))real("open");
    if (fails("open")) {
        errno = EIO;
        return -1;
    }
    va_list more;
    va_start(more, flags);
    mode_t mode = flags & (O_CREAT | O_TMPFILE) ? va_arg(more, mode_t) : 0;
    va_end(more);
    return next(path, flags, mode);
}
