/* A library that is preloaded (LD_PRELOAD) to let one system call of a program go wrong; tests/faults-check makes it and says which.
   FAULTS_AT: the call, counted from 1 over all that stand here. FAULTS_DO: what becomes of it, see `enum deed`. FAULTS_LOG: a file that gets a
   line for each call when the program ends, by tabs: its name, its descriptor or path, what that is, of the kinds of `kinds` below, and its path. */
#define _GNU_SOURCE
#include <dlfcn.h>
#include <errno.h>
#include <fcntl.h>
#include <signal.h>
#include <stdarg.h>
#include <stdio.h>
#include <stdlib.h>
#include <string.h>
#include <sys/file.h>
#include <sys/stat.h>
#include <sys/syscall.h>
#include <unistd.h>

/* Nothing; the call fails with an error, once, or from then on at the same descriptor or path; a read or a write takes one byte; the program is
   killed before the call; it is killed when half of a write is done; half of a write is done, and those that follow at the descriptor have no room. */
enum deed { NOTHING, FAIL, DEAD, SHORT, KILL, HALF, FULL };
/* What is left to do at a call. */
enum course { GO, REFUSE, ONE, MIDDLE };

#define LOG_ROOM 1000000
#define DESCRIPTORS 1024

static char log_text[LOG_ROOM];
static size_t log_size;
static unsigned long calls, at;
static enum deed deed;
static int error;
/* The call that goes on failing, and of what. */
static const char *dead_name;
static char dead_of[4096];
/* What each descriptor is: `s` a standard stream, `r` open for reading, `w` for writing, `d` a folder, `-` not opened here. */
static char kinds[DESCRIPTORS];
/* The path by which each was opened. */
static char paths[DESCRIPTORS][256];

__attribute__((constructor)) static void begin(void)
{
    const char *number = getenv("FAULTS_AT"), *what = getenv("FAULTS_DO");
    memset(kinds, '-', sizeof kinds);
    memset(kinds, 's', 3);
    at = number ? strtoul(number, NULL, 10) : 0;
    if (!at || !what)
        return;
    static const struct {
        const char *word;
        enum deed deed;
    } words[] = {{"short", SHORT}, {"kill", KILL}, {"half", HALF}, {"full", FULL}};
    for (size_t i = 0; i < sizeof words / sizeof words[0]; i++)
        if (!strcmp(what, words[i].word))
            deed = words[i].deed;
    if (deed == FULL)
        error = ENOSPC;
    if (deed == NOTHING) {
        deed = strncmp(what, "dead ", 5) ? FAIL : DEAD;
        error = atoi(deed == DEAD ? what + 5 : what);
    }
}

/* The log is written by system calls alone, so that it is none of the calls that it tells of. */
__attribute__((destructor)) static void end(void)
{
    const char *path = getenv("FAULTS_LOG");
    long fd = path ? syscall(SYS_openat, AT_FDCWD, path, O_WRONLY | O_CREAT | O_TRUNC, 0666) : -1;
    if (fd < 0)
        return;
    syscall(SYS_write, fd, log_text, log_size);
    syscall(SYS_close, fd);
}

static int is_kept(int fd)
{
    return 0 <= fd && fd < DESCRIPTORS;
}

static void die(void)
{
    kill(getpid(), SIGKILL);
}

/* Logs a call, and says what is to become of it. */
static enum course turn(const char *name, const char *of, char kind, const char *path)
{
    calls++;
    int n = snprintf(log_text + log_size, LOG_ROOM - log_size, "%s\t%s\t%c\t%s\n", name, of, kind, path);
    if (0 < n && log_size + (size_t)n < LOG_ROOM)
        log_size += (size_t)n;
    if (dead_name && !strcmp(name, dead_name) && !strcmp(of, dead_of)) {
        errno = error;
        return REFUSE;
    }
    if (calls != at)
        return GO;
    if (deed == DEAD || deed == FULL) {
        dead_name = name;
        snprintf(dead_of, sizeof dead_of, "%s", of);
    }
    switch (deed) {
    case DEAD:
    case FAIL:
        errno = error;
        return REFUSE;
    case SHORT:
        return ONE;
    case KILL:
        die();
        return GO;
    case HALF:
    case FULL:
        return MIDDLE;
    default:
        return GO;
    }
}

static enum course turn_of(const char *name, int fd)
{
    char of[16];
    snprintf(of, sizeof of, "%d", fd);
    return turn(name, of, is_kept(fd) ? kinds[fd] : '-', is_kept(fd) ? paths[fd] : "");
}

/* The function of the C library that stands behind one of these. */
#define NEXT(name, type, ...)                                    \
    static type (*next)(__VA_ARGS__);                            \
    if (!next)                                                   \
        next = (type(*)(__VA_ARGS__))dlsym(RTLD_NEXT, name)

/* ---- Files opened and closed. */

static int opened(int fd, int flags, const char *path)
{
    struct stat status;
    if (is_kept(fd)) {
        snprintf(paths[fd], sizeof paths[fd], "%s", path);
        kinds[fd] = (flags & O_ACCMODE) == O_RDONLY ? 'r' : 'w';
        if (syscall(SYS_fstat, fd, &status) == 0 && S_ISDIR(status.st_mode))
            kinds[fd] = 'd';
    }
    return fd;
}

static mode_t mode_of(int flags, va_list list)
{
    return flags & (O_CREAT | O_TMPFILE) ? va_arg(list, mode_t) : 0;
}

#define OPEN(name)                                                        \
    int name(const char *path, int flags, ...)                            \
    {                                                                     \
        NEXT(#name, int, const char *, int, ...);                         \
        va_list list;                                                     \
        va_start(list, flags);                                            \
        mode_t mode = mode_of(flags, list);                               \
        va_end(list);                                                     \
        char kind = (flags & O_ACCMODE) == O_RDONLY ? 'r' : 'w';          \
        if (turn(flags & O_CREAT ? "create" : "open", path, kind, path) == REFUSE) \
            return -1;                                                    \
        return opened(next(path, flags, mode), flags, path);              \
    }
OPEN(open)
OPEN(open64)

#define OPENAT(name)                                                      \
    int name(int folder, const char *path, int flags, ...)                \
    {                                                                     \
        NEXT(#name, int, int, const char *, int, ...);                    \
        va_list list;                                                     \
        va_start(list, flags);                                            \
        mode_t mode = mode_of(flags, list);                               \
        va_end(list);                                                     \
        char kind = (flags & O_ACCMODE) == O_RDONLY ? 'r' : 'w';          \
        if (turn(flags & O_CREAT ? "create" : "open", path, kind, path) == REFUSE) \
            return -1;                                                    \
        return opened(next(folder, path, flags, mode), flags, path);      \
    }
OPENAT(openat)
OPENAT(openat64)

#define TEMPORARY(name)                              \
    int name(char *path)                             \
    {                                                \
        NEXT(#name, int, char *);                    \
        if (turn("create", path, 'w', path) == REFUSE) \
            return -1;                               \
        int fd = next(path);                         \
        return opened(fd, O_RDWR, path);             \
    }
TEMPORARY(mkstemp)
TEMPORARY(mkstemp64)

/* One that fails is closed all the same, as Linux does it. */
int close(int fd)
{
    NEXT("close", int, int);
    enum course course = turn_of("close", fd);
    if (is_kept(fd))
        kinds[fd] = '-';
    if (course != REFUSE)
        return next(fd);
    int kept = errno;
    next(fd);
    errno = kept;
    return -1;
}

/* ---- Bytes moved. */

#define LEAST(a, b) ((a) < (b) ? (a) : (b))

ssize_t read(int fd, void *bytes, size_t size)
{
    NEXT("read", ssize_t, int, void *, size_t);
    switch (turn_of("read", fd)) {
    case REFUSE:
        return -1;
    case ONE:
    case MIDDLE:
        return next(fd, bytes, LEAST(size, 1));
    default:
        return next(fd, bytes, size);
    }
}

ssize_t write(int fd, const void *bytes, size_t size)
{
    NEXT("write", ssize_t, int, const void *, size_t);
    ssize_t put;
    switch (turn_of("write", fd)) {
    case REFUSE:
        return -1;
    case ONE:
        return next(fd, bytes, LEAST(size, 1));
    case MIDDLE:
        put = next(fd, bytes, size / 2);
        if (deed == HALF)
            die();
        return put;
    default:
        return next(fd, bytes, size);
    }
}

#define PLACED(name, word, bytes_type)                                                 \
    ssize_t name(int fd, bytes_type bytes, size_t size, off_t place)                   \
    {                                                                                  \
        NEXT(#name, ssize_t, int, bytes_type, size_t, off_t);                          \
        switch (turn_of(word, fd)) {                                                   \
        case REFUSE:                                                                   \
            return -1;                                                                 \
        case ONE:                                                                      \
            return next(fd, bytes, LEAST(size, 1), place);                             \
        case MIDDLE: {                                                                 \
            ssize_t put = next(fd, bytes, size / 2, place);                            \
            if (deed == HALF)                                                          \
                die();                                                                 \
            return put;                                                                \
        }                                                                              \
        default:                                                                       \
            return next(fd, bytes, size, place);                                       \
        }                                                                              \
    }
PLACED(pread, "read", void *)
PLACED(pread64, "read", void *)
PLACED(pwrite, "write", const void *)
PLACED(pwrite64, "write", const void *)

/* ---- A call of a descriptor, and one of a path. */

#define OF_DESCRIPTOR(name, word, type, parameters, ...) \
    type name(int fd parameters)                         \
    {                                                    \
        NEXT(#name, type, int parameters);               \
        if (turn_of(word, fd) == REFUSE)                 \
            return -1;                                   \
        return next(fd __VA_ARGS__);                     \
    }
#define WITH ,
OF_DESCRIPTOR(lseek, "lseek", off_t, WITH off_t place WITH int whence, WITH place WITH whence)
OF_DESCRIPTOR(lseek64, "lseek", off_t, WITH off_t place WITH int whence, WITH place WITH whence)
OF_DESCRIPTOR(ftruncate, "ftruncate", int, WITH off_t size, WITH size)
OF_DESCRIPTOR(ftruncate64, "ftruncate", int, WITH off_t size, WITH size)
OF_DESCRIPTOR(fsync, "fsync", int, , )
OF_DESCRIPTOR(fdatasync, "fsync", int, , )
OF_DESCRIPTOR(flock, "flock", int, WITH int how, WITH how)
OF_DESCRIPTOR(fchmod, "fchmod", int, WITH mode_t mode, WITH mode)
OF_DESCRIPTOR(fstat, "fstat", int, WITH struct stat *status, WITH status)
OF_DESCRIPTOR(fchown, "fchown", int, WITH uid_t user WITH gid_t group, WITH user WITH group)

#define OF_PATH(name, word, parameters, ...)          \
    int name(const char *path parameters)             \
    {                                                 \
        NEXT(#name, int, const char *parameters);     \
        if (turn(word, path, 'p', path) == REFUSE)    \
            return -1;                                \
        return next(path __VA_ARGS__);                \
    }
OF_PATH(unlink, "unlink", , )
OF_PATH(rmdir, "unlink", , )
OF_PATH(mkdir, "mkdir", WITH mode_t mode, WITH mode)
OF_PATH(rename, "rename", WITH const char *to, WITH to)
OF_PATH(link, "link", WITH const char *to, WITH to)
OF_PATH(chmod, "fchmod", WITH mode_t mode, WITH mode)
OF_PATH(stat, "stat", WITH struct stat *status, WITH status)
OF_PATH(lstat, "stat", WITH struct stat *status, WITH status)

/* What stands at a name; of an open file where the path is empty. */
int statx(int folder, const char *path, int flags, unsigned int mask, struct statx *status)
{
    NEXT("statx", int, int, const char *, int, unsigned int, struct statx *);
    if ((*path ? turn("stat", path, 'p', path) : turn_of("fstat", folder)) == REFUSE)
        return -1;
    return next(folder, path, flags, mask, status);
}

#define OF_PATHS(name, word, parameters, ...)                                            \
    int name(int folder, const char *path, int other, const char *to parameters)         \
    {                                                                                    \
        NEXT(#name, int, int, const char *, int, const char *parameters);                \
        if (turn(word, path, 'p', path) == REFUSE)                                             \
            return -1;                                                                   \
        return next(folder, path, other, to __VA_ARGS__);                                \
    }
OF_PATHS(linkat, "link", WITH int flags, WITH flags)
OF_PATHS(renameat, "rename", , )
OF_PATHS(renameat2, "rename", WITH unsigned int flags, WITH flags)

int unlinkat(int folder, const char *path, int flags)
{
    NEXT("unlinkat", int, int, const char *, int);
    if (turn("unlink", path, 'p', path) == REFUSE)
        return -1;
    return next(folder, path, flags);
}
