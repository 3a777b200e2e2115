/* awaqlla: what Rattle lacks. The floating-point environment that the proofs are of, closed standard streams, what stands at a file's name, the
   locks, and the exit status. Everything else is crate command's: C asks it which argument is locked, and it says every word. */
#define _DEFAULT_SOURCE
#define _XOPEN_SOURCE 700
#include <errno.h>
#include <fcntl.h>
#include <limits.h>
#include <signal.h>
#include <stdint.h>
#include <stdio.h>
#include <stdlib.h>
#include <string.h>
#include <sys/file.h>
#include <sys/stat.h>
#include <sys/time.h>
#include <unistd.h>
#include <xmmintrin.h>

/* Crate command's. `told` says what is wrong with a lock, and answers the exit status 2. */
size_t awaqlla_guarded(void);
uint32_t awaqlla_guard(void);
uint64_t awaqlla_patience(void);
uint32_t awaqlla_is_file(size_t i);
uint64_t awaqlla_take(const uint8_t *kinds, size_t n, uint32_t *ticks, size_t room);
uint32_t awaqlla_run(const uint8_t *kinds, size_t n, const uint32_t *ticks, size_t count);
uint32_t awaqlla_told(uint32_t what, const uint8_t *path, size_t size);

enum guard { NO_LOCK, LOCK_BOTH, LOCK_VOLUME, LOCK_NAME };
enum kind { MISSING, PLAIN, FOLDER, OTHER, DANGLING, UNREADABLE = 8, PRINTED_TO = 16, TOLD_TO = 32, GUARDED = 64 };
enum told { WAITING, NO_FOLDER, NO_PLAIN_LOCK, NOT_MADE, NOT_LOCKED, WAITED, NO_NAME, HIDDEN };

/* MXCSR as a process starts with it: every exception masked, no flush to zero, to nearest even. */
#define DEFAULT_ENVIRONMENT 0x1f80u
#define ARGUMENTS 64
/* tools/program says the version, the commit and the kit. */
#ifndef AWAQLLA_VERSION
#define AWAQLLA_VERSION "of an unknown version"
#endif
#define SECONDS_BEFORE_WORDS 2

static char lock_path[PATH_MAX + 8];
static int lock_made;

static uint32_t told(enum told what, const char *path)
{
    return awaqlla_told(what, (const uint8_t *)path, strlen(path));
}

static int same_file(const struct stat *a, const struct stat *b)
{
    return a->st_dev == b->st_dev && a->st_ino == b->st_ino;
}

/* The path of a file without links, which need not be there; its folder must. */
static int full_path(const char *path, char out[PATH_MAX])
{
    if (realpath(path, out) != NULL)
        return 1;
    const char *slash = strrchr(path, '/');
    int front = slash == NULL ? 0 : (int)(slash - path) + 1;
    char folder[PATH_MAX], full[PATH_MAX];
    int size = snprintf(folder, sizeof folder, "%.*s.", front, path);
    if (size < 0 || (size_t)size >= sizeof folder || realpath(folder, full) == NULL)
        return 0;
    size = snprintf(out, PATH_MAX, "%s%s%s", full, strcmp(full, "/") == 0 ? "" : "/", path + front);
    return size >= 0 && size < PATH_MAX;
}

/* Whether the last call failed since there is no such file; any other error says nothing of the file. */
static int is_missing(void)
{
    return errno == ENOENT || errno == ENOTDIR;
}

/* What stands at a name, and which of our streams and of our files it is; -1 where an error hides it. */
static int kind_of(const char *path, const char *guarded)
{
    struct stat found, other;
    unsigned kind;
    if (stat(path, &found) != 0) {
        char here[PATH_MAX], there[PATH_MAX];
        if (!is_missing())
            return -1;
        kind = lstat(path, &found) == 0 ? DANGLING : MISSING;
        if (kind == MISSING && guarded != NULL && full_path(path, here) && full_path(guarded, there) && strcmp(here, there) == 0)
            kind |= GUARDED;
        return (int)kind;
    }
    kind = S_ISREG(found.st_mode) ? PLAIN : S_ISDIR(found.st_mode) ? FOLDER : OTHER;
    if (access(path, R_OK) != 0)
        kind |= UNREADABLE;
    if (kind == PLAIN && fstat(1, &other) == 0 && same_file(&found, &other))
        kind |= PRINTED_TO;
    if ((kind & PLAIN) != 0 && fstat(2, &other) == 0 && same_file(&found, &other))
        kind |= TOLD_TO;
    if (guarded != NULL && stat(guarded, &other) == 0)
        kind |= same_file(&found, &other) ? GUARDED : 0;
    else if (guarded != NULL && !is_missing())
        return -1;
    return (int)kind;
}

/* Puts what stands at a file's name, or says that an error hides it. */
static uint32_t look(const char *path, const char *guarded, uint8_t *kind)
{
    int found = kind_of(path, guarded);
    if (found < 0)
        return told(HIDDEN, path);
    *kind = (uint8_t)found;
    return 0;
}

static void heed(int number)
{
    (void)number;
}

/* A signal every second, or none, so that a wait is looked at again. */
static int tick(int on)
{
    struct itimerval every;
    memset(&every, 0, sizeof every);
    every.it_interval.tv_sec = every.it_value.tv_sec = on;
    return setitimer(ITIMER_REAL, &every, NULL);
}

/* Takes the lock of an open file; says so where it waits, and gives up after --wait's seconds. */
static uint32_t hold(int fd, const char *path)
{
    if (flock(fd, LOCK_EX | LOCK_NB) == 0)
        return 0;
    uint64_t patience = awaqlla_patience();
    struct sigaction action;
    memset(&action, 0, sizeof action);
    action.sa_handler = heed;
    if (sigaction(SIGALRM, &action, NULL) != 0 || tick(1) != 0)
        return told(NOT_LOCKED, path);
    for (uint64_t waited = 0;; waited++) {
        if (waited >= patience)
            return told(WAITED, path);
        if (waited == SECONDS_BEFORE_WORDS)
            (void)told(WAITING, path);
        if (flock(fd, LOCK_EX) == 0) {
            (void)tick(0);
            return 0;
        }
        if (errno != EINTR)
            return told(NOT_LOCKED, path);
    }
}

/* Opens FILE.lock, no link and a plain file, or makes it with the volume's mode. */
static int open_lock(const char *volume)
{
    struct stat found;
    int flags = O_RDONLY | O_NOFOLLOW | O_CLOEXEC | O_NONBLOCK;
    int fd = open(lock_path, flags);
    if (fd >= 0 || errno != ENOENT)
        return fd;
    fd = open(lock_path, flags | O_CREAT | O_EXCL, 0666);
    if (fd < 0)
        return errno == EEXIST ? open(lock_path, flags) : fd;
    lock_made = 1;
    if (stat(volume, &found) == 0)
        (void)!fchmod(fd, found.st_mode & 0666);
    else if (!is_missing())
        return -1;
    return fd;
}

/* Locks FILE.lock; one that was removed meanwhile is locked again. */
static uint32_t lock_name(const char *volume)
{
    struct stat held, found;
    char full[PATH_MAX];
    if (realpath(volume, full) == NULL && (stat(volume, &found) == 0 || !is_missing()))
        return told(NO_NAME, volume);
    if (!full_path(volume, full))
        return told(NO_FOLDER, volume);
    (void)snprintf(lock_path, sizeof lock_path, "%s.lock", full);
    for (;;) {
        int fd = open_lock(volume);
        if (fd < 0)
            return told(errno == ELOOP || errno == ENXIO ? NO_PLAIN_LOCK : NOT_MADE, lock_path);
        if (fstat(fd, &held) != 0 || !S_ISREG(held.st_mode))
            return told(NO_PLAIN_LOCK, lock_path);
        uint32_t status = hold(fd, lock_path);
        if (status != 0)
            return status;
        if (lstat(lock_path, &found) != 0) {
            if (!is_missing())
                return told(NOT_LOCKED, lock_path);
        } else if (same_file(&held, &found)) {
            return 0;
        }
        close(fd);
    }
}

/* Locks the volume itself, where there is one that can be read, so that its other names wait too. */
static uint32_t lock_volume(const char *volume)
{
    struct stat found;
    int fd = open(volume, O_RDONLY | O_CLOEXEC | O_NONBLOCK);
    if (fd < 0)
        return is_missing() || errno == EACCES ? 0 : told(NOT_LOCKED, volume);
    if (fstat(fd, &found) != 0)
        return told(NOT_LOCKED, volume);
    if (!S_ISREG(found.st_mode)) {
        close(fd);
        return 0;
    }
    return hold(fd, volume);
}

/* No stream is closed: a file that is opened would take its number. */
static int streams_are_open(void)
{
    static const char *const closed[] = {"awaqlla: standard input: it is closed\n", "awaqlla: standard output: it is closed\n"};
    if (fcntl(2, F_GETFD) < 0)
        return 0;
    for (int fd = 0; fd < 2; fd++)
        if (fcntl(fd, F_GETFD) < 0) {
            (void)!write(2, closed[fd], strlen(closed[fd]));
            return 0;
        }
    return 1;
}

/* --version: what this program was made of. */
static int say_version(void)
{
    static const char text[] = "awaqlla " AWAQLLA_VERSION "\n", failed[] = "awaqlla: standard output: it cannot be written\n";
    if (write(1, text, sizeof text - 1) == (ssize_t)(sizeof text - 1))
        return 0;
    (void)!write(2, failed, sizeof failed - 1);
    return 2;
}

int main(int argc, char **argv)
{
    static uint8_t kinds[ARGUMENTS];
    static uint32_t ticks[32768];
    _mm_setcsr(DEFAULT_ENVIRONMENT);
    (void)signal(SIGPIPE, SIG_IGN);
    if (!streams_are_open())
        return 2;
    if (argc > 1 && strcmp(argv[1], "--version") == 0)
        return say_version();
    size_t at = awaqlla_guarded(), count = argc < ARGUMENTS ? (size_t)argc : ARGUMENTS;
    const char *guarded = at != 0 && at < (size_t)argc ? argv[at] : NULL;
    int input = kind_of("/dev/fd/0", NULL);
    kinds[0] = input < 0 ? OTHER : (uint8_t)input;
    for (size_t i = 1; i < count; i++)
        if (awaqlla_is_file(i) != 0 && look(argv[i], i == at ? NULL : guarded, &kinds[i]) != 0)
            return 2;
    uint64_t taken = awaqlla_take(kinds, count, ticks, sizeof ticks / sizeof ticks[0]);
    if (taken > UINT32_MAX)
        return (int)(taken & 3);
    uint32_t guard = guarded == NULL ? NO_LOCK : awaqlla_guard(), status = 0;
    if (guard == LOCK_BOTH || guard == LOCK_NAME)
        status = lock_name(guarded);
    if (status == 0 && (guard == LOCK_BOTH || guard == LOCK_VOLUME))
        status = lock_volume(guarded);
    if (status == 0 && guard == LOCK_NAME && at < count)
        status = look(guarded, NULL, &kinds[at]);
    if (status == 0)
        status = awaqlla_run(kinds, count, ticks, (size_t)taken);
    if (lock_made && guarded != NULL && (guard == LOCK_NAME || access(guarded, F_OK) != 0))
        (void)!unlink(lock_path);
    return (int)status;
}
