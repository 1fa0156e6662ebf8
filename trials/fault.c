/* fault.c: one call of a program fails, and it is counted which ones there were. faulted.py and killed.py build and use it.
 *
 *   cc -O2 -shared -fPIC -o fault.so fault.c -ldl
 *   LD_PRELOAD=./fault.so FAULT=CLASS:N[+]:WHAT FAULT_REPORT=FILE PROGRAM ..
 *
 * It takes the place of the C library's functions of Linux on 64 bits.
 *
 * CLASS   alloc   malloc, calloc, realloc (a realloc to nothing does not count)
 *         read    read, readv, pread of files and pipes     write    write, writev, pwrite of files and pipes
 *         sync    fsync, fdatasync                          trunc    ftruncate
 *         open    open, openat                              recv, send    of sockets
 *         other   fstat, statx, fcntl, posix_fadvise, fchmod, fchown, unlink, flock, getentropy, accept, bind, listen, socket, clock_gettime
 *         disk    read, write, sync, trunc, open of files, one after the other: each call of the device
 * N       counted from 1; N+ fails that one and all after it; 0 fails none and counts
 * WHAT    NOMEM (alloc alone), EIO, ENOSPC, EINTR, EMFILE, SHORT (half of the bytes are moved), ONE (one byte is moved),
 *         KILL (the process is killed before the call), TORN (half of the bytes are written, then it is killed)
 * FAULT_FD    only calls on files whose path has this text in it count (read, write, sync, trunc, open)
 * FAULT_MARKS where set, nothing counts but between two writes to descriptor 2 that begin with "begin" and "end"
 *
 * FAULT_LOG   a file that gets what the database's files were asked for, in order: a byte (w, t, s), 1 for the log and 0
 *             for the database, offset and length as numbers of 64 bits, and the bytes that were written; w at an offset
 *             (pwrite) alone. So the files can be made as they stand where the machine stops at any of these
 *
 * FILE holds twelve numbers of 64 bits: calls of each class in the order above (alloc read write sync trunc open recv send
 * other disk), the calls that failed, and those that were killed. It is kept also where the process is killed.
 */
#define _GNU_SOURCE
#include <dlfcn.h>
#include <errno.h>
#include <fcntl.h>
#include <limits.h>
#include <signal.h>
#include <stdarg.h>
#include <stdint.h>
#include <stdlib.h>
#include <string.h>
#include <sys/mman.h>
#include <sys/socket.h>
#include <sys/stat.h>
#include <sys/syscall.h>
#include <sys/uio.h>
#include <time.h>
#include <unistd.h>

enum { ALLOC, READ, WRITE, SYNC, TRUNC, OPEN, RECV, SEND, OTHER, DISK, FAILED, KILLED, COUNT };
static const char *const names[] = {"alloc", "read", "write", "sync", "trunc", "open", "recv", "send", "other", "disk"};
enum { NOMEM, ERRNO, SHORT, ONE, KILL, TORN };

static int notes = -1;
static uint64_t own[COUNT], *counts = own, at;
static int class = -1, from, what, error, armed, marks;
static const char *part;

__attribute__((constructor)) static void begin(void) {
    const char *word = getenv("FAULT"), *report = getenv("FAULT_REPORT");
    part = getenv("FAULT_FD");
    marks = getenv("FAULT_MARKS") != NULL;
    if (report) {
        int fd = syscall(SYS_openat, AT_FDCWD, report, O_RDWR | O_CREAT | O_TRUNC | O_CLOEXEC, 0644);
        if (fd >= 0 && syscall(SYS_ftruncate, fd, sizeof own) == 0) {
            void *map = mmap(NULL, sizeof own, PROT_READ | PROT_WRITE, MAP_SHARED, fd, 0);
            if (map != MAP_FAILED) counts = map;
        }
        if (fd >= 0) syscall(SYS_close, fd);
    }
    if (word) {
        for (int i = 0; i <= DISK; i++) {
            size_t n = strlen(names[i]);
            if (!strncmp(word, names[i], n) && word[n] == ':') {
                char *rest;
                class = i;
                at = strtoull(word + n + 1, &rest, 10);
                from = *rest == '+';
                rest = strchr(rest, ':');
                const char *how = rest ? rest + 1 : "";
                error = EIO;
                if (!strcmp(how, "EIO")) what = ERRNO;
                else if (!strcmp(how, "ENOSPC")) what = ERRNO, error = ENOSPC;
                else if (!strcmp(how, "EINTR")) what = ERRNO, error = EINTR;
                else if (!strcmp(how, "EMFILE")) what = ERRNO, error = EMFILE;
                else if (!strcmp(how, "SHORT")) what = SHORT;
                else if (!strcmp(how, "ONE")) what = ONE;
                else if (!strcmp(how, "KILL")) what = KILL;
                else if (!strcmp(how, "TORN")) what = TORN;
                else what = NOMEM;
            }
        }
    }
    const char *log = getenv("FAULT_LOG");
    if (log) notes = syscall(SYS_openat, AT_FDCWD, log, O_WRONLY | O_CREAT | O_TRUNC | O_CLOEXEC, 0644);
    armed = !marks;
}

static void killed(void) {
    counts[KILLED]++;
    syscall(SYS_kill, syscall(SYS_getpid), SIGKILL);
}

/* Whether this call of the class is the one. */
static int hit(int of) {
    if (!armed) return 0;
    uint64_t n = ++counts[of];
    if (of != class || at == 0 || !(n == at || (from && n > at))) return 0;
    if (what == KILL) killed();
    counts[FAILED]++;
    return 1;
}

static int is_socket(int fd) {
    struct stat s;
    return syscall(SYS_fstat, fd, &s) == 0 && S_ISSOCK(s.st_mode);
}

/* Whether a descriptor is of a file that counts. */
static int counted(int fd) {
    if (!part) return 1;
    char link[64] = "/proc/self/fd/", path[PATH_MAX];
    char digits[12];
    int n = 0, k = 14;
    do digits[n++] = '0' + fd % 10, fd /= 10; while (fd);
    while (n) link[k++] = digits[--n];
    link[k] = 0;
    long got = syscall(SYS_readlink, link, path, sizeof path - 1);
    if (got < 0) return 0;
    path[got] = 0;
    return strstr(path, part) != NULL;
}

static int is_log(int fd) {
    char link[32], path[PATH_MAX];
    int k = 0, n = 0;
    for (const char *c = "/proc/self/fd/"; *c; c++) link[k++] = *c;
    char digits[12];
    do digits[n++] = '0' + fd % 10, fd /= 10; while (fd);
    while (n) link[k++] = digits[--n];
    link[k] = 0;
    long got = syscall(SYS_readlink, link, path, sizeof path - 1);
    return got > 4 && !memcmp(path + got - 4, "-wal", 4);
}

/* Writes down what a file was asked for. */
static void note(char call, int fd, uint64_t offset, const void *bytes, uint64_t length) {
    if (notes < 0) return;
    uint64_t numbers[2] = {offset, length};
    char head[2] = {call, is_log(fd)};
    struct iovec parts[] = {{head, 2}, {numbers, sizeof numbers}, {(void *)bytes, length}};
    syscall(SYS_writev, notes, parts, length ? 3 : 2);
}

static int device(int of, int fd) {
    if (!counted(fd)) return 0;
    int first = hit(of);
    return hit(DISK) || first;
}

#define REAL(type, name, ...) static type (*real_##name)(__VA_ARGS__); \
    if (!real_##name) real_##name = (type (*)(__VA_ARGS__))dlsym(RTLD_NEXT, #name)

extern void *__libc_malloc(size_t), *__libc_calloc(size_t, size_t), *__libc_realloc(void *, size_t);
void *malloc(size_t n) { if (hit(ALLOC)) { errno = ENOMEM; return NULL; } return __libc_malloc(n); }
void *calloc(size_t n, size_t m) { if (hit(ALLOC)) { errno = ENOMEM; return NULL; } return __libc_calloc(n, m); }
void *realloc(void *p, size_t n) { if (n && hit(ALLOC)) { errno = ENOMEM; return NULL; } return __libc_realloc(p, n); }

/* What a failed call answers: a part that was moved, or -1. The call itself is made by `CALL(part)`. */
#define MOVED(whole, call) do { \
    size_t all = (whole), some = what == ONE ? 1 : all / 2; \
    if ((what == SHORT || what == ONE) && all > 1) { size_t moved = some; return call; } \
    if (what == SHORT || what == ONE) { size_t moved = all; return call; } \
    if (what == TORN) { size_t moved = all / 2; if (moved) { ssize_t done = call; (void)done; } killed(); } \
    errno = error; return -1; } while (0)

ssize_t read(int fd, void *b, size_t n) {
    if (is_socket(fd) ? hit(RECV) : device(READ, fd)) MOVED(n, syscall(SYS_read, fd, b, moved));
    return syscall(SYS_read, fd, b, n);
}
ssize_t pread64(int fd, void *b, size_t n, off_t o) {
    if (device(READ, fd)) MOVED(n, syscall(SYS_pread64, fd, b, moved, o));
    return syscall(SYS_pread64, fd, b, n, o);
}
ssize_t pread(int fd, void *b, size_t n, off_t o) { return pread64(fd, b, n, o); }
ssize_t readv(int fd, const struct iovec *v, int n) {
    if (is_socket(fd) ? hit(RECV) : device(READ, fd)) MOVED(n ? v[0].iov_len : 0, syscall(SYS_read, fd, v[0].iov_base, moved));
    return syscall(SYS_readv, fd, v, n);
}
ssize_t write(int fd, const void *b, size_t n) {
    if (marks && fd == 2) {
        if (n >= 5 && !memcmp(b, "begin", 5)) armed = 1;
        if (n >= 3 && !memcmp(b, "end", 3)) armed = 0;
    } else if (is_socket(fd) ? hit(SEND) : device(WRITE, fd)) MOVED(n, syscall(SYS_write, fd, b, moved));
    return syscall(SYS_write, fd, b, n);
}
ssize_t __write(int fd, const void *b, size_t n) { return write(fd, b, n); }
ssize_t pwrite64(int fd, const void *b, size_t n, off_t o) {
    note('w', fd, o, b, n);
    if (device(WRITE, fd)) MOVED(n, syscall(SYS_pwrite64, fd, b, moved, o));
    return syscall(SYS_pwrite64, fd, b, n, o);
}
ssize_t pwrite(int fd, const void *b, size_t n, off_t o) { return pwrite64(fd, b, n, o); }
ssize_t writev(int fd, const struct iovec *v, int n) {
    if (is_socket(fd) ? hit(SEND) : device(WRITE, fd)) MOVED(n ? v[0].iov_len : 0, syscall(SYS_write, fd, v[0].iov_base, moved));
    return syscall(SYS_writev, fd, v, n);
}
ssize_t recv(int fd, void *b, size_t n, int flags) {
    if (hit(RECV)) MOVED(n, syscall(SYS_recvfrom, fd, b, moved, flags, NULL, NULL));
    return syscall(SYS_recvfrom, fd, b, n, flags, NULL, NULL);
}
ssize_t recvfrom(int fd, void *b, size_t n, int flags, struct sockaddr *a, socklen_t *l) {
    if (hit(RECV)) MOVED(n, syscall(SYS_recvfrom, fd, b, moved, flags, a, l));
    return syscall(SYS_recvfrom, fd, b, n, flags, a, l);
}
ssize_t send(int fd, const void *b, size_t n, int flags) {
    if (hit(SEND)) MOVED(n, syscall(SYS_sendto, fd, b, moved, flags, NULL, 0));
    return syscall(SYS_sendto, fd, b, n, flags, NULL, 0);
}
ssize_t sendto(int fd, const void *b, size_t n, int flags, const struct sockaddr *a, socklen_t l) {
    if (hit(SEND)) MOVED(n, syscall(SYS_sendto, fd, b, moved, flags, a, l));
    return syscall(SYS_sendto, fd, b, n, flags, a, l);
}
ssize_t sendmsg(int fd, const struct msghdr *m, int flags) {
    if (hit(SEND)) MOVED(m->msg_iovlen ? m->msg_iov[0].iov_len : 0, syscall(SYS_sendto, fd, m->msg_iov[0].iov_base, moved, flags, NULL, 0));
    return syscall(SYS_sendmsg, fd, m, flags);
}

#define REFUSED do { errno = error; return -1; } while (0)
int fsync(int fd) { note('s', fd, 0, NULL, 0); if (device(SYNC, fd)) REFUSED; return syscall(SYS_fsync, fd); }
int fdatasync(int fd) { note('s', fd, 0, NULL, 0); if (device(SYNC, fd)) REFUSED; return syscall(SYS_fdatasync, fd); }
int ftruncate64(int fd, off_t n) { note('t', fd, n, NULL, 0); if (device(TRUNC, fd)) REFUSED; return syscall(SYS_ftruncate, fd, n); }
int ftruncate(int fd, off_t n) { return ftruncate64(fd, n); }

static int opened(int folder, const char *path, int flags, mode_t mode) {
    if (!part || strstr(path, part)) { int first = hit(OPEN); if (hit(DISK) || first) REFUSED; }
    return syscall(SYS_openat, folder, path, flags, mode);
}
static mode_t mode_of(int flags, va_list words) { return flags & (O_CREAT | O_TMPFILE) ? va_arg(words, mode_t) : 0; }
#define OPENS(folder) va_list words; va_start(words, flags); mode_t mode = mode_of(flags, words); va_end(words); return opened(folder, path, flags, mode)
int open(const char *path, int flags, ...) { OPENS(AT_FDCWD); }
int open64(const char *path, int flags, ...) { OPENS(AT_FDCWD); }
int openat(int folder, const char *path, int flags, ...) { OPENS(folder); }
int openat64(int folder, const char *path, int flags, ...) { OPENS(folder); }

#define OTHERS(name, params, ...) name params { if (hit(OTHER)) REFUSED; return syscall __VA_ARGS__; }
int OTHERS(statx, (int d, const char *restrict p, int f, unsigned m, struct statx *restrict b), (SYS_statx, d, p, f, m, b))
int OTHERS(fchmod, (int fd, mode_t m), (SYS_fchmod, fd, m))
int OTHERS(chmod, (const char *p, mode_t m), (SYS_chmod, p, m))
int OTHERS(fchown, (int fd, uid_t u, gid_t g), (SYS_fchown, fd, u, g))
int OTHERS(unlink, (const char *p), (SYS_unlink, p))
int OTHERS(flock, (int fd, int how), (SYS_flock, fd, how))
int OTHERS(getentropy, (void *b, size_t n), (SYS_getrandom, b, n, 0) < 0 ? -1 : 0)
int OTHERS(accept4, (int fd, struct sockaddr *restrict a, socklen_t *restrict l, int f), (SYS_accept4, fd, a, l, f))
int OTHERS(bind, (int fd, const struct sockaddr *a, socklen_t l), (SYS_bind, fd, a, l))
int OTHERS(listen, (int fd, int n), (SYS_listen, fd, n))
int OTHERS(socket, (int d, int t, int p), (SYS_socket, d, t, p))
int OTHERS(setsockopt, (int fd, int l, int o, const void *v, socklen_t n), (SYS_setsockopt, fd, l, o, v, n))
int OTHERS(getsockname, (int fd, struct sockaddr *restrict a, socklen_t *restrict l), (SYS_getsockname, fd, a, l))
int OTHERS(shutdown, (int fd, int how), (SYS_shutdown, fd, how))
int OTHERS(clock_gettime, (clockid_t c, struct timespec *t), (SYS_clock_gettime, c, t))
int posix_fadvise64(int fd, off_t o, off_t n, int a) { if (hit(OTHER)) return error; return -syscall(SYS_fadvise64, fd, o, n, a); }
int posix_fadvise(int fd, off_t o, off_t n, int a) { return posix_fadvise64(fd, o, n, a); }
int fcntl(int fd, int command, ...) {
    va_list words; va_start(words, command); void *word = va_arg(words, void *); va_end(words);
    if (hit(OTHER)) REFUSED;
    return syscall(SYS_fcntl, fd, command, word);
}
int fcntl64(int fd, int command, ...) {
    va_list words; va_start(words, command); void *word = va_arg(words, void *); va_end(words);
    if (hit(OTHER)) REFUSED;
    return syscall(SYS_fcntl, fd, command, word);
}
