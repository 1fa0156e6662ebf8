/* refuse.c: one growth of memory of a program is refused. refused.py builds and uses it. It has no headers, so that the
 * toolchain's own clang builds it:
 *
 *   clang -O2 -shared -fPIC -nostdlib -fuse-ld=lld -o refuse.so refuse.c
 *   LD_PRELOAD=./refuse.so REFUSE=N PROGRAM      the Nth growth is refused (N+: and all after it)
 *
 * Growths are malloc, calloc and realloc, counted from 1; where REFUSE_MARKS is set, only those between two writes to
 * standard error that begin with "begin" and "end", from 1 again at each "begin". At the end it writes to descriptor 9, where
 * that is open, the number of growths behind the last "begin", and of all that were refused, as text.
 *
 * It takes the place of the C library's functions of Linux on x86-64.
 */
typedef unsigned long size;
extern void *__libc_malloc(size), *__libc_calloc(size, size), *__libc_realloc(void *, size);
extern char *getenv(const char *);
extern long syscall(long, ...);
extern int *__errno_location(void);

enum { WRITE = 1, NO_MEMORY = 12 };
static size at, count, refused;
static int onward, armed, marks;

__attribute__((constructor)) static void begin(void) {
    const char *word = getenv("REFUSE");
    for (; word && *word >= '0' && *word <= '9'; word++) at = at * 10 + (*word - '0');
    onward = word && *word == '+';
    marks = getenv("REFUSE_MARKS") != 0;
    armed = !marks;
}

static int is_refused(void) {
    if (!armed) return 0;
    count++;
    if (!at || !(count == at || (onward && count > at))) return 0;
    refused++;
    *__errno_location() = NO_MEMORY;
    return 1;
}

void *malloc(size n) { return is_refused() ? 0 : __libc_malloc(n); }
void *calloc(size n, size m) { return is_refused() ? 0 : __libc_calloc(n, m); }
void *realloc(void *p, size n) { return n && is_refused() ? 0 : __libc_realloc(p, n); }

static int begins(const char *text, size n, const char *word) {
    for (; *word; text++, word++, n--) if (!n || *text != *word) return 0;
    return 1;
}

long write(int fd, const void *text, size n) {
    if (marks && fd == 2 && begins(text, n, "begin")) { armed = 1; count = 0; }
    if (marks && fd == 2 && begins(text, n, "end")) armed = 0;
    return syscall(WRITE, fd, text, n) ;
}
long __write(int fd, const void *text, size n) { return write(fd, text, n); }

__attribute__((destructor)) static void end(void) {
    char text[48];
    int n = 0;
    for (int i = 0; i < 2; i++) {
        size rest = i ? refused : count;
        char digits[20];
        int k = 0;
        do digits[k++] = '0' + rest % 10, rest /= 10; while (rest);
        while (k) text[n++] = digits[--k];
        text[n++] = i ? '\n' : ' ';
    }
    syscall(WRITE, 9, text, n);
}
