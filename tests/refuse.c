/* Is loaded before a program (LD_PRELOAD), and refuses one call that it makes of the C library. tests/refused.py says
 * which by the environment:
 *
 *   REFUSE_KIND  growth: malloc or realloc finds no memory; fault: read, write, fsync or fdatasync fails;
 *                short: a read or a write of several bytes moves one; names: fsync of a folder fails
 *   REFUSE_AT    which of these calls, from 1, counted from before `main`
 *   REFUSE_ERROR the error number of a fault
 *   REFUSE_TELL  a descriptor that takes a byte where the call was made and refused
 *
 * Calls of descriptor 2 are never counted: what goes there tells of the refusal. Nor are those of descriptors that are
 * no file, pipe or socket, as the events by which threads wake each other: no system fails them so. No header is read,
 * so that any C compiler does.
 */
typedef unsigned long size_t;
typedef long ssize_t;

extern void *__libc_malloc(size_t);
extern void *__libc_realloc(void *, size_t);
extern char *getenv(const char *);
extern long atol(const char *);
extern long syscall(long, ...);
extern int *__errno_location(void);

enum { READ = 0, WRITE = 1, FSTAT = 5, FSYNC = 74, FDATASYNC = 75, NO_MEMORY = 12 };

static char kind;
static long at, error, tell;
static long count;

static long number(const char *name) {
    const char *word = getenv(name);
    return word ? atol(word) : -1;
}

__attribute__((constructor)) static void begin(void) {
    const char *word = getenv("REFUSE_KIND");
    at = number("REFUSE_AT");
    error = number("REFUSE_ERROR");
    tell = number("REFUSE_TELL");
    if (word) kind = word[0];
}

/* Counts a call of this kind, and tells whether it is the one. */
static int refused(char of) {
    if (kind != of || __atomic_add_fetch(&count, 1, __ATOMIC_SEQ_CST) != at) return 0;
    syscall(WRITE, tell, "x", 1L);
    return 1;
}

static ssize_t fails(long with) {
    *__errno_location() = (int)with;
    return -1;
}

/* What a descriptor is of: it stands in the mode, four bytes at byte 24 of a `stat`. */
static unsigned kind_of(int descriptor) {
    union {
        unsigned words[64];
        char bytes[256];
    } held = {{0}};
    return syscall(FSTAT, (long)descriptor, held.bytes) == 0 ? held.words[6] & 0170000 : 0;
}

/* A file, a pipe or a socket but standard error. */
static int counts(int descriptor) {
    return descriptor != 2 && kind_of(descriptor) != 0;
}

void *malloc(size_t size) {
    if (!refused('g')) return __libc_malloc(size);
    fails(NO_MEMORY);
    return 0;
}

void *realloc(void *old, size_t size) {
    if (!refused('g')) return __libc_realloc(old, size);
    fails(NO_MEMORY);
    return 0;
}

ssize_t read(int from, void *bytes, size_t size) {
    if (counts(from)) {
        if (refused('f')) return fails(error);
        if (size > 1 && refused('s')) size = 1;
    }
    return syscall(READ, (long)from, bytes, size);
}

ssize_t write(int to, const void *bytes, size_t size) {
    if (counts(to)) {
        if (refused('f')) return fails(error);
        if (size > 1 && refused('s')) size = 1;
    }
    return syscall(WRITE, (long)to, bytes, size);
}

int fsync(int of) {
    if (kind_of(of) == 0040000 && refused('n')) return (int)fails(error);
    return refused('f') ? (int)fails(error) : (int)syscall(FSYNC, (long)of);
}

int fdatasync(int of) {
    return refused('f') ? (int)fails(error) : (int)syscall(FDATASYNC, (long)of);
}
