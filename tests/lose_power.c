/* Is loaded before a program (LD_PRELOAD). It writes down what the program does to the files of one folder and what it
 * sends, so that tests/disks.py can rebuild what a loss of power may leave at any moment of it; and it counts such
 * calls, and lets one fail, move a part of its bytes, wait, or end the program, as the tests say while it runs. The
 * environment has
 *
 *   POWER_FOLDER  the folder: calls on what has it before its path are followed
 *   POWER_LOG     the log's path: what has it before its path, as the new log beside it too, is counted by itself
 *   POWER_PAGE    a file of 4,096 bytes, 64-bit numbers that the tests and the program share (enum shared)
 *   POWER_TRACE   the file that is written, of records: a head of 40 bytes (struct record), and bytes behind it. Where
 *                 it isn't given nothing is written down
 *
 * A call that changes something has a record before it, with `result` BEGUN, and one behind it. No header is read, so
 * that any C compiler does; the numbers are those of Linux on x86-64.
 */
typedef unsigned long size_t;
typedef long ssize_t;
typedef long off_t;
typedef unsigned mode_t;

extern char *getenv(const char *);
extern long syscall(long, ...);
extern int *__errno_location(void);

enum {
    READ = 0, WRITE = 1, OPEN = 2, CLOSE = 3, FSTAT = 5, LSEEK = 8, MMAP = 9, PREAD = 17, PWRITE = 18, WRITEV = 20,
    NANOSLEEP = 35, GETPID = 39, SENDTO = 44, KILL = 62, FCNTL = 72, FSYNC = 74, FDATASYNC = 75, FTRUNCATE = 77,
    RENAME = 82, UNLINK = 87
};

/* The calls, as records and tests name them. READS have no record: they change nothing. */
enum call { OPENS = 1, WRITES, CUTS, SYNCS, RENAMES, REMOVES, SYNCS_OF_FOLDERS, SENDS, CLOSES, READS, MOST_CALLS };

/* The numbers on the shared page. The call number LEFT of its kind from now on is the first of TIMES in a row at which
 * ACTION is done, of the log alone where LOG_ONLY isn't 0. Each sync takes DELAY microseconds more, and where PRETEND
 * isn't 0 the system isn't asked for it. From OF_LOG and OF_OTHERS on stands how many calls there were of each kind. */
enum shared {
    CALL, LEFT, TIMES, ACTION, ERROR, PART, HOLD, DELAY, LOG_ONLY, PRETEND, HELD, OF_LOG = 16, OF_OTHERS = 32
};

/* What is done at a call that is due: it fails, a write after PART of its bytes; the program is killed before the call
 * or behind it; it waits for as long as HOLD isn't 0; a write moves PART of its bytes and is done; or it waits, and
 * fails. */
enum action { GO_ON, FAIL, DIE_BEFORE, DIE_BEHIND, WAIT, SHORT, WAIT_AND_FAIL };

#define MOST_DESCRIPTORS 4096
#define MOST_SENT 4096
#define BEGUN (-1000000L)

struct record {
    int call, handle;
    long at, size, result, more;
};

struct piece {
    const void *bytes;
    size_t size;
};

static const char *folder, *of_log;
static long no_page[512], *page = no_page;
static int trace = -1, handles;
/* Of each descriptor: the handle of a file that is followed, or 0; and whether it is of the log, and a folder. */
static int handle_of[MOST_DESCRIPTORS];
static char is_log[MOST_DESCRIPTORS], is_folder[MOST_DESCRIPTORS], has_sent[MOST_DESCRIPTORS];

static long length_of(const char *word) {
    long size = 0;
    while (word[size]) size++;
    return size;
}

/* Whether a word has another before it. */
static int begins(const char *word, const char *front) {
    if (!front) return 0;
    while (*front) if (*word++ != *front++) return 0;
    return 1;
}

__attribute__((constructor)) static void begin(void) {
    const char *name = getenv("POWER_PAGE");
    folder = getenv("POWER_FOLDER");
    of_log = getenv("POWER_LOG");
    if (name) {
        long file = syscall(OPEN, name, 02L, 0L);
        long at = syscall(MMAP, 0L, 4096L, 3L, 1L, file, 0L);
        if (file >= 0 && (at > 0 || at < -4096)) page = (long *)at;
        syscall(CLOSE, file);
    }
    name = getenv("POWER_TRACE");
    if (name) {
        long file = syscall(OPEN, name, 02101L, 0600L);
        /* where no descriptor of the program is expected */
        trace = (int)syscall(FCNTL, file, 1030L, 900L);
        syscall(CLOSE, file);
    }
}

static long answer(long result) {
    if (result >= 0 || result < -4095) return result;
    *__errno_location() = (int)-result;
    return -1;
}

/* The result of a call by the system's convention: an error is below 0. */
static long made(long result) {
    return result == -1 ? -(long)*__errno_location() : result;
}

static void tell(int call, int handle, long at, long size, long result, const void *bytes, long more) {
    struct record head = {call, handle, at, size, result, more};
    struct piece pieces[2] = {{&head, sizeof head}, {bytes, (size_t)more}};
    if (trace >= 0) syscall(WRITEV, (long)trace, pieces, more ? 2L : 1L);
}

static void pause_for(long microseconds) {
    long time[2] = {microseconds / 1000000, microseconds % 1000000 * 1000};
    if (microseconds > 0) syscall(NANOSLEEP, time, 0L);
}

static void die(void) {
    syscall(KILL, syscall(GETPID), 9L);
    for (;;) pause_for(1000000);
}

/* Counts a call, and tells what is to be done at it. */
static enum action due(int call, int log) {
    __atomic_add_fetch(&page[(log ? OF_LOG : OF_OTHERS) + call], 1, __ATOMIC_SEQ_CST);
    if (page[CALL] != call || (page[LOG_ONLY] && !log)) return GO_ON;
    long left = __atomic_sub_fetch(&page[LEFT], 1, __ATOMIC_SEQ_CST);
    if (left > 0 || left <= -page[TIMES]) return GO_ON;
    enum action action = (enum action)page[ACTION];
    if (action == DIE_BEFORE) die();
    if (action == WAIT || action == WAIT_AND_FAIL) {
        page[HELD] = 1;
        while (page[HOLD]) pause_for(200);
        page[HELD] = 0;
    }
    return action == WAIT_AND_FAIL ? FAIL : action;
}

/* What stands behind a call: it is told, and the program may end there. */
static long done(enum action action, int call, int handle, long result) {
    tell(call, handle, 0, 0, result, "", 0);
    if (action == DIE_BEHIND) die();
    return answer(result);
}

static int followed(int descriptor) {
    return descriptor >= 0 && descriptor < MOST_DESCRIPTORS ? handle_of[descriptor] : 0;
}

static int is_of_folder(long descriptor) {
    union {
        unsigned words[64];
        char bytes[256];
    } held = {{0}};
    return syscall(FSTAT, descriptor, held.bytes) == 0 && (held.words[6] & 0170000) == 0040000;
}

int open(const char *path, int flags, ...) {
    __builtin_va_list more;
    __builtin_va_start(more, flags);
    mode_t mode = flags & 0100 ? __builtin_va_arg(more, mode_t) : 0;
    __builtin_va_end(more);
    if (!begins(path, folder)) return (int)syscall(OPEN, path, (long)flags, (long)mode);
    int log = begins(path, of_log);
    enum action action = due(OPENS, log);
    if (action == FAIL) return (int)answer(-page[ERROR]);
    long file = syscall(OPEN, path, (long)flags, (long)mode);
    if (file < 0 || file >= MOST_DESCRIPTORS) return (int)file;
    int handle = __atomic_add_fetch(&handles, 1, __ATOMIC_SEQ_CST);
    is_log[file] = (char)log;
    is_folder[file] = (char)is_of_folder(file);
    tell(OPENS, handle, flags, is_folder[file], file, path, length_of(path));
    handle_of[file] = handle;
    if (action == DIE_BEHIND) die();
    return (int)file;
}

/* The names that a C library has for the same calls with 64 bits. */
int open64(const char *, int, ...) __attribute__((alias("open")));
ssize_t pread64(int, void *, size_t, off_t) __attribute__((alias("pread")));
ssize_t pwrite64(int, const void *, size_t, off_t) __attribute__((alias("pwrite")));
int ftruncate64(int, off_t) __attribute__((alias("ftruncate")));

int close(int descriptor) {
    if (descriptor >= 0 && descriptor < MOST_DESCRIPTORS) {
        handle_of[descriptor] = 0;
        if (has_sent[descriptor]) tell(CLOSES, descriptor, 0, 0, 0, "", 0);
        has_sent[descriptor] = 0;
    }
    return (int)syscall(CLOSE, (long)descriptor);
}

/* How many bytes there are in front of the 00 at the end. */
static long without_zeros(const char *bytes, long size) {
    while (size > 0 && !bytes[size - 1]) size--;
    return size;
}

static ssize_t write_followed(int to, const char *bytes, long size, long at) {
    int handle = handle_of[to];
    enum action action = due(WRITES, is_log[to]);
    tell(WRITES, handle, at, size, BEGUN, bytes, trace >= 0 ? without_zeros(bytes, size) : 0);
    long part = page[PART] < 0 || page[PART] > size ? size : page[PART];
    if (action == SHORT && size > 1) size = part < 1 ? 1 : part;
    if (action == FAIL) size = part;
    long result = size ? made(syscall(PWRITE, (long)to, bytes, size, at)) : 0;
    if (action == FAIL) result = -page[ERROR];
    return done(action, WRITES, handle, result);
}

ssize_t pread(int from, void *bytes, size_t size, off_t at) {
    if (followed(from) && due(READS, is_log[from]) == FAIL) return answer(-page[ERROR]);
    return syscall(PREAD, (long)from, bytes, size, at);
}

ssize_t pwrite(int to, const void *bytes, size_t size, off_t at) {
    if (followed(to)) return write_followed(to, bytes, (long)size, at);
    return syscall(PWRITE, (long)to, bytes, size, at);
}

ssize_t write(int to, const void *bytes, size_t size) {
    if (!followed(to)) return syscall(WRITE, (long)to, bytes, size);
    long at = syscall(LSEEK, (long)to, 0L, 1L);
    ssize_t taken = write_followed(to, bytes, (long)size, at);
    if (taken > 0) syscall(LSEEK, (long)to, at + taken, 0L);
    return taken;
}

int ftruncate(int of, off_t size) {
    if (!followed(of)) return (int)syscall(FTRUNCATE, (long)of, size);
    enum action action = due(CUTS, is_log[of]);
    int handle = handle_of[of];
    tell(CUTS, handle, size, 0, BEGUN, "", 0);
    long result = action == FAIL ? -page[ERROR] : made(syscall(FTRUNCATE, (long)of, size));
    return (int)done(action, CUTS, handle, result);
}

static int sync_followed(int of, long how) {
    int call = is_folder[of] ? SYNCS_OF_FOLDERS : SYNCS, handle = handle_of[of];
    enum action action = due(call, is_log[of]);
    tell(call, handle, how == FSYNC, 0, BEGUN, "", 0);
    pause_for(page[DELAY]);
    long result = 0;
    if (action == FAIL) result = -page[ERROR];
    else if (!page[PRETEND]) result = made(syscall(how, (long)of));
    return (int)done(action, call, handle, result);
}

int fsync(int of) {
    return followed(of) ? sync_followed(of, FSYNC) : (int)syscall(FSYNC, (long)of);
}

int fdatasync(int of) {
    return followed(of) ? sync_followed(of, FDATASYNC) : (int)syscall(FDATASYNC, (long)of);
}

int rename(const char *from, const char *to) {
    char both[1024];
    long first = length_of(from), second = length_of(to), n = 0;
    if (!begins(to, folder) || first + second + 1 > (long)sizeof both) return (int)syscall(RENAME, from, to);
    while (*from) both[n++] = *from++;
    both[n++] = 0;
    while (*to) both[n++] = *to++;
    from -= first;
    to -= second;
    enum action action = due(RENAMES, begins(to, of_log));
    tell(RENAMES, 0, 0, 0, BEGUN, both, n);
    long result = action == FAIL ? -page[ERROR] : made(syscall(RENAME, from, to));
    return (int)done(action, RENAMES, 0, result);
}

int unlink(const char *path) {
    if (!begins(path, folder)) return (int)syscall(UNLINK, path);
    enum action action = due(REMOVES, begins(path, of_log));
    tell(REMOVES, 0, 0, 0, BEGUN, path, length_of(path));
    long result = action == FAIL ? -page[ERROR] : made(syscall(UNLINK, path));
    return (int)done(action, REMOVES, 0, result);
}

ssize_t send(int to, const void *bytes, size_t size, int flags) {
    if (trace >= 0 && to >= 0 && to < MOST_DESCRIPTORS) {
        has_sent[to] = 1;
        tell(SENDS, to, 0, (long)size, BEGUN, bytes, size < MOST_SENT ? (long)size : MOST_SENT);
    }
    long result = made(syscall(SENDTO, (long)to, bytes, size, (long)flags, 0L, 0L));
    if (trace >= 0) tell(SENDS, to, 0, 0, result, "", 0);
    return answer(result);
}
