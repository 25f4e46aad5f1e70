/* Is loaded before the C library into a run of the program, and changes the outcome of one of its calls. Variables:

   FAIL_CALL  open, read, write, look, rename or allocation: which calls are counted; a look asks for a file's metadata
   FAIL_AT    the number of the call to change, from 1
   FAIL_ERROR the number of the error of a call that is refused, if not the one that is usual for its kind
   FAIL_HOW   refused: it fails; later: it and each later one; interrupted: it is interrupted once; endless: it and each later one is
              interrupted; short: it moves one byte; killed: the process is killed instead; cut: FAIL_FILE is cut to half its length
              before it; turned: FAIL_FILE is written over with bytes of 255 before it
   FAIL_MARK  a file that is made when the call comes, which shows that there are that many

   It includes no header, and so needs none but the compiler. */

typedef __SIZE_TYPE__ size_t;
typedef __PTRDIFF_TYPE__ ssize_t;

extern void *__libc_malloc(size_t);
extern void *__libc_calloc(size_t, size_t);
extern void *__libc_realloc(void *, size_t);
extern void *__libc_memalign(size_t, size_t);
extern int *__errno_location(void);
extern char *getenv(const char *);
extern long strtol(const char *, char **, int);
extern int strcmp(const char *, const char *);
extern long syscall(long, ...);

enum { READ = 0, WRITE = 1, CLOSE = 3, LSEEK = 8, PREAD = 17, GETPID = 39, KILL = 62, TRUNCATE = 76, RENAME = 82, OPENAT = 257, STATX = 332 };
enum { HERE = -100, WRITE_ONLY = 1, READ_WRITE = 2, CREATE = 64, TO_END = 2, KILLED = 9 };
enum { INTERRUPTED = 4, IO_ERROR = 5, NO_MEMORY = 12, NOT_PERMITTED = 13, NO_SPACE = 28 };

static long count;

static void mark(void) {
    const char *path = getenv("FAIL_MARK");
    if (path)
        syscall(CLOSE, syscall(OPENAT, HERE, path, WRITE_ONLY | CREATE, 0600));
}

/* Changes the file under the program. */
static void change(int cuts) {
    const char *path = getenv("FAIL_FILE");
    long file = syscall(OPENAT, HERE, path, READ_WRITE, 0);
    long length = syscall(LSEEK, file, 0, TO_END);
    if (cuts) {
        syscall(TRUNCATE, path, length / 2);
    } else {
        syscall(LSEEK, file, 0, 0);
        for (long k = 0; k < length; k++)
            syscall(WRITE, file, "\377", 1);
    }
    syscall(CLOSE, file);
}

/* What becomes of a call of this kind: nothing else, fail, or move one byte. */
enum { AS_EVER, FAILS, MOVES_A_BYTE };

static int fate(const char *kind, int error) {
    const char *call = getenv("FAIL_CALL"), *at = getenv("FAIL_AT"), *how = getenv("FAIL_HOW");
    if (!call || !at || !how || strcmp(call, kind) != 0)
        return AS_EVER;
    long wanted = strtol(at, 0, 10);
    count++;
    int goes_on = strcmp(how, "later") == 0 || strcmp(how, "endless") == 0;
    if (count < wanted || (count > wanted && !goes_on))
        return AS_EVER;
    if (count == wanted)
        mark();
    if (strcmp(how, "killed") == 0)
        syscall(KILL, syscall(GETPID), KILLED);
    if (strcmp(how, "short") == 0)
        return MOVES_A_BYTE;
    if (strcmp(how, "cut") == 0 || strcmp(how, "turned") == 0) {
        change(strcmp(how, "cut") == 0);
        return AS_EVER;
    }
    const char *other = getenv("FAIL_ERROR");
    if (other)
        error = (int)strtol(other, 0, 10);
    int interrupts = strcmp(how, "interrupted") == 0 || strcmp(how, "endless") == 0;
    *__errno_location() = interrupts ? INTERRUPTED : error;
    return FAILS;
}

int open(const char *path, int flags, int mode) {
    return fate("open", NOT_PERMITTED) == FAILS ? -1 : (int)syscall(OPENAT, HERE, path, flags, mode);
}

ssize_t read(int file, void *to, size_t length) {
    int becomes = fate("read", IO_ERROR);
    return becomes == FAILS ? -1 : syscall(READ, file, to, becomes == MOVES_A_BYTE && length ? 1 : length);
}

ssize_t pread64(int file, void *to, size_t length, long place) {
    int becomes = fate("read", IO_ERROR);
    return becomes == FAILS ? -1 : syscall(PREAD, file, to, becomes == MOVES_A_BYTE && length ? 1 : length, place);
}

ssize_t pread(int file, void *to, size_t length, long place) { return pread64(file, to, length, place); }

ssize_t write(int file, const void *from, size_t length) {
    int becomes = fate("write", NO_SPACE);
    return becomes == FAILS ? -1 : syscall(WRITE, file, from, becomes == MOVES_A_BYTE && length ? 1 : length);
}

ssize_t __write(int file, const void *from, size_t length) { return write(file, from, length); }

int statx(int folder, const char *path, int flags, unsigned wanted, void *to) {
    return fate("look", NO_MEMORY) == FAILS ? -1 : (int)syscall(STATX, folder, path, flags, wanted, to);
}

int rename(const char *from, const char *to) {
    return fate("rename", IO_ERROR) == FAILS ? -1 : (int)syscall(RENAME, from, to);
}

void *malloc(size_t size) { return fate("allocation", NO_MEMORY) == FAILS ? 0 : __libc_malloc(size); }

void *calloc(size_t items, size_t size) { return fate("allocation", NO_MEMORY) == FAILS ? 0 : __libc_calloc(items, size); }

void *realloc(void *old, size_t size) { return fate("allocation", NO_MEMORY) == FAILS ? 0 : __libc_realloc(old, size); }

void *aligned_alloc(size_t align, size_t size) {
    return fate("allocation", NO_MEMORY) == FAILS ? 0 : __libc_memalign(align, size);
}
