/* Is loaded before the C library into a run of one test. At each allocation copies of the process go on in turn: one with
   only this allocation refused; if that passes, as a growth does that is tried again with the exact size, one with this and
   the next refused; and one with this and every later one refused. A line on standard error says how each ended, after the
   output of the copy; then the allocation is granted. So one run refuses each allocation of the test in every way, and no
   count of them is needed. After the first 1,000 of a test each 127th is refused: a test with that many repeats itself. A
   copy that does without the memory, as rows do without lanes, ends well after 3,000 more were granted. A test that reads a
   file or has a thread can't be copied this way. The library includes no header, and so needs only the compiler.

   A test may query whether its last allocation was refused, by an allocation of ASKED bytes (crates/worked/src/memory.rt), which
   is refused if that one was. From there on each is granted, and no copy is made. */

typedef __SIZE_TYPE__ size_t;

extern void *__libc_malloc(size_t);
extern void *__libc_calloc(size_t, size_t);
extern void *__libc_realloc(void *, size_t);
extern void *__libc_memalign(size_t, size_t);
extern int *__errno_location(void);
extern int fork(void);
extern int waitpid(int, int *, int);
extern unsigned alarm(unsigned);
extern void _exit(int);
extern int dprintf(int, const char *, ...);

enum { STANDARD_ERROR = 2, NO_MEMORY = 12, MOST_SECONDS = 60, ALARM = 14, ASKED = 1000003, EACH_OF = 1000, THEN_EACH = 127, ENOUGH = 3000 };

static enum { COPIES, IS_COPY, GRANTS } state = COPIES;

/* How many allocations are still refused in a copy. */
static long refusals;

static long count;

/* How many were granted to a copy since. */
static long granted;

/* Whether the last allocation was refused. */
static int was_refused;

/* How a copy ends that is refused so many allocations from this one on. In the copy itself it is told that it is one. */
static int copy_refused(const char *way, long many, int *is_copy) {
    int status = -1, copy = fork();
    if (copy == 0) {
        state = IS_COPY;
        refusals = many - 1;
        alarm(MOST_SECONDS);
        *is_copy = 1;
        return 0;
    }
    if (copy > 0)
        waitpid(copy, &status, 0);
    dprintf(STANDARD_ERROR, "\nrefused %ld %s: %d\n", count, way, status);
    if (status == ALARM)
        _exit(1);
    return status;
}

/* Whether the allocation that now comes is refused. */
static int refuses(void) {
    if (state == GRANTS)
        return 0;
    if (state == IS_COPY) {
        if (refusals > 0 && refusals--)
            return 1;
        if (++granted > ENOUGH)
            _exit(0);
        return 0;
    }
    count++;
    if (count > EACH_OF && count % THEN_EACH != 0)
        return 0;
    state = GRANTS;
    int is_copy = 0;
    if (copy_refused("alone", 1, &is_copy) == 0 && !is_copy)
        copy_refused("and the next", 2, &is_copy);
    if (!is_copy)
        copy_refused("and later", __LONG_MAX__, &is_copy);
    if (!is_copy)
        state = COPIES;
    return is_copy;
}

/* The same of one of so many bytes, which may be a question. */
static int is_refused(size_t size) {
    if (size == ASKED)
        state = GRANTS;
    else
        was_refused = refuses();
    return was_refused;
}

static void *refusal(void) {
    *__errno_location() = NO_MEMORY;
    return 0;
}

void *malloc(size_t size) { return is_refused(size) ? refusal() : __libc_malloc(size); }

void *calloc(size_t items, size_t size) { return is_refused(items * size) ? refusal() : __libc_calloc(items, size); }

void *realloc(void *old, size_t size) { return is_refused(size) ? refusal() : __libc_realloc(old, size); }

void *aligned_alloc(size_t align, size_t size) { return is_refused(size) ? refusal() : __libc_memalign(align, size); }

int posix_memalign(void **to, size_t align, size_t size) {
    void *given = is_refused(size) ? 0 : __libc_memalign(align, size);
    if (!given)
        return NO_MEMORY;
    *to = given;
    return 0;
}
