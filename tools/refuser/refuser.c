/* Preloaded into a program by LD_PRELOAD, refuses growths of memory and lets openings, reads and writes fail.
   tools/refuse-growths compiles it and says what for.

   A growth is a call of malloc or realloc. Growths, openings, reads and writes count from 1, reads and writes over all files.
   The environment asks by decimal numbers:

     REFUSE_GROWTH         the growth that is refused
     REFUSE_GROWTHS_FROM   the growth that is refused with all later ones
     FAIL_OPEN             the opening of a file that fails
     FAIL_READ             the read that fails
     FAIL_WRITE            the write that fails
     FAIL_WITH             the errno of that opening, read or write
     MOST_READ             the most bytes that a read gives
     MOST_WRITTEN          the most bytes that a write takes
     REFUSER_COUNTS        no number, but a file of 48 bytes that holds six: the growths, the openings, the reads, the writes
                           so far, the bytes that were written before the write that fails, and the growths before the first opening

   A test asks by the size of a growth, which is itself refused, and its own growths count from there:

     2^46 + n   the n-th growth is refused
     2^47 + n   the n-th growth is refused with all later ones
     40961      no more growths are refused. This one is refused if one was since the test asked, and else found

   No header is included, since the compiler of the Rattle kit comes without them. */

typedef __SIZE_TYPE__ size_t;

void *__libc_malloc(size_t size);
void *__libc_realloc(void *old, size_t size);
long __read(int file, void *to, size_t size);
long __write(int file, const void *from, size_t size);
int *__errno_location(void);
char *getenv(const char *name);
unsigned long strtoul(const char *digits, char **end, int base);
int __open(const char *path, int flags, ...);
void *mmap(void *at, size_t size, int access, int flags, int file, long offset);

enum { OUT_OF_MEMORY = 12, READ_AND_WRITE = 2, ACCESS = 1 | 2, SHARED = 1 };
enum { ONE_REFUSED = 1 << 14, ALL_REFUSED = 1 << 15, END_OF_REFUSALS = 40961 };
static const size_t no_end = -1;

static struct counts {
    size_t growths, opens, reads, writes, written, planning;
} uncounted, *counts = &uncounted;

/* The growths since a test asked, those from first to last of which are refused, and whether one was. */
static size_t grown, first, last;
static int was_refused;

static size_t failing_open, failing_read, failing_write, most_read, most_written;
static int failure;

static size_t asked(const char *name, size_t otherwise) {
    const char *digits = getenv(name);
    return digits ? strtoul(digits, 0, 10) : otherwise;
}

static void refuse(size_t from, size_t to) {
    grown = 0;
    first = from;
    last = to;
    was_refused = 0;
}

__attribute__((constructor)) static void begin(void) {
    size_t one = asked("REFUSE_GROWTH", 0), from = asked("REFUSE_GROWTHS_FROM", 0);
    const char *path = getenv("REFUSER_COUNTS");
    failing_open = asked("FAIL_OPEN", 0);
    failing_read = asked("FAIL_READ", 0);
    failing_write = asked("FAIL_WRITE", 0);
    failure = (int)asked("FAIL_WITH", 0);
    most_read = asked("MOST_READ", no_end);
    most_written = asked("MOST_WRITTEN", no_end);
    if (path)
        counts = mmap(0, sizeof *counts, ACCESS, SHARED, __open(path, READ_AND_WRITE), 0);
    *counts = (struct counts){0, 0, 0, 0, 0, 0};
    refuse(from ? from : one, from ? no_end : one);
}

static int refuses(size_t size) {
    counts->growths++;
    if (size >> 32 == ONE_REFUSED || size >> 32 == ALL_REFUSED) {
        size_t from = size & 0xffffffff;
        refuse(from, size >> 32 == ALL_REFUSED ? no_end : from);
        return 1;
    }
    if (size == END_OF_REFUSALS) {
        first = last = 0;
        return was_refused;
    }
    grown++;
    if (grown < first || grown > last)
        return 0;
    was_refused = 1;
    return 1;
}

static long fail(int number) {
    *__errno_location() = number;
    return -1;
}

static void *no_memory(void) {
    fail(OUT_OF_MEMORY);
    return 0;
}

void *malloc(size_t size) { return refuses(size) ? no_memory() : __libc_malloc(size); }

void *realloc(void *old, size_t size) { return refuses(size) ? no_memory() : __libc_realloc(old, size); }

int open(const char *path, int flags, unsigned access) {
    if (counts->opens == 0)
        counts->planning = counts->growths;
    if (++counts->opens == failing_open)
        return (int)fail(failure);
    return __open(path, flags, access);
}

long read(int file, void *to, size_t size) {
    if (++counts->reads == failing_read)
        return fail(failure);
    return __read(file, to, size < most_read ? size : most_read);
}

long write(int file, const void *from, size_t size) {
    long taken;
    if (++counts->writes == failing_write)
        return fail(failure);
    taken = __write(file, from, size < most_written ? size : most_written);
    if (taken > 0 && (failing_write == 0 || counts->writes < failing_write))
        counts->written += (size_t)taken;
    return taken;
}
