/* A library that is loaded before a program (LD_PRELOAD) and stands between it and the C library: it refuses a chosen
   request for memory, read or write, moves at most so many bytes at a call, and sets the clock. What it is to do stands in the environment:

     REFUSE_MEMORY=N    the Nth request for memory or for a thread is refused; N+ for it and all that come after
     REFUSE_THREADS=1   each request for a thread is refused
     REFUSE_READ=N      the Nth read answers REFUSE_WITH
     REFUSE_WRITE=N     the Nth write to standard output answers REFUSE_WITH
     REFUSE_WITH=E      this error, and 0 for a call that moves no byte (5, a failed device, if left out)
     MOST_BYTES=K       each read and write moves at most K bytes
     CLOCK_STEP=M       the clock stands still, and goes on by M milliseconds after each reading
     REFUSE_CLOCK=1     the clock can't be read
     REFUSE_COUNTS=F    all these are counted in this file, which has room for the six numbers of `struct counts`

   It is written for the C library of GNU on Linux, and takes no header, so the kit's compiler alone can make it. */

typedef unsigned long size;

enum { TRY_AGAIN = 11, NO_MEMORY = 12, DEVICE_FAILED = 5 };
enum { READ_AND_WRITE = 2, PAGE_READ_AND_WRITE = 3, SHARED = 1, STANDARD_OUTPUT = 1 };

void *__libc_malloc(size);
void *__libc_calloc(size, size);
void *__libc_realloc(void *, size);
void *__libc_memalign(size, size);
long __read(int, void *, size);
long __write(int, const void *, size);
int *__errno_location(void);
void *dlsym(void *, const char *);
int open(const char *, int, ...);
void *mmap(void *, size, int, int, int, long);

/* How many calls there were: requests for memory or for a thread, those of them that were refused, reads, writes, threads that were asked for,
   and readings of the clock. */
struct counts {
    size memory, refused, reads, writes, threads, clock;
};

/* A time as the system's calls have it. */
struct time {
    long seconds, nanoseconds;
};

static struct counts own_counts;
static struct counts *counts = &own_counts;

/* Which call is refused, counted from 1: none where it is 0. */
static size memory_at, read_at, write_at, most_bytes = ~0UL;
static int all_after, no_threads, no_clock, is_clock_set;
static size clock_step;
static int answer = DEVICE_FAILED;

/* The value of a line NAME=VALUE of the environment, or none. */
static const char *value_of(const char *line, const char *name) {
    while (*name && *line == *name) line++, name++;
    return *name == 0 && *line == '=' ? line + 1 : 0;
}

static size number(const char *text) {
    size value = 0;
    for (; *text >= '0' && *text <= '9'; text++) value = 10 * value + (size)(*text - '0');
    return value;
}

static const char *environment(char **lines, const char *name) {
    for (; *lines; lines++) {
        const char *value = value_of(*lines, name);
        if (value) return value;
    }
    return 0;
}

/* Counts go to the file, so that they are there however the program ends. */
static void count_in(const char *path) {
    int file = open(path, READ_AND_WRITE);
    void *room = mmap(0, sizeof *counts, PAGE_READ_AND_WRITE, SHARED, file, 0);
    if (file >= 0 && room != (void *)-1) counts = room;
}

__attribute__((constructor)) static void read_environment(int word_count, char **words, char **lines) {
    const char *value;
    (void)word_count, (void)words;
    if ((value = environment(lines, "REFUSE_COUNTS"))) count_in(value);
    if ((value = environment(lines, "REFUSE_MEMORY"))) {
        memory_at = number(value);
        for (; *value; value++) all_after |= *value == '+';
    }
    no_threads = environment(lines, "REFUSE_THREADS") != 0;
    if ((value = environment(lines, "REFUSE_READ"))) read_at = number(value);
    if ((value = environment(lines, "REFUSE_WRITE"))) write_at = number(value);
    if ((value = environment(lines, "REFUSE_WITH"))) answer = (int)number(value);
    if ((value = environment(lines, "MOST_BYTES"))) most_bytes = number(value);
    no_clock = environment(lines, "REFUSE_CLOCK") != 0;
    if ((value = environment(lines, "CLOCK_STEP"))) is_clock_set = 1, clock_step = number(value);
}

/* The number of this call, counted from 1. */
static size next(size *count) {
    return __atomic_add_fetch(count, 1, __ATOMIC_SEQ_CST);
}

static int memory_is_refused(void) {
    size at = next(&counts->memory);
    if (at != memory_at && !(all_after && at > memory_at)) return 0;
    next(&counts->refused);
    *__errno_location() = NO_MEMORY;
    return 1;
}

void *malloc(size bytes) {
    return memory_is_refused() ? 0 : __libc_malloc(bytes);
}

void *calloc(size items, size bytes) {
    return memory_is_refused() ? 0 : __libc_calloc(items, bytes);
}

void *realloc(void *old, size bytes) {
    return memory_is_refused() ? 0 : __libc_realloc(old, bytes);
}

void *memalign(size alignment, size bytes) {
    return memory_is_refused() ? 0 : __libc_memalign(alignment, bytes);
}

void *aligned_alloc(size alignment, size bytes) {
    return memalign(alignment, bytes);
}

int posix_memalign(void **room, size alignment, size bytes) {
    *room = memalign(alignment, bytes);
    return *room ? 0 : NO_MEMORY;
}

/* A thread that can't be made, as where the system has no room for its stack. */
int pthread_create(void *thread, const void *attributes, void *(*run)(void *), void *argument) {
    static int (*create)(void *, const void *, void *(*)(void *), void *);
    next(&counts->threads);
    if (memory_is_refused() || no_threads) return TRY_AGAIN;
    if (!create) create = dlsym((void *)-1, "pthread_create");
    return create(thread, attributes, run, argument);
}

static long refused_call(void) {
    if (answer == 0) return 0;
    *__errno_location() = answer;
    return -1;
}

long read(int file, void *room, size bytes) {
    if (next(&counts->reads) == read_at) return refused_call();
    return __read(file, room, bytes < most_bytes ? bytes : most_bytes);
}

long write(int file, const void *text, size bytes) {
    if (file == STANDARD_OUTPUT && next(&counts->writes) == write_at) return refused_call();
    return __write(file, text, bytes < most_bytes ? bytes : most_bytes);
}

/* The clock that is set begins five seconds after its zero. */
int clock_gettime(int clock, struct time *now) {
    static int (*read_clock)(int, struct time *);
    size at = 5000 + (next(&counts->clock) - 1) * clock_step;
    if (no_clock) {
        *__errno_location() = DEVICE_FAILED;
        return -1;
    }
    if (is_clock_set) {
        now->seconds = (long)(at / 1000), now->nanoseconds = (long)(at % 1000) * 1000000;
        return 0;
    }
    if (!read_clock) read_clock = dlsym((void *)-1, "clock_gettime");
    return read_clock(clock, now);
}
