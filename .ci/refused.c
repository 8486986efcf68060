// Stands before the C library's `malloc`, and refuses a program each of its allocations in turn.
//
// The program runs once, with nothing refused. At each allocation it forks, and its copy goes on with this allocation
// refused, while the program itself waits for the copy to end. A copy reads what is left of its files, and writes after
// what was printed before. Then standard output has an outcome for each way in which the copies ended, and before them
// that of the program itself. An outcome is a line of six numbers, with what was printed behind it: how many runs ended
// so, at which allocation first, the status, the blocks that were not released, and how many bytes stand on standard
// output and on standard error.
//
// With `REFUSED_SOME` in its environment it refuses each of the first allocations, and behind them every seventh, which
// is at another place of the code each time unless the program makes seven allocations in turn.
//
// `REFUSED_CONTROL` plants a fault, which has to be told: with `given` nothing is refused, and with `forgotten` a block
// is not released. They are known by their first letters.
typedef unsigned long size_t;

int printf(const char *, ...);
int fflush(void *);
char *getenv(const char *);
int fork(void);
int waitpid(int, int *, int);
unsigned alarm(unsigned);
long lseek(int, long, int);
int ftruncate(int, long);
long pread(int, void *, size_t, long);
int open(const char *, int, ...);
int close(int);
int sprintf(char *, const char *, ...);
long write(int, const void *, size_t);
int memcmp(const void *, const void *, size_t);
int memfd_create(const char *, unsigned);
void *mmap(void *, size_t, int, int, int, long);
int dup2(int, int);
void _exit(int);

void *__libc_malloc(size_t);
void *__libc_calloc(size_t, size_t);
void *__libc_memalign(size_t, size_t);
void *__libc_realloc(void *, size_t);
void __libc_free(void *);

enum { READ_WRITE = 3, SHARED = 1, ANONYMOUS = 32, SEEK_FROM_HERE = 1, SEEK_TO_END = 2, STOPPED = 128 };

// A run that takes more seconds is stopped. So many ways in which runs end are told apart.
enum { SECONDS = 20, WAYS = 16 };

// The status where there were too many ways.
enum { MISSED = 255 };

// Each of so many first allocations is refused if some are, and every one of this number behind them.
enum { FIRST = 500, EVERY = 7 };

// A file that a program has open has a number below this one.
enum { FILES = 64 };

// So much of what a run printed is compared and told.
enum { MOST = 1 << 16 };

// What is seen of the program, or of a copy of it.
struct run {
    unsigned long asked;
    long held;
};

struct outcome {
    unsigned long times, first;
    int status;
    long held, sizes[2];
    char texts[2][MOST];
};

// What the program and its copies leave to the process that watches them.
static struct shared {
    struct run whole, copy;
    struct outcome ways[WAYS], ended;
} *shared;

// That of this process.
static struct run *run;

static int is_counted, is_given, forgets, is_some;

// Where the program prints, and a copy of it: to standard output and to standard error.
static int outputs[2], copied[2];

static int is_control(char letter) {
    const char *name = getenv("REFUSED_CONTROL");
    return name && name[0] == letter;
}

// Takes how a run ended, and empties its outputs.
static void take(int status, const struct run *of, const int *files) {
    struct outcome *ended = &shared->ended;
    ended->status = status & 127 ? STOPPED + (status & 127) : status >> 8 & 255;
    ended->held = of->held;
    for (int it = 0; it < 2; it++) {
        ended->sizes[it] = lseek(files[it], 0, SEEK_TO_END);
        if (ended->sizes[it] > 0) pread(files[it], ended->texts[it], MOST, 0);
        if (ended->sizes[it] > 0) ftruncate(files[it], 0);
        lseek(files[it], 0, 0);
    }
}

static long told(const struct outcome *of, int it) { return of->sizes[it] < MOST ? of->sizes[it] : MOST; }

static int is_same(const struct outcome *one, const struct outcome *other) {
    int same = one->status == other->status && one->held == other->held;
    for (int it = 0; it < 2; it++)
        same = same && one->sizes[it] == other->sizes[it] && !memcmp(one->texts[it], other->texts[it], told(one, it));
    return same;
}

// Counts the outcome of a run among those from this one on. What differs from all that there is room for is told of by
// the last one's status.
static void count(unsigned long number, int from) {
    struct outcome *ways = shared->ways, *ended = &shared->ended;
    int it = from;
    while (it < WAYS - 1 && ways[it].times && !is_same(&ways[it], ended)) it++;
    if (ways[it].times == 0) {
        ways[it] = *ended;
        ways[it].first = number;
    } else if (!is_same(&ways[it], ended)) {
        ways[it].status = MISSED;
    }
    ways[it].times++;
}

static int is_output(int file) {
    return file == 1 || file == 2 || file == outputs[0] || file == outputs[1] || file == copied[0] || file == copied[1];
}

// Opens the files that this process reads anew, each at its place, so that those of the program stay where they are.
static void open_anew(void) {
    for (int it = 0; it < FILES; it++) {
        char name[32];
        long place = is_output(it) ? -1 : lseek(it, 0, SEEK_FROM_HERE);
        if (place < 0) continue;
        sprintf(name, "/proc/self/fd/%d", it);
        int file = open(name, 0);
        if (file < 0 || lseek(file, place, 0) < 0 || dup2(file, it) < 0 || close(file) < 0) _exit(MISSED);
    }
}

// Makes this process the copy of the program, with what that has printed so far.
static void begin_copy(void) {
    static char text[MOST];
    run = &shared->copy;
    open_anew();
    for (int it = 0; it < 2; it++) {
        for (long at = 0, size; (size = pread(outputs[it], text, MOST, at)) > 0; at += size)
            if (write(copied[it], text, size) != size) _exit(MISSED);
        dup2(copied[it], it + 1);
    }
    alarm(SECONDS);
}

// Whether the allocation that is requested now is refused: to a copy of the program, and not to the program itself. The
// copy gets all others.
static int is_refused(void) {
    if (!is_counted || run != &shared->whole) return 0;
    int status, process;
    run->asked++;
    if (is_some && run->asked > FIRST && run->asked % EVERY) return 0;
    alarm(0);
    shared->copy = *run;
    process = fork();
    if (process == 0) {
        begin_copy();
        return !is_given;
    }
    if (process < 0 || waitpid(process, &status, 0) < 0) _exit(MISSED);
    take(status, &shared->copy, copied);
    count(run->asked, 1);
    alarm(SECONDS);
    return 0;
}

static void *given(void *place, int is_new) {
    if (is_counted && place && is_new) run->held++;
    return place;
}

void *malloc(size_t size) { return is_refused() ? 0 : given(__libc_malloc(size), 1); }

void *calloc(size_t count, size_t size) { return is_refused() ? 0 : given(__libc_calloc(count, size), 1); }

void *aligned_alloc(size_t to, size_t size) { return is_refused() ? 0 : given(__libc_memalign(to, size), 1); }

void *realloc(void *old, size_t size) { return is_refused() ? 0 : given(__libc_realloc(old, size), !old); }

void free(void *place) {
    if (is_counted && place && !forgets) run->held--;
    if (place) forgets = 0;
    __libc_free(place);
}

static void tell(void) {
    for (int it = 0; it < WAYS && shared->ways[it].times; it++) {
        const struct outcome *of = &shared->ways[it];
        printf("%lu %lu %d %ld %ld %ld\n", of->times, of->first, of->status, of->held, told(of, 0), told(of, 1));
        fflush(0);
        for (int text = 0; text < 2; text++)
            if (write(1, of->texts[text], told(of, text)) < 0) _exit(3);
    }
    _exit(0);
}

static void *of_all(size_t size) { return mmap(0, size, READ_WRITE, SHARED | ANONYMOUS, -1, 0); }

__attribute__((constructor)) static void begin(void) {
    int status, process;
    for (int it = 0; it < 2; it++) outputs[it] = memfd_create("output", 0), copied[it] = memfd_create("copied", 0);
    shared = of_all(sizeof *shared);
    run = &shared->whole;
    process = fork();
    if (process == 0) {
        dup2(outputs[0], 1);
        dup2(outputs[1], 2);
        alarm(SECONDS);
        is_given = is_control('g');
        forgets = is_control('f');
        is_some = getenv("REFUSED_SOME") != 0;
        is_counted = 1;
        return;
    }
    if (process < 0 || waitpid(process, &status, 0) < 0) _exit(3);
    take(status, &shared->whole, outputs);
    count(0, 0);
    tell();
}
