/* Refuses one request for memory of a program: the one whose number stands in REFUSE, from 1; and one start of a
   thread: the one whose number stands in REFUSE_START, from 1. Where there is such a request, or such a start, it
   makes the file that REFUSED names. Where a thread that was started still runs as the program ends, it makes the
   file that RUNNING names. Loaded before the C library, by LD_PRELOAD.

   It also traces a program that prints all of its lines from one buffer at the end, in two runs without a refusal. The
   first run appends to the file that BUFFER_FOUND names the number of the request that gave that buffer, at each write
   to standard output. The second run has this number in BUFFER, and appends to the file that LINES names, for each
   request, the number of lines in the buffer when the request was made. */
#define _GNU_SOURCE
#include <dlfcn.h>
#include <errno.h>
#include <fcntl.h>
#include <pthread.h>
#include <stdio.h>
#include <stdlib.h>
#include <string.h>
#include <sys/syscall.h>
#include <unistd.h>

/* How many starts are watched. */
#define MOST_STARTS 4096

static long asked;
static long started;
static long running;

/* Makes the file that a variable names. */
static void tell(const char *variable) {
    const char *name = getenv(variable);
    int file = name == NULL ? -1 : creat(name, 0600);
    if (file >= 0) close(file);
}

/* Counts one more. Its number, from 1. */
static long next_of(long *count) {
    return __atomic_add_fetch(count, 1, __ATOMIC_SEQ_CST);
}

/* How many requests are traced. */
#define MOST_REQUESTS 65536

/* A block of memory that a request was given. */
struct block {
    char *start;
    size_t size;
};

/* The blocks that were given, by the number of their request. */
static struct block blocks[MOST_REQUESTS];

/* Appends a number as a line to the file that a variable names. */
static void append(const char *variable, long number) {
    const char *name = getenv(variable);
    char line[24];
    if (name == NULL) return;
    int file = open(name, O_WRONLY | O_CREAT | O_APPEND, 0600);
    if (file < 0) return;
    int size = snprintf(line, sizeof line, "%ld\n", number);
    syscall(SYS_write, file, line, (size_t)size);
    close(file);
}

/* How many lines stand in the buffer, which was zero at first. */
static long lines_in(const struct block *buffer) {
    long lines = 0;
    for (size_t at = 0; at < buffer->size && buffer->start[at] != 0; at++) lines += buffer->start[at] == '\n';
    return lines;
}

/* Traces a request before it is granted. */
static void trace_request(void) {
    const char *number = getenv("BUFFER");
    if (number == NULL) return;
    long place = atol(number);
    int is_given = place > 0 && place < MOST_REQUESTS && blocks[place].start != NULL;
    append("LINES", is_given ? lines_in(&blocks[place]) : 0);
}

/* Keeps the block that a request was given, and hands it on. */
static void *keep(long place, void *start, size_t size) {
    const char *number = getenv("BUFFER");
    if (start == NULL || place >= MOST_REQUESTS) return start;
    if (number != NULL && atol(number) == place) memset(start, 0, size);
    blocks[place].start = start;
    blocks[place].size = size;
    return start;
}

/* The number of the last request that was given the memory at a place, or 0. */
static long request_of(const char *place) {
    long last = __atomic_load_n(&asked, __ATOMIC_SEQ_CST);
    for (long number = last < MOST_REQUESTS ? last : MOST_REQUESTS - 1; number > 0; number--) {
        const struct block *block = &blocks[number];
        if (block->start != NULL && place >= block->start && place < block->start + block->size) return number;
    }
    return 0;
}

ssize_t write(int file, const void *from, size_t size) {
    long number = file == 1 && size > 0 ? request_of(from) : 0;
    if (number > 0) append("BUFFER_FOUND", number);
    return syscall(SYS_write, file, from, size);
}

/* Whether this is the number that stands in a variable. */
static int is_refused(long place, const char *variable) {
    const char *number = getenv(variable);
    if (number == NULL || atol(number) != place) return 0;
    tell("REFUSED");
    return 1;
}

/* The number of a request that is made. */
static long request(void) {
    long place = next_of(&asked);
    trace_request();
    return place;
}

void *malloc(size_t size) {
    static void *(*next)(size_t);
    if (next == NULL) next = dlsym(RTLD_NEXT, "malloc");
    long place = request();
    return is_refused(place, "REFUSE") ? NULL : keep(place, next(size), size);
}

void *realloc(void *part, size_t size) {
    static void *(*next)(void *, size_t);
    if (next == NULL) next = dlsym(RTLD_NEXT, "realloc");
    long place = request();
    return is_refused(place, "REFUSE") ? NULL : keep(place, next(part, size), size);
}

void *aligned_alloc(size_t alignment, size_t size) {
    static void *(*next)(size_t, size_t);
    if (next == NULL) next = dlsym(RTLD_NEXT, "aligned_alloc");
    long place = request();
    return is_refused(place, "REFUSE") ? NULL : keep(place, next(alignment, size), size);
}

int posix_memalign(void **part, size_t alignment, size_t size) {
    static int (*next)(void **, size_t, size_t);
    if (next == NULL) next = dlsym(RTLD_NEXT, "posix_memalign");
    long place = request();
    if (is_refused(place, "REFUSE")) return ENOMEM;
    int fault = next(part, alignment, size);
    if (fault == 0) keep(place, *part, size);
    return fault;
}

/* What a thread is started with. */
struct work {
    void *(*does)(void *);
    void *given;
};

static struct work works[MOST_STARTS];

/* Does a thread's work, and counts that it has ended. */
static void *work(void *place) {
    struct work *own = place;
    void *made = own->does(own->given);
    __atomic_sub_fetch(&running, 1, __ATOMIC_SEQ_CST);
    return made;
}

int pthread_create(pthread_t *thread, const pthread_attr_t *how, void *(*does)(void *), void *given) {
    static int (*next)(pthread_t *, const pthread_attr_t *, void *(*)(void *), void *);
    if (next == NULL) next = dlsym(RTLD_NEXT, "pthread_create");
    long place = next_of(&started);
    if (is_refused(place, "REFUSE_START")) return EAGAIN;
    if (place > MOST_STARTS) return next(thread, how, does, given);
    struct work *own = &works[place - 1];
    own->does = does;
    own->given = given;
    __atomic_add_fetch(&running, 1, __ATOMIC_SEQ_CST);
    int fault = next(thread, how, work, own);
    if (fault != 0) __atomic_sub_fetch(&running, 1, __ATOMIC_SEQ_CST);
    return fault;
}

__attribute__((destructor)) static void end(void) {
    if (__atomic_load_n(&running, __ATOMIC_SEQ_CST) > 0) tell("RUNNING");
}
