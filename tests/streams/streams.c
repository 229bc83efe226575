/* Loaded before a program: stands between it and its standard input and output, and tells at the end what there was.
 *
 * OUTPUT_TAKES        how many bytes each call that writes to standard output takes at most; where it is 0, each call answers 0
 * OUTPUT_FAILS_AFTER  how many calls take bytes before those that fail with EIO
 * OUTPUT_FAILS_TIMES  how many calls fail then, before calls take bytes again; where it isn't set, all
 * INPUT_FAILS_AFTER   how many bytes of standard input are read before each further call fails
 * INPUT_FAILS_WITH    the number of the error by which it fails
 * STREAMS_TOLD_IN     a file. When the program ends it holds four numbers: how often standard output was written to; how many of these
 *                     calls failed or took no byte; how many bytes the others took; and how many threads were started.
 * What isn't set changes nothing. */
#define _GNU_SOURCE
#include <dlfcn.h>
#include <errno.h>
#include <fcntl.h>
#include <limits.h>
#include <pthread.h>
#include <stdatomic.h>
#include <stdio.h>
#include <stdlib.h>
#include <sys/syscall.h>
#include <unistd.h>

static unsigned long output_takes = ULONG_MAX, output_fails_after = ULONG_MAX, output_fails_times = ULONG_MAX;
static unsigned long input_fails_after = ULONG_MAX, input_fails_with;
static atomic_ulong writes, failures, taken, given, threads;
static const char *told_in;
static int (*start_thread)(pthread_t *, const pthread_attr_t *, void *(*)(void *), void *);

static size_t least(size_t one, size_t other) { return one < other ? one : other; }

/* What standard output answers to a call that has this number, counted from zero. */
static ssize_t answer(unsigned long number, const void *bytes, size_t length) {
    if (number >= output_fails_after && number - output_fails_after < output_fails_times) {
        errno = EIO;
        return -1;
    }
    size_t piece = least(length, output_takes);
    return piece ? syscall(SYS_write, STDOUT_FILENO, bytes, piece) : 0;
}

ssize_t write(int file, const void *bytes, size_t length) {
    if (file != STDOUT_FILENO) return syscall(SYS_write, file, bytes, length);
    ssize_t answered = answer(atomic_fetch_add(&writes, 1), bytes, length);
    if (answered > 0)
        atomic_fetch_add(&taken, answered);
    else
        atomic_fetch_add(&failures, 1);
    return answered;
}

ssize_t __write(int file, const void *bytes, size_t length) { return write(file, bytes, length); }

ssize_t read(int file, void *bytes, size_t length) {
    if (file != STDIN_FILENO) return syscall(SYS_read, file, bytes, length);
    unsigned long left = input_fails_after - atomic_load(&given);
    if (!left) {
        errno = input_fails_with;
        return -1;
    }
    ssize_t answered = syscall(SYS_read, file, bytes, least(length, left));
    if (answered > 0) atomic_fetch_add(&given, answered);
    return answered;
}

int pthread_create(pthread_t *thread, const pthread_attr_t *attributes, void *(*body)(void *), void *argument) {
    int answered = start_thread(thread, attributes, body, argument);
    if (!answered) atomic_fetch_add(&threads, 1);
    return answered;
}

static void set(unsigned long *setting, const char *name) {
    const char *text = getenv(name);
    if (text) *setting = strtoul(text, NULL, 10);
}

__attribute__((constructor)) static void begin(void) {
    start_thread = (int (*)(pthread_t *, const pthread_attr_t *, void *(*)(void *), void *))dlsym(RTLD_NEXT, "pthread_create");
    set(&output_takes, "OUTPUT_TAKES");
    set(&output_fails_after, "OUTPUT_FAILS_AFTER");
    set(&output_fails_times, "OUTPUT_FAILS_TIMES");
    set(&input_fails_after, "INPUT_FAILS_AFTER");
    set(&input_fails_with, "INPUT_FAILS_WITH");
    told_in = getenv("STREAMS_TOLD_IN");
}

/* Ends with a status of its own where what it tells can't be kept. */
__attribute__((destructor)) static void end(void) {
    if (!told_in) return;
    char line[200];
    int length = snprintf(line, sizeof line, "%lu %lu %lu %lu\n", atomic_load(&writes), atomic_load(&failures), atomic_load(&taken),
                          atomic_load(&threads));
    int file = open(told_in, O_WRONLY | O_CREAT | O_TRUNC | O_CLOEXEC, 0666);
    if (syscall(SYS_write, file, line, length) != length) syscall(SYS_exit_group, 99);
    close(file);
    told_in = NULL;
}

/* The program ends by this call, after which no destructor runs. */
void _exit(int status) {
    end();
    syscall(SYS_exit_group, status);
    __builtin_unreachable();
}
