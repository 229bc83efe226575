/* Loaded before a program: numbers its growths, refuses some, and tells at the end what there was.
 *
 * A growth is a call that takes memory of the allocator, or one that starts a thread; they are numbered from one, over all threads. A
 * block that is made smaller is none: the program keeps the block as it is where that is refused.
 * REFUSED_GROWTH       the number of the one growth that is refused
 * REFUSED_GROWTHS_FROM the number from which on each growth is refused
 * GROWTHS_OF_CALLS     where it is set, a growth has a number only between two lines that the program writes to standard error, `calling`
 *                      and `called`, each in one piece; they don't get there. All others have the number 0, and none of them is refused.
 * GROWTHS_TOLD_IN      a file. When the program ends it holds `growths N`; `calls N`, how often `calling` was written; for each growth that
 *                      was refused `refused NUMBER CALL BYTES OWNER`, and for each that started a thread `started NUMBER ..`; and for each
 *                      block that was not given back `kept NUMBER ..`; and `kept BLOCKS in all`. At most 100 refused and started, 10,000 kept.
 * OWNER is `program` where the program itself made the call, and `library` where a library that it uses did, as the C library for
 * a thread that it starts. */
#define _GNU_SOURCE
#include <dlfcn.h>
#include <errno.h>
#include <fcntl.h>
#include <link.h>
#include <pthread.h>
#include <sched.h>
#include <stdatomic.h>
#include <stdint.h>
#include <stdio.h>
#include <stdlib.h>
#include <string.h>
#include <sys/syscall.h>
#include <unistd.h>

void *__libc_malloc(size_t size);
void *__libc_calloc(size_t count, size_t size);
void *__libc_realloc(void *old, size_t size);
void *__libc_memalign(size_t alignment, size_t size);
void __libc_free(void *block);

struct growth {
    void *block;
    unsigned long number;
    size_t size;
    const char *call;
    const char *owner;
};

/* The blocks that the program has, at the place that their address gives or after it. */
#define PLACES (1UL << 16)
static struct growth kept[PLACES];
static unsigned long kept_count;
#define SHOWN 100
#define KEPT_SHOWN 10000
static struct growth refused[SHOWN], started[SHOWN];
static unsigned long refused_count, started_count;
static int is_full;
static atomic_flag taken = ATOMIC_FLAG_INIT;

static int is_ready, is_of_calls;
static atomic_int is_calling;
static atomic_ulong growths, calls;
static unsigned long refused_growth, refused_from;
static uintptr_t program_begin, program_end;
static const char *told_in;
static int (*start_thread)(pthread_t *, const pthread_attr_t *, void *(*)(void *), void *);

static void lock(void) {
    while (atomic_flag_test_and_set(&taken)) sched_yield();
}

static void unlock(void) { atomic_flag_clear(&taken); }

static unsigned long place_of(void *block) { return ((uintptr_t)block >> 4) * 0x9E3779B97F4A7C15UL >> 48; }

static void keep(void *block, struct growth growth) {
    if (!block || !growth.call) return;
    lock();
    unsigned long place = place_of(block);
    if (kept_count < PLACES / 2) {
        while (kept[place].block) place = (place + 1) % PLACES;
        growth.block = block;
        kept[place] = growth;
        kept_count++;
    } else {
        is_full = 1;
    }
    unlock();
}

static struct growth forget(void *block) {
    struct growth found = {0};
    if (!block) return found;
    lock();
    unsigned long place = place_of(block);
    while (kept[place].block && kept[place].block != block) place = (place + 1) % PLACES;
    if (kept[place].block) {
        found = kept[place];
        kept_count--;
        /* Those behind move up to where a search finds them. */
        for (unsigned long next = (place + 1) % PLACES; kept[next].block; next = (next + 1) % PLACES) {
            unsigned long from = place_of(kept[next].block);
            if ((next - from) % PLACES >= (next - place) % PLACES) {
                kept[place] = kept[next];
                place = next;
            }
        }
        kept[place].block = NULL;
    }
    unlock();
    return found;
}

static void note(struct growth *list, unsigned long *count, struct growth growth) {
    lock();
    if (*count < SHOWN) list[(*count)++] = growth;
    unlock();
}

/* Numbers a growth, and answers whether it is refused. */
static int is_refused(struct growth *growth, const char *call, size_t size, void *caller) {
    *growth = (struct growth){0};
    if (!is_ready) return 0;
    growth->size = size;
    growth->call = call;
    growth->owner = (uintptr_t)caller >= program_begin && (uintptr_t)caller < program_end ? "program" : "library";
    if (is_of_calls && !atomic_load(&is_calling)) return 0;
    growth->number = atomic_fetch_add(&growths, 1) + 1;
    if (growth->number != refused_growth && (!refused_from || growth->number < refused_from)) return 0;
    note(refused, &refused_count, *growth);
    errno = ENOMEM;
    return 1;
}

void *malloc(size_t size) {
    struct growth growth;
    if (is_refused(&growth, "malloc", size, __builtin_return_address(0))) return NULL;
    void *block = __libc_malloc(size);
    keep(block, growth);
    return block;
}

void *calloc(size_t count, size_t size) {
    struct growth growth;
    if (is_refused(&growth, "calloc", count * size, __builtin_return_address(0))) return NULL;
    void *block = __libc_calloc(count, size);
    keep(block, growth);
    return block;
}

void *realloc(void *old, size_t size) {
    struct growth before = forget(old), growth = before;
    growth.size = size;
    if (size > before.size && is_refused(&growth, "realloc", size, __builtin_return_address(0))) {
        keep(old, before);
        return NULL;
    }
    void *block = __libc_realloc(old, size);
    if (block)
        keep(block, growth);
    else if (size)
        keep(old, before);
    return block;
}

static void *aligned(const char *call, size_t alignment, size_t size, void *caller) {
    struct growth growth;
    if (is_refused(&growth, call, size, caller)) return NULL;
    void *block = __libc_memalign(alignment, size);
    keep(block, growth);
    return block;
}

void *memalign(size_t alignment, size_t size) { return aligned("memalign", alignment, size, __builtin_return_address(0)); }

void *aligned_alloc(size_t alignment, size_t size) { return aligned("aligned_alloc", alignment, size, __builtin_return_address(0)); }

int posix_memalign(void **block, size_t alignment, size_t size) {
    int before = errno;
    void *made = aligned("posix_memalign", alignment, size, __builtin_return_address(0));
    errno = before;
    if (!made) return ENOMEM;
    *block = made;
    return 0;
}

void free(void *block) {
    forget(block);
    __libc_free(block);
}

int pthread_create(pthread_t *thread, const pthread_attr_t *attributes, void *(*body)(void *), void *argument) {
    struct growth growth;
    if (is_refused(&growth, "pthread_create", 0, __builtin_return_address(0))) return EAGAIN;
    note(started, &started_count, growth);
    return start_thread(thread, attributes, body, argument);
}

/* Whether a line on standard error tells that a call begins or ends. */
static int is_of_call(int file, const void *bytes, size_t length) {
    if (!is_of_calls || file != STDERR_FILENO) return 0;
    if (length == 8 && !memcmp(bytes, "calling\n", 8)) {
        atomic_fetch_add(&calls, 1);
        atomic_store(&is_calling, 1);
        return 1;
    }
    if (length == 7 && !memcmp(bytes, "called\n", 7)) {
        atomic_store(&is_calling, 0);
        return 1;
    }
    return 0;
}

ssize_t write(int file, const void *bytes, size_t length) {
    if (is_of_call(file, bytes, length)) return length;
    return syscall(SYS_write, file, bytes, length);
}

ssize_t __write(int file, const void *bytes, size_t length) { return write(file, bytes, length); }

/* The program stands first among what is loaded. */
static int find_program(struct dl_phdr_info *info, size_t size, void *unused) {
    (void)size, (void)unused;
    for (int part = 0; part < info->dlpi_phnum; part++) {
        const ElfW(Phdr) *header = &info->dlpi_phdr[part];
        if (header->p_type != PT_LOAD || !(header->p_flags & PF_X)) continue;
        program_begin = info->dlpi_addr + header->p_vaddr;
        program_end = program_begin + header->p_memsz;
    }
    return 1;
}

static unsigned long number_in(const char *name) {
    const char *text = getenv(name);
    return text ? strtoul(text, NULL, 10) : 0;
}

__attribute__((constructor)) static void begin(void) {
    start_thread = (int (*)(pthread_t *, const pthread_attr_t *, void *(*)(void *), void *))dlsym(RTLD_NEXT, "pthread_create");
    dl_iterate_phdr(find_program, NULL);
    refused_growth = number_in("REFUSED_GROWTH");
    refused_from = number_in("REFUSED_GROWTHS_FROM");
    is_of_calls = getenv("GROWTHS_OF_CALLS") != NULL;
    told_in = getenv("GROWTHS_TOLD_IN");
    is_ready = 1;
}

/* Ends with a status of its own where what it tells can't be kept. */
static void put(int file, const char *line, int length) {
    if (write(file, line, length) != length) syscall(SYS_exit_group, 99);
}

static void tell(int file, const char *what, const struct growth *growth) {
    char line[200];
    put(file, line, snprintf(line, sizeof line, "%s %lu %s %zu %s\n", what, growth->number, growth->call, growth->size, growth->owner));
}

__attribute__((destructor)) static void end(void) {
    if (!told_in || !is_ready) return;
    is_ready = 0;
    int file = open(told_in, O_WRONLY | O_CREAT | O_TRUNC | O_CLOEXEC, 0666);
    char line[200];
    put(file, line, snprintf(line, sizeof line, "growths %lu\ncalls %lu\n", atomic_load(&growths), atomic_load(&calls)));
    for (unsigned long at = 0; at < refused_count; at++) tell(file, "refused", &refused[at]);
    for (unsigned long at = 0; at < started_count; at++) tell(file, "started", &started[at]);
    unsigned long shown = 0;
    for (unsigned long place = 0; place < PLACES && shown < KEPT_SHOWN; place++) {
        if (!kept[place].block) continue;
        tell(file, "kept", &kept[place]);
        shown++;
    }
    const char *more = is_full ? ", and more than could be numbered" : "";
    put(file, line, snprintf(line, sizeof line, "kept %lu in all%s\n", kept_count, more));
    close(file);
}

/* The program ends by this call, after which no destructor runs. */
void _exit(int status) {
    end();
    syscall(SYS_exit_group, status);
    __builtin_unreachable();
}
