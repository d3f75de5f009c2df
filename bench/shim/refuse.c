/* A library to be preloaded. It counts the allocations, the starts of threads, the reads of standard input and the writes to standard output of
   a program, refuses those that the environment names, and can let reads and writes take one byte at a time.

     REFUSE_MEMORY, REFUSE_THREADS, REFUSE_READS, REFUSE_WRITES   N: the N-th alone; N+: all from the N-th on
     REFUSE_ERROR    the error of a refused read or write, as a number; 0: a write takes nothing
     REFUSE_SHORT    any value: a read or a write takes one byte
     REFUSE_COUNTS   a file of 64 bytes or more in which four pairs of numbers stand afterwards: how many there were, and how many were refused */
#define _GNU_SOURCE
#include <dlfcn.h>
#include <errno.h>
#include <fcntl.h>
#include <pthread.h>
#include <stddef.h>
#include <stdint.h>
#include <stdlib.h>
#include <sys/mman.h>
#include <unistd.h>

enum { MEMORY, THREADS, READS, WRITES, KINDS };

static struct { uint64_t seen, refused; } own[KINDS], (*counts)[KINDS];
static uint64_t first[KINDS];
static int all_from[KINDS], error_number = EIO, one_byte;
static int (*next_create)(pthread_t *, const pthread_attr_t *, void *(*)(void *), void *);
static ssize_t (*next_read)(int, void *, size_t);
static ssize_t (*next_write)(int, const void *, size_t);

extern void *__libc_malloc(size_t), *__libc_calloc(size_t, size_t), *__libc_realloc(void *, size_t), *__libc_memalign(size_t, size_t);

__attribute__((constructor)) static void begin(void) {
    static const char *const names[KINDS] = {"REFUSE_MEMORY", "REFUSE_THREADS", "REFUSE_READS", "REFUSE_WRITES"};
    for (int kind = 0; kind < KINDS; kind++) {
        const char *word = getenv(names[kind]);
        char *rest;
        if (word == NULL)
            continue;
        first[kind] = strtoull(word, &rest, 10);
        all_from[kind] = *rest == '+';
    }
    *(void **)&next_create = dlsym(RTLD_NEXT, "pthread_create");
    *(void **)&next_read = dlsym(RTLD_NEXT, "read");
    *(void **)&next_write = dlsym(RTLD_NEXT, "write");
    if (getenv("REFUSE_ERROR") != NULL)
        error_number = atoi(getenv("REFUSE_ERROR"));
    one_byte = getenv("REFUSE_SHORT") != NULL;
    const char *path = getenv("REFUSE_COUNTS");
    int file = path == NULL ? -1 : open(path, O_RDWR);
    void *shared = file < 0 ? MAP_FAILED : mmap(NULL, sizeof own, PROT_READ | PROT_WRITE, MAP_SHARED, file, 0);
    if (file >= 0)
        close(file);
    counts = shared == MAP_FAILED ? &own : shared;
}

/* Whether the next one of this kind is refused. Nothing is counted before the library has begun. */
static int refused(int kind) {
    if (counts == NULL)
        return 0;
    uint64_t number = __atomic_add_fetch(&(*counts)[kind].seen, 1, __ATOMIC_SEQ_CST);
    int is = first[kind] != 0 && (number == first[kind] || (all_from[kind] && number > first[kind]));
    if (is)
        __atomic_add_fetch(&(*counts)[kind].refused, 1, __ATOMIC_SEQ_CST);
    return is;
}

static void *no_memory(void) {
    errno = ENOMEM;
    return NULL;
}

void *malloc(size_t size) {
    return refused(MEMORY) ? no_memory() : __libc_malloc(size);
}

void *calloc(size_t count, size_t size) {
    return refused(MEMORY) ? no_memory() : __libc_calloc(count, size);
}

void *realloc(void *old, size_t size) {
    return refused(MEMORY) ? no_memory() : __libc_realloc(old, size);
}

void *memalign(size_t align, size_t size) {
    return refused(MEMORY) ? no_memory() : __libc_memalign(align, size);
}

void *aligned_alloc(size_t align, size_t size) {
    return refused(MEMORY) ? no_memory() : __libc_memalign(align, size);
}

int posix_memalign(void **into, size_t align, size_t size) {
    void *found = refused(MEMORY) ? NULL : __libc_memalign(align, size);
    if (found == NULL)
        return ENOMEM;
    *into = found;
    return 0;
}

int pthread_create(pthread_t *thread, const pthread_attr_t *attr, void *(*start)(void *), void *given) {
    return refused(THREADS) ? EAGAIN : next_create(thread, attr, start, given);
}

static ssize_t fail(void) {
    if (error_number == 0)
        return 0;
    errno = error_number;
    return -1;
}

ssize_t read(int file, void *into, size_t size) {
    if (file == 0 && refused(READS))
        return fail();
    return next_read(file, into, file == 0 && one_byte && size > 1 ? 1 : size);
}

ssize_t write(int file, const void *from, size_t size) {
    if (file == 1 && refused(WRITES))
        return fail();
    return next_write(file, from, file == 1 && one_byte && size > 1 ? 1 : size);
}
