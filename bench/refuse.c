/* Refuses what a program that it is loaded before asks of the system: memory, threads, reads or writes.

   REFUSE names what is refused: memory, thread, read or write. REFUSED lists the numbers of the requests that are refused, counted
   from 1 and parted by commas; behind the last one a + refuses all from it on. Where it is the word reads, all memory is refused
   behind each read of an odd number, until the next read. REFUSE_COUNT is a file of four numbers of 64 bits,
   in which the requests of memory, threads, reads and writes are counted. */
#define _GNU_SOURCE
#include <dlfcn.h>
#include <errno.h>
#include <fcntl.h>
#include <pthread.h>
#include <stdatomic.h>
#include <stdbool.h>
#include <stdlib.h>
#include <string.h>
#include <sys/mman.h>
#include <sys/types.h>
#include <unistd.h>

enum { MEMORY, THREAD, READ, WRITE, KINDS };
enum { MOST = 8 };

extern void *__libc_malloc(size_t);
extern void *__libc_realloc(void *, size_t);

static const char *const names[KINDS] = {"memory", "thread", "read", "write"};
static atomic_long mine[KINDS];
static atomic_long *asked = mine;
static int what = KINDS;
static long refused[MOST];
static int refusals;
static bool all_from_last;
static bool between_reads;
static int (*create)(pthread_t *, const pthread_attr_t *, void *(*)(void *), void *);
static ssize_t (*take)(int, void *, size_t);
static ssize_t (*give)(int, const void *, size_t);

__attribute__((constructor)) static void begin(void)
{
    create = dlsym(RTLD_NEXT, "pthread_create");
    take = dlsym(RTLD_NEXT, "read");
    give = dlsym(RTLD_NEXT, "write");
    const char *count = getenv("REFUSE_COUNT");
    int file = count == NULL ? -1 : open(count, O_RDWR);
    if (file >= 0) {
        void *shared = mmap(NULL, sizeof mine, PROT_READ | PROT_WRITE, MAP_SHARED, file, 0);
        if (shared != MAP_FAILED) {
            asked = shared;
            memset(shared, 0, sizeof mine);
        }
        close(file);
    }
    const char *numbers = getenv("REFUSED"), *name = getenv("REFUSE");
    between_reads = numbers != NULL && strcmp(numbers, "reads") == 0;
    while (numbers != NULL && !between_reads && *numbers != '\0' && refusals < MOST) {
        char *end;
        refused[refusals++] = strtol(numbers, &end, 10);
        all_from_last = *end == '+';
        numbers = *end == '\0' ? end : end + 1;
    }
    for (int k = 0; name != NULL && k < KINDS; k++)
        if (strcmp(name, names[k]) == 0)
            what = k;
}

/* Whether this request is refused. */
static bool is_refused(int kind)
{
    long number = atomic_fetch_add(&asked[kind], 1) + 1;
    if (kind != what)
        return false;
    if (between_reads)
        return atomic_load(&asked[READ]) % 2 == 1;
    for (int k = 0; k < refusals; k++)
        if (number == refused[k])
            return true;
    return all_from_last && refusals > 0 && number > refused[refusals - 1];
}

void *malloc(size_t size)
{
    if (is_refused(MEMORY)) {
        errno = ENOMEM;
        return NULL;
    }
    return __libc_malloc(size);
}

void *realloc(void *block, size_t size)
{
    if (is_refused(MEMORY)) {
        errno = ENOMEM;
        return NULL;
    }
    return __libc_realloc(block, size);
}

int pthread_create(pthread_t *thread, const pthread_attr_t *attributes, void *(*start)(void *), void *argument)
{
    return create == NULL || is_refused(THREAD) ? EAGAIN : create(thread, attributes, start, argument);
}

ssize_t read(int file, void *bytes, size_t size)
{
    if (take == NULL || is_refused(READ)) {
        errno = EIO;
        return -1;
    }
    return take(file, bytes, size);
}

ssize_t write(int file, const void *bytes, size_t size)
{
    if (give == NULL || is_refused(WRITE)) {
        errno = EIO;
        return -1;
    }
    return give(file, bytes, size);
}

ssize_t __write(int file, const void *bytes, size_t size)
{
    return write(file, bytes, size);
}
