/* Refuses one request for memory of a program that it is loaded into (LD_PRELOAD): the one whose number $REFUSE_AT
 * gives; and to start the thread whose number $REFUSE_THREAD gives. When the program ends it writes how many requests
 * there were into the file $REFUSE_COUNT. */
#define _GNU_SOURCE
#include <dlfcn.h>
#include <errno.h>
#include <pthread.h>
#include <stddef.h>
#include <stdio.h>
#include <stdlib.h>
#include <unistd.h>

static long asked, refused = -1;
static long started, unstarted = -1;

static void *(*real_malloc)(size_t);
static void *(*real_realloc)(void *, size_t);
static void *(*real_aligned_alloc)(size_t, size_t);
static int (*real_posix_memalign)(void **, size_t, size_t);

__attribute__((constructor)) static void begin(void)
{
    const char *number = getenv("REFUSE_AT");
    real_malloc = dlsym(RTLD_NEXT, "malloc");
    real_realloc = dlsym(RTLD_NEXT, "realloc");
    real_aligned_alloc = dlsym(RTLD_NEXT, "aligned_alloc");
    real_posix_memalign = dlsym(RTLD_NEXT, "posix_memalign");
    asked = 0;
    refused = number ? atol(number) : -1;
    number = getenv("REFUSE_THREAD");
    unstarted = number ? atol(number) : -1;
}

static void end(void)
{
    const char *name = getenv("REFUSE_COUNT");
    long count = asked;
    FILE *file = name ? fopen(name, "w") : NULL;
    refused = -1;
    if (file) {
        fprintf(file, "%ld\n", count);
        fclose(file);
    }
}

static int is_refused(void)
{
    return __atomic_add_fetch(&asked, 1, __ATOMIC_RELAXED) == refused;
}

void *malloc(size_t size)
{
    if (!real_malloc)
        real_malloc = dlsym(RTLD_NEXT, "malloc");
    return is_refused() ? NULL : real_malloc(size);
}

void *realloc(void *old, size_t size)
{
    if (!real_realloc)
        real_realloc = dlsym(RTLD_NEXT, "realloc");
    return is_refused() ? NULL : real_realloc(old, size);
}

void *aligned_alloc(size_t alignment, size_t size)
{
    return is_refused() ? NULL : real_aligned_alloc(alignment, size);
}

int posix_memalign(void **to, size_t alignment, size_t size)
{
    return is_refused() ? ENOMEM : real_posix_memalign(to, alignment, size);
}

int pthread_create(pthread_t *thread, const pthread_attr_t *how, void *(*start)(void *), void *with)
{
    int (*real)(pthread_t *, const pthread_attr_t *, void *(*)(void *), void *) = dlsym(RTLD_NEXT, "pthread_create");
    return ++started == unstarted ? EAGAIN : real(thread, how, start, with);
}

void _exit(int status)
{
    void (*real)(int) = dlsym(RTLD_NEXT, "_exit");
    end();
    real(status);
    __builtin_unreachable();
}
