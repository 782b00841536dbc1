/* Refuses one call for memory, or one thread, of the program that it is loaded into (LD_PRELOAD), for refused_memory.py.

   REFUSE_ALLOCATION=N refuses the Nth call of malloc and realloc, from 1, and REFUSE_ALLOCATIONS_FROM=N this and all behind it;
   REFUSE_THREAD=N and REFUSE_THREADS_FROM=N do so with pthread_create. Where a call was refused the file REFUSED_MARK is made. */
#define _GNU_SOURCE
#include <dlfcn.h>
#include <errno.h>
#include <fcntl.h>
#include <pthread.h>
#include <stdatomic.h>
#include <stdlib.h>
#include <unistd.h>

extern void *__libc_malloc(size_t size);
extern void *__libc_realloc(void *block, size_t size);

static atomic_ulong allocations, threads;

static unsigned long number_of(const char *name) {
    const char *text = getenv(name);
    return text ? strtoul(text, NULL, 10) : 0;
}

static void mark(void) {
    const char *name = getenv("REFUSED_MARK");
    int file = name ? open(name, O_WRONLY | O_CREAT, 0600) : -1;
    if (file >= 0)
        close(file);
}

/* Whether this call, by its number, is to be refused. */
static int is_refused(atomic_ulong *calls, const char *one, const char *from) {
    unsigned long call = atomic_fetch_add(calls, 1) + 1, least = number_of(from);
    if (call != number_of(one) && (least == 0 || call < least))
        return 0;
    mark();
    return 1;
}

static int is_allocation_refused(void) {
    if (!is_refused(&allocations, "REFUSE_ALLOCATION", "REFUSE_ALLOCATIONS_FROM"))
        return 0;
    errno = ENOMEM;
    return 1;
}

void *malloc(size_t size) { return is_allocation_refused() ? NULL : __libc_malloc(size); }

void *realloc(void *block, size_t size) { return is_allocation_refused() ? NULL : __libc_realloc(block, size); }

typedef int create(pthread_t *, const pthread_attr_t *, void *(*)(void *), void *);

int pthread_create(pthread_t *thread, const pthread_attr_t *attributes, void *(*body)(void *), void *argument) {
    create *next = (create *)dlsym(RTLD_NEXT, "pthread_create");
    if (is_refused(&threads, "REFUSE_THREAD", "REFUSE_THREADS_FROM"))
        return EAGAIN;
    return next(thread, attributes, body, argument);
}
