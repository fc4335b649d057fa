/* Counts the threads that a program makes: a library that stands before the C library's pthread_create. The count is kept in the first eight
   bytes of the file that THREADS_COUNTED names, so it is there however the program ends. It changes nothing else. */
#define _GNU_SOURCE
#include <dlfcn.h>
#include <fcntl.h>
#include <pthread.h>
#include <stdatomic.h>
#include <stdint.h>
#include <stdlib.h>
#include <sys/mman.h>
#include <unistd.h>

typedef int Create(pthread_t *, const pthread_attr_t *, void *(*)(void *), void *);

static Create *create;
static _Atomic uint64_t *made;

__attribute__((constructor)) static void begin(void) {
    const char *name = getenv("THREADS_COUNTED");
    create = (Create *)dlsym(RTLD_NEXT, "pthread_create");
    if (!name) return;
    int file = open(name, O_RDWR | O_CREAT, 0644);
    if (file < 0 || ftruncate(file, 8) != 0) abort();
    made = mmap(NULL, 8, PROT_READ | PROT_WRITE, MAP_SHARED, file, 0);
    if (made == MAP_FAILED) abort();
    close(file);
}

int pthread_create(pthread_t *thread, const pthread_attr_t *with, void *(*body)(void *), void *given) {
    int told = create(thread, with, body, given);
    if (told == 0 && made) atomic_fetch_add(made, 1);
    return told;
}
