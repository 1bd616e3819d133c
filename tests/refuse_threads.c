/* Refuses the first threads of a program, so many as REFUSE_THREADS says, but for the one whose number SPARE_THREAD is:
   REFUSE_THREADS=n LD_PRELOAD=refuse_threads.so PROGRAM .. For each that is made or refused, the file that THREADS names
   gets a letter, m or r. */
#define _GNU_SOURCE
#include <dlfcn.h>
#include <errno.h>
#include <fcntl.h>
#include <pthread.h>
#include <stdlib.h>
#include <unistd.h>

static long asked = 0;

int pthread_create(pthread_t *made, const pthread_attr_t *how, void *(*work)(void *), void *with) {
    int (*create)(pthread_t *, const pthread_attr_t *, void *(*)(void *), void *) = dlsym(RTLD_NEXT, "pthread_create");
    const char *number = getenv("REFUSE_THREADS"), *spared = getenv("SPARE_THREAD"), *path = getenv("THREADS");
    long own = __sync_add_and_fetch(&asked, 1);
    int is_refused = own <= (number ? atol(number) : 0) && own != (spared ? atol(spared) : 0);
    int mark = path ? open(path, O_CREAT | O_APPEND | O_WRONLY, 0600) : -1;
    if (mark >= 0 && write(mark, is_refused ? "r" : "m", 1) == 1)
        close(mark);
    return is_refused ? EAGAIN : create(made, how, work, with);
}
