/* Measures a lock: lockbench THREADS EVERY HOLDS makes so many holds in each of so many threads, of which each EVERYth is
   to write (0: none), and prints the nanoseconds that all took. The lock is a read-write lock of the C library; built with
   -DSTEPS it is the lock of ticketlock, step by step, in plain C: three words, and a value in one of two counted slots. */
#include <pthread.h>
#include <stdatomic.h>
#include <stdint.h>
#include <stdio.h>
#include <stdlib.h>
#include <time.h>

static volatile uint64_t tally = 1;
static uint64_t every, holds;

#ifdef STEPS

/* A slot's word: FREE without a value, TAKEN while one is taken out or put in, PRESENT with one, and ONE_READER more for
   each who reads it. */
enum { FREE, TAKEN, PRESENT, ONE_READER = 4 };
static _Atomic uint64_t draw_word, reader_word, writer_word;
static _Atomic uint64_t slots[2] = {PRESENT, FREE};

/* Comes to read the value, and answers its slot. */
static int come(void) {
    for (int at = 0;; at ^= 1) {
        uint64_t seen = atomic_load(&slots[at]);
        if (seen % ONE_READER == PRESENT && atomic_compare_exchange_strong(&slots[at], &seen, seen + ONE_READER)) return at;
    }
}

/* Takes the value out, and answers the slot into which it will be put back. */
static int take(void) {
    for (int full = 0;; full ^= 1) {
        uint64_t seen = atomic_load(&slots[full]), empty = FREE;
        if (seen != PRESENT || !atomic_compare_exchange_strong(&slots[full ^ 1], &empty, TAKEN)) continue;
        if (atomic_compare_exchange_strong(&slots[full], &seen, TAKEN)) {
            atomic_store(&slots[full], FREE);
            return full ^ 1;
        }
        atomic_store(&slots[full ^ 1], FREE);
    }
}

static uint64_t hold_to_read(void) {
    uint64_t ticket = atomic_fetch_add(&draw_word, 1), seen;
    while (atomic_load(&reader_word) != ticket) {}
    atomic_fetch_add(&reader_word, 1);
    int at = come();
    seen = tally;
    atomic_fetch_sub(&slots[at], ONE_READER);
    atomic_fetch_add(&writer_word, 1);
    return seen;
}

static void hold_to_write(void) {
    uint64_t ticket = atomic_fetch_add(&draw_word, 1);
    while (atomic_load(&writer_word) != ticket) {}
    int home = take();
    tally = tally + 1;
    atomic_store(&slots[home], PRESENT);
    atomic_fetch_add(&reader_word, 1);
    atomic_fetch_add(&writer_word, 1);
}

#else

static pthread_rwlock_t lock = PTHREAD_RWLOCK_INITIALIZER;

static uint64_t hold_to_read(void) {
    pthread_rwlock_rdlock(&lock);
    uint64_t seen = tally;
    pthread_rwlock_unlock(&lock);
    return seen;
}

static void hold_to_write(void) {
    pthread_rwlock_wrlock(&lock);
    tally = tally + 1;
    pthread_rwlock_unlock(&lock);
}

#endif

static void *work(void *unused) {
    uint64_t seen = 0;
    (void)unused;
    for (uint64_t i = 0; i < holds; i++) {
        if (every > 0 && i % every == 0)
            hold_to_write();
        else
            seen += hold_to_read();
    }
    return (void *)(uintptr_t)seen;
}

int main(int argc, char **argv) {
    pthread_t threads[64];
    struct timespec start, end;
    if (argc != 4) return 1;
    int count = atoi(argv[1]);
    every = strtoull(argv[2], NULL, 10);
    holds = strtoull(argv[3], NULL, 10);
    if (count < 1 || count > 64) return 1;
    clock_gettime(CLOCK_MONOTONIC, &start);
    for (int i = 1; i < count; i++)
        if (pthread_create(&threads[i], NULL, work, NULL)) return 1;
    work(NULL);
    for (int i = 1; i < count; i++) pthread_join(threads[i], NULL);
    clock_gettime(CLOCK_MONOTONIC, &end);
    printf("%lld\n", (end.tv_sec - start.tv_sec) * 1000000000LL + (end.tv_nsec - start.tv_nsec));
    return 0;
}
