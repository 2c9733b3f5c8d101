/* A lock, first come, first served: four threads count, and each waits until nobody older holds a ticket. */
#include <pthread.h>
#include <sched.h>
#include <stdio.h>
#include <ticket_word.h>

enum { THREADS = 4, TIMES = 10000 };

static ticket_table table = TICKET_TABLE(THREADS);
static unsigned long counter;

static int enter(unsigned p) {
    int first = ticket_stamp(&table, p, NULL);
    while (first == 0) {
        first = ticket_is_first(ticket_scan(&table), p);
        if (first == 0) sched_yield();
    }
    return first;
}

static void leave(unsigned p) { ticket_clear(&table, p, NULL); }

static void *counts(void *process) {
    for (unsigned k = 0; k < TIMES; k++) {
        if (enter(*(unsigned *)process) != 1) return process;
        counter++;
        leave(*(unsigned *)process);
    }
    return NULL;
}

int main(void) {
    pthread_t started[THREADS];
    unsigned processes[THREADS];
    for (unsigned p = 0; p < THREADS; p++) {
        processes[p] = p;
        if (pthread_create(&started[p], NULL, counts, &processes[p]) != 0) return 1;
    }
    for (unsigned p = 0; p < THREADS; p++) pthread_join(started[p], NULL);
    printf("%lu\n", counter);
    return counter != THREADS * TIMES;
}
