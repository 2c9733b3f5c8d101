/* Threads stamp and clear freely, and then lock by their tickets: usage threads THREADS MOVES.
 * After a stamp its process is last in the order, and holds its ticket until it clears. A counter that is a plain
 * number is counted up under the lock alone. */
#include "ticket_word.h"
#include <pthread.h>
#include <sched.h>
#include <stdio.h>
#include <stdlib.h>

static ticket_table table;
static unsigned threads, moves, turns;
static unsigned long counter;

static unsigned moves_freely(unsigned p) {
    unsigned wrong = 0;
    ticket_order after;
    for (unsigned k = 0; k < moves / threads / 2; k++) {
        wrong += ticket_stamp(&table, p, &after) != 0;
        wrong += ticket_rank(after, p) != (int)threads - 1;
        wrong += ticket_held(ticket_scan(&table), p) != 1;
        wrong += ticket_clear(&table, p, &after) != 0;
        wrong += ticket_held(after, p) != 0;
        wrong += ticket_held(ticket_scan(&table), p) != 0;
    }
    return wrong;
}

/* Waits its turn: 1, or what else is told; 0 where its ticket is lost. */
static int enters(unsigned p) {
    int first = ticket_stamp(&table, p, NULL);
    while (first == 0) {
        ticket_order order = ticket_scan(&table);
        first = ticket_is_first(order, p);
        if (first == 0 && ticket_held(order, p) != 1) return 0;
        if (first == 0) sched_yield();
    }
    return first;
}

static unsigned counts(unsigned p) {
    unsigned wrong = 0;
    for (unsigned k = 0; k < turns; k++) {
        wrong += enters(p) != 1;
        unsigned long found = counter;
        /* So that others come meanwhile. */
        if (k % 16 == 0) sched_yield();
        counter = found + 1;
        wrong += ticket_clear(&table, p, NULL) != 0;
    }
    return wrong;
}

static void *runs(void *number) {
    unsigned *p = (unsigned *)number;
    *p = moves_freely(*p) + counts(*p);
    return NULL;
}

int main(int count, char **words) {
    pthread_t started[TICKET_MOST];
    unsigned numbers[TICKET_MOST], wrong = 0;
    threads = count > 1 ? (unsigned)strtoul(words[1], NULL, 10) : 4;
    moves = count > 2 ? (unsigned)strtoul(words[2], NULL, 10) : 2000000;
    turns = moves / 100 / threads;
    if (ticket_table_init(&table, threads) != 0) return 2;
    for (unsigned p = 0; p < threads; p++) {
        numbers[p] = p;
        if (pthread_create(&started[p], NULL, runs, &numbers[p]) != 0) return 2;
    }
    for (unsigned p = 0; p < threads; p++) {
        pthread_join(started[p], NULL);
        wrong += numbers[p];
    }
    wrong += ticket_scan(&table).word != 0;
    wrong += counter != (unsigned long)threads * turns;
    printf("threads: %u threads, %u wrong\n", threads, wrong);
    return wrong != 0;
}
