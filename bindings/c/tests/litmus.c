/* Litmus tests of two tables of two processes: usage litmus ROUNDS.
 * In each round all threads begin at once, and do their few calls; then it is looked whether the outcome is one that no
 * order of the calls has. A round has tables of its own. Threads that never overlap show nothing, so each form tells how
 * many different outcomes came. */
#include "ticket_word.h"
#include <pthread.h>
#include <sched.h>
#include <stdio.h>
#include <stdlib.h>

enum { MOST_ROUNDS = 200000, THREADS = 4 };

typedef struct place {
    ticket_table table;
    char apart[112];
} place;

typedef struct row {
    place one, other;
    unsigned data;
    unsigned seen[THREADS];
} row;

typedef struct form {
    const char *name;
    unsigned threads;
    /* What thread p does, and puts into `seen`. */
    unsigned (*does)(row *at, unsigned p);
    bool (*is_forbidden)(const unsigned *seen);
    bool held_at_first;
} form;

static row *rows;
static const form *running;
static unsigned rounds, arrived;

static unsigned sees(place *at, unsigned p) { return ticket_held(ticket_scan(&at->table), p) == 1; }

/* Store buffering: each takes a ticket of its own table, and then looks at the other's. One of them sees the other. */
static unsigned buffers(row *at, unsigned p) {
    ticket_stamp(p == 0 ? &at->one.table : &at->other.table, p, NULL);
    return sees(p == 0 ? &at->other : &at->one, 1 - p);
}
static bool neither(const unsigned *seen) { return seen[0] == 0 && seen[1] == 0; }

/* The same with tickets that are given up. */
static unsigned buffers_clears(row *at, unsigned p) {
    ticket_clear(p == 0 ? &at->one.table : &at->other.table, p, NULL);
    return sees(p == 0 ? &at->other : &at->one, 1 - p);
}
static bool both(const unsigned *seen) { return seen[0] == 1 && seen[1] == 1; }

/* Message passing: who sees the second ticket sees the first. */
static unsigned passes(row *at, unsigned p) {
    if (p == 0) {
        ticket_stamp(&at->one.table, 0, NULL);
        ticket_stamp(&at->other.table, 0, NULL);
        return 0;
    }
    unsigned second = sees(&at->other, 0);
    return second * 2 + sees(&at->one, 0);
}
static bool second_alone(const unsigned *seen) { return seen[1] == 2; }

/* Under a lock: process 0 holds it, writes a number without any order, and leaves. Who finds itself first by the order
 * that its own stamp puts out reads it. */
static unsigned enters(row *at, unsigned p) {
    ticket_order after;
    if (p == 0) {
        __atomic_store_n(&at->data, 1, __ATOMIC_RELAXED);
        ticket_clear(&at->one.table, 0, NULL);
        return 0;
    }
    ticket_stamp(&at->one.table, 1, &after);
    return (unsigned)(ticket_is_first(after, 1) == 1) * 2 + __atomic_load_n(&at->data, __ATOMIC_RELAXED);
}

/* Independent reads of independent writes: two who look at both in turn see them in one order. */
static unsigned reads(row *at, unsigned p) {
    if (p < 2) {
        ticket_stamp(p == 0 ? &at->one.table : &at->other.table, p, NULL);
        return 0;
    }
    unsigned first = sees(p == 2 ? &at->one : &at->other, p - 2);
    return first * 2 + sees(p == 2 ? &at->other : &at->one, 3 - p);
}
static bool two_orders(const unsigned *seen) { return seen[2] == 2 && seen[3] == 2; }

static const form FORMS[] = {
    {"store buffering", 2, buffers, neither, false},
    {"store buffering of clears", 2, buffers_clears, both, true},
    {"message passing", 2, passes, second_alone, false},
    {"entering by one's own stamp", 2, enters, second_alone, true},
    {"independent reads", 4, reads, two_orders, false},
};

/* All threads come, so many for each round before it; a thread that waits long lets others run. */
static void meet(unsigned round) {
    unsigned wanted = (round + 1) * running->threads;
    __atomic_fetch_add(&arrived, 1, __ATOMIC_SEQ_CST);
    for (unsigned looks = 1; __atomic_load_n(&arrived, __ATOMIC_SEQ_CST) < wanted; looks++)
        if (looks % 1000 == 0) sched_yield();
}

static void *goes(void *number) {
    unsigned p = *(unsigned *)number;
    for (unsigned k = 0; k < rounds; k++) {
        meet(k);
        /* So that none is always first. */
        for (volatile unsigned wait = 0; wait < (k * (p + 3)) % 17; wait++) {}
        rows[k].seen[p] = running->does(&rows[k], p);
    }
    return NULL;
}

static int start(row *at) {
    at->data = 0;
    int told = ticket_table_init(&at->one.table, 2) + ticket_table_init(&at->other.table, 2);
    if (running->held_at_first) told += ticket_stamp(&at->one.table, 0, NULL) + ticket_stamp(&at->other.table, 1, NULL);
    return told;
}

/* How many rounds had a forbidden outcome; all are one where a thread can't be started. */
static unsigned forbidden(unsigned *kinds) {
    pthread_t started[THREADS];
    unsigned numbers[THREADS], wrong = 0, known[THREADS * 16] = {0};
    arrived = 0;
    for (unsigned k = 0; k < rounds; k++)
        if (start(&rows[k]) != 0) return rounds;
    for (unsigned p = 0; p < running->threads; p++) {
        numbers[p] = p;
        if (pthread_create(&started[p], NULL, goes, &numbers[p]) != 0) return rounds;
    }
    for (unsigned p = 0; p < running->threads; p++) pthread_join(started[p], NULL);
    for (unsigned k = 0; k < rounds; k++) {
        const unsigned *seen = rows[k].seen;
        wrong += running->is_forbidden(seen);
        known[running->threads == 2 ? seen[0] * 4 + seen[1] : seen[2] * 4 + seen[3]] = 1;
    }
    *kinds = 0;
    for (unsigned k = 0; k < THREADS * 16; k++) *kinds += known[k];
    return wrong;
}

int main(int count, char **words) {
    unsigned wrong = 0, kinds;
    rounds = count > 1 ? (unsigned)strtoul(words[1], NULL, 10) : 20000;
    if (rounds == 0 || rounds > MOST_ROUNDS) return 2;
    rows = (row *)calloc(rounds, sizeof(row));
    if (rows == NULL) return 2;
    for (unsigned k = 0; k < sizeof FORMS / sizeof FORMS[0]; k++) {
        running = &FORMS[k];
        unsigned found = forbidden(&kinds);
        printf("litmus: %s: %u rounds, %u outcomes, %u forbidden\n", running->name, rounds, kinds, found);
        wrong += found;
    }
    free(rows);
    return wrong != 0;
}
