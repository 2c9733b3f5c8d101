/* What a call costs beside the same written by hand (by_hand.c), and what a turn of a lock costs beside other locks:
 * nanoseconds. Of one thread the least of forty short rounds, which others disturb least; of two the median of nine.
 * With an argument it measures the calls alone. */
#define _POSIX_C_SOURCE 200809L
#include "by_hand.h"
#include "ticket_word.h"
#include <pthread.h>
#include <sched.h>
#include <stdio.h>
#include <stdlib.h>
#include <time.h>

enum { ROUNDS = 40, CALLS = 5000, TURNS = 5000, ROUNDS_OF_TWO = 9, TURNS_OF_TWO = 20000, MOST_THREADS = 2 };

static double now(void) {
    struct timespec time;
    clock_gettime(CLOCK_MONOTONIC, &time);
    return (double)time.tv_sec * 1e9 + (double)time.tv_nsec;
}

static volatile uint64_t sink;

/* ---- Calls, over words that moves of all processes lead to, each beside the same by hand. ---- */

enum { WORDS = 64, COMPARED = 10000 };

static uint64_t words[WORDS];

static unsigned drawn = 1;

static unsigned draw(void) {
    drawn = drawn * 1103515245 + 12345;
    return drawn >> 16 & 0x7fff;
}

static void make_words(uint8_t n) {
    uint64_t word = 0;
    drawn = 1;
    for (unsigned k = 0; k < 100 + WORDS; k++) {
        word = ticket_word_stamped(n, word, (uint8_t)(draw() % n)).word;
        if (k >= 100) words[k - 100] = word;
    }
}

#define CALL(name, arguments, part) \
    static uint64_t name(uint8_t n, uint64_t word) { return ticket_word_##name arguments part; } \
    static uint64_t name##_by_hand(uint8_t n, uint64_t word) { return by_hand_##name arguments part; }

CALL(fault, (n, word), )
CALL(stamped, (n, word, 0), .word)
CALL(cleared, (n, word, 0), .word)
CALL(held, (n, word, 0), .answer)
CALL(older, (n, word, 0, n - 1), .answer)
CALL(is_first, (n, word, 0), .answer)
CALL(rank, (n, word, 0), .rank)
CALL(ranks, (n, word), .of[0])

static double a_round_of(uint64_t (*call)(uint8_t, uint64_t), uint8_t n) {
    double start = now();
    for (unsigned k = 0; k < CALLS; k++) sink = call(n, words[k % WORDS]);
    return (now() - start) / CALLS;
}

/* The least that each of the two takes, in rounds by turns. */
static void both(uint64_t (*const call[2])(uint8_t, uint64_t), uint8_t n, double least[2]) {
    least[0] = least[1] = 1e18;
    for (unsigned round = 0; round < 2 * ROUNDS; round++) {
        double took = a_round_of(call[round % 2], n);
        if (took < least[round % 2]) least[round % 2] = took;
    }
}

static void calls(void) {
    static const struct {
        const char *name;
        uint64_t (*call[2])(uint8_t, uint64_t);
    } all[] = {
        {"fault", {fault, fault_by_hand}}, {"stamped", {stamped, stamped_by_hand}}, {"cleared", {cleared, cleared_by_hand}},
        {"held", {held, held_by_hand}}, {"older", {older, older_by_hand}}, {"is_first", {is_first, is_first_by_hand}},
        {"rank", {rank, rank_by_hand}}, {"ranks", {ranks, ranks_by_hand}},
    };
    printf("%-22s", "a call");
    for (unsigned n = 2; n <= 6; n += 2) printf("      n = %u  by hand  ratio", n);
    printf("\n");
    for (unsigned k = 0; k < sizeof all / sizeof all[0]; k++) {
        printf("%-22s", all[k].name);
        for (uint8_t n = 2; n <= 6; n = (uint8_t)(n + 2)) {
            double least[2];
            make_words(n);
            both(all[k].call, n, least);
            printf(" %10.1f %8.1f %6.2f", least[0], least[1], least[0] / least[1]);
        }
        printf("\n");
    }
}

/* Stops where a call answers another thing than the same by hand. */
static void compare_answers(uint8_t n, uint64_t word, uint8_t i, uint8_t j) {
    ticket_word_made made[2][2] = {
        {ticket_word_stamped(n, word, i), by_hand_stamped(n, word, i)},
        {ticket_word_cleared(n, word, i), by_hand_cleared(n, word, i)},
    };
    ticket_word_told told[3][2] = {
        {ticket_word_held(n, word, i), by_hand_held(n, word, i)},
        {ticket_word_older(n, word, i, j), by_hand_older(n, word, i, j)},
        {ticket_word_is_first(n, word, i), by_hand_is_first(n, word, i)},
    };
    ticket_word_counted counted[2] = {ticket_word_rank(n, word, i), by_hand_rank(n, word, i)};
    ticket_word_ranked ranked[2] = {ticket_word_ranks(n, word), by_hand_ranks(n, word)};
    bool same = ticket_word_fault(n, word) == by_hand_fault(n, word);
    for (unsigned k = 0; k < 2; k++) same = same && made[k][0].word == made[k][1].word && made[k][0].fault == made[k][1].fault;
    for (unsigned k = 0; k < 3; k++) same = same && told[k][0].answer == told[k][1].answer && told[k][0].fault == told[k][1].fault;
    same = same && counted[0].rank == counted[1].rank && counted[0].fault == counted[1].fault;
    for (unsigned k = 0; k < TICKET_MOST; k++) same = same && ranked[0].of[k] == ranked[1].of[k];
    if (same && ranked[0].fault == ranked[1].fault) return;
    printf("n = %u, word %llx, processes %u and %u: not the answers of the same by hand\n", n, (unsigned long long)word, i, j);
    exit(1);
}

/* Words that moves lead to, the same with a bit turned, and labels drawn for all, of any numbers of processes. */
static void compare_all(void) {
    drawn = 1;
    for (uint8_t n = 0; n <= 8; n++) {
        uint64_t word = 0;
        for (unsigned k = 0; k < COMPARED; k++) {
            uint8_t i = (uint8_t)(draw() % 8), j = (uint8_t)(draw() % 8);
            ticket_word_made next = draw() % 8 < 5 ? ticket_word_stamped(n, word, i) : ticket_word_cleared(n, word, i);
            if (next.fault == 0) word = next.word;
            compare_answers(n, word, i, j);
            compare_answers(n, word ^ UINT64_C(1) << draw() % 64, i, j);
            uint64_t any = 0;
            for (unsigned p = 0; p < n && p < TICKET_MOST; p++) {
                if (draw() % 4 > 0) any |= (uint64_t)(draw() % (k % 2 ? 9 : 256)) << 8 * p | UINT64_C(1) << (48 + p);
            }
            compare_answers(n, any, i, j);
        }
    }
}

/* ---- Locks. ---- */

static ticket_table table = TICKET_TABLE(6);

static void word_in(unsigned p) {
    int first = ticket_stamp(&table, p, NULL);
    while (first == 0) first = ticket_is_first(ticket_scan(&table), p);
}
static void word_out(unsigned p) { ticket_clear(&table, p, NULL); }

static unsigned long next_ticket, serving;

static void counter_in(unsigned p) {
    (void)p;
    unsigned long mine = __atomic_fetch_add(&next_ticket, 1, __ATOMIC_SEQ_CST);
    while (__atomic_load_n(&serving, __ATOMIC_SEQ_CST) != mine) {
    }
}
static void counter_out(unsigned p) {
    (void)p;
    __atomic_fetch_add(&serving, 1, __ATOMIC_SEQ_CST);
}

static pthread_mutex_t mutex = PTHREAD_MUTEX_INITIALIZER;

static void mutex_in(unsigned p) {
    (void)p;
    pthread_mutex_lock(&mutex);
}
static void mutex_out(unsigned p) {
    (void)p;
    pthread_mutex_unlock(&mutex);
}

typedef struct node {
    struct node *next;
    int waits;
} node;

static node nodes[6], *tail;

static void mcs_in(unsigned p) {
    node *mine = &nodes[p];
    __atomic_store_n(&mine->next, NULL, __ATOMIC_SEQ_CST);
    __atomic_store_n(&mine->waits, 1, __ATOMIC_SEQ_CST);
    node *before = __atomic_exchange_n(&tail, mine, __ATOMIC_SEQ_CST);
    if (before == NULL) return;
    __atomic_store_n(&before->next, mine, __ATOMIC_SEQ_CST);
    while (__atomic_load_n(&mine->waits, __ATOMIC_SEQ_CST)) {
    }
}
static void mcs_out(unsigned p) {
    node *mine = &nodes[p], *last = mine;
    if (__atomic_compare_exchange_n(&tail, &last, NULL, false, __ATOMIC_SEQ_CST, __ATOMIC_SEQ_CST)) return;
    node *next;
    while ((next = __atomic_load_n(&mine->next, __ATOMIC_SEQ_CST)) == NULL) {
    }
    __atomic_store_n(&next->waits, 0, __ATOMIC_SEQ_CST);
}

static int choosing[6];
static unsigned long chosen[6];

static void bakery_in(unsigned p) {
    unsigned long most = 0;
    __atomic_store_n(&choosing[p], 1, __ATOMIC_SEQ_CST);
    for (unsigned i = 0; i < 6; i++) {
        unsigned long other = __atomic_load_n(&chosen[i], __ATOMIC_SEQ_CST);
        if (other > most) most = other;
    }
    __atomic_store_n(&chosen[p], most + 1, __ATOMIC_SEQ_CST);
    __atomic_store_n(&choosing[p], 0, __ATOMIC_SEQ_CST);
    for (unsigned i = 0; i < 6; i++) {
        while (__atomic_load_n(&choosing[i], __ATOMIC_SEQ_CST)) {
        }
        for (;;) {
            unsigned long other = __atomic_load_n(&chosen[i], __ATOMIC_SEQ_CST);
            if (other == 0 || other > most + 1 || (other == most + 1 && i >= p)) break;
        }
    }
}
static void bakery_out(unsigned p) { __atomic_store_n(&chosen[p], 0, __ATOMIC_SEQ_CST); }

typedef struct lock {
    const char *name;
    void (*in)(unsigned);
    void (*out)(unsigned);
} lock;

static const lock *tried;
static unsigned turns_each;
static volatile unsigned long counter;
static pthread_barrier_t gate;
static double begun[MOST_THREADS], ended[MOST_THREADS];

static void *turns(void *process) {
    unsigned p = *(unsigned *)process;
    pthread_barrier_wait(&gate);
    begun[p] = now();
    for (unsigned k = 0; k < turns_each; k++) {
        tried->in(p);
        counter = counter + 1;
        tried->out(p);
    }
    ended[p] = now();
    return NULL;
}

static int compare(const void *one, const void *other) {
    double a = *(const double *)one, b = *(const double *)other;
    return (a > b) - (a < b);
}

/* What a turn takes in one round, on so many threads; -1 where the lock lost a count. */
static double a_round(unsigned threads) {
    pthread_t started[MOST_THREADS];
    unsigned processes[MOST_THREADS] = {0, 1};
    counter = 0;
    pthread_barrier_init(&gate, NULL, threads);
    for (unsigned p = 0; p < threads; p++) pthread_create(&started[p], NULL, turns, &processes[p]);
    for (unsigned p = 0; p < threads; p++) pthread_join(started[p], NULL);
    pthread_barrier_destroy(&gate);
    double first = begun[0], last = ended[0];
    for (unsigned p = 1; p < threads; p++) {
        if (begun[p] < first) first = begun[p];
        if (ended[p] > last) last = ended[p];
    }
    if (counter != (unsigned long)threads * turns_each) return -1;
    return (last - first) / ((double)threads * turns_each);
}

static double a_turn(unsigned threads) {
    double took[ROUNDS];
    unsigned rounds = threads == 1 ? ROUNDS : ROUNDS_OF_TWO;
    turns_each = threads == 1 ? TURNS : TURNS_OF_TWO;
    for (unsigned round = 0; round < rounds; round++) took[round] = a_round(threads);
    qsort(took, rounds, sizeof took[0], compare);
    return took[0] < 0 ? -1 : took[threads == 1 ? 0 : rounds / 2];
}

int main(int arguments, char **given) {
    (void)given;
    static const lock locks[] = {
        {"this, n = 6", word_in, word_out},
        {"fetch_add ticket lock", counter_in, counter_out},
        {"pthread_mutex_t", mutex_in, mutex_out},
        {"MCS", mcs_in, mcs_out},
        {"bakery, n = 6", bakery_in, bakery_out},
    };
    setvbuf(stdout, NULL, _IOLBF, 0);
    by_hand_start();
    compare_all();
    calls();
    if (arguments > 1) return 0;
    printf("\n%-22s %8s %8s\n", "a turn of a lock", "1 thread", "2");
    for (unsigned k = 0; k < sizeof locks / sizeof locks[0]; k++) {
        tried = &locks[k];
        double one = a_turn(1);
        printf("%-22s %8.0f %8.0f\n", tried->name, one, a_turn(2));
    }
    return 0;
}
