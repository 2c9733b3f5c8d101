/* SPDX-License-Identifier: Apache-2.0 */
/* ticket_word.h: first come, first served for one to six processes, in one 64-bit word.
 *
 * Who wins the exchange that takes a ticket comes first, however long another has tried.
 *
 * A process takes a ticket (stamp), asks who came first (is_first, older, rank), and gives its ticket up
 * (clear). A ticket counter grows without end; here labels come back, and one word holds all of them.
 *
 *     static ticket_table table = TICKET_TABLE(2);
 *
 *     int enter(unsigned p) {                  // process p, 0 or 1
 *         int first = ticket_stamp(&table, p, NULL);
 *         while (first == 0) first = ticket_is_first(ticket_scan(&table), p);
 *         return first;                        // 1: p is in; below 0: a fault
 *     }
 *     void leave(unsigned p) { ticket_clear(&table, p, NULL); }
 *
 * Each call answers an int. Below 0 it is a ticket_fault: nothing was done, and an order that is put out is one of
 * no processes, of which each question tells TICKET_BAD_COUNT. So compare with 0 or 1.
 *
 * The functions ticket_word_* are proved. The loops below them are tested. A table is a plain object: start it
 * before threads share it, and touch it by these calls alone. Two threads must not be one process at the same
 * time. No call takes memory or calls the system. Only ticket_stamp may try again and again.
 *
 * C11, or C++11 and later, with gcc or clang. Link with -lticket_word.
 */
#ifndef TICKET_WORD_H
#define TICKET_WORD_H

#include <stdbool.h>
#include <stddef.h>
#include <stdint.h>

/* The number itself, where it is one to six. */
#ifdef __cplusplus
extern "C++" {
template <unsigned long long n> struct ticket_count {
    static_assert(n >= 1 && n <= 6, "a table has one to six processes");
    static const uint8_t of = static_cast<uint8_t>(n);
};
}
#define TICKET_COUNT(n) (ticket_count<(n)>::of)
extern "C" {
#else
#define TICKET_COUNT(n) \
    (uint8_t)((n) + 0 * sizeof(struct { _Static_assert((n) >= 1 && (n) <= 6, "a table has one to six processes"); int of; }))
#endif

/* ---- The proved functions: of numbers alone, any numbers. ---- */

/* The most processes of a word. */
enum { TICKET_MOST = 6 };

/* A word, or what stands against it: then the word is 0. */
typedef struct ticket_word_made {
    uint64_t word;
    uint8_t fault;
} ticket_word_made;

/* Yes or no, or what stands against it: then no. */
typedef struct ticket_word_told {
    bool answer;
    uint8_t fault;
} ticket_word_told;

/* How many tickets are smaller, or what stands against it: then 0. */
typedef struct ticket_word_counted {
    uint8_t rank;
    uint8_t fault;
} ticket_word_counted;

/* The rank of each process, and 0 past the last, or what stands against them: then 0 for each. */
typedef struct ticket_word_ranked {
    uint8_t of[TICKET_MOST];
    uint8_t fault;
} ticket_word_ranked;

/* The fault is 0 where nothing stands against a call; 1 where n is not 1 to 6; 2 where a process is not below n;
 * 3 where the word stands for no tickets. */
uint8_t ticket_word_fault(uint8_t n, uint64_t word);
/* The word at the start, where nobody holds a ticket: 0. */
ticket_word_made ticket_word_start(uint8_t n);
/* The word after process p has taken the next ticket. */
ticket_word_made ticket_word_stamped(uint8_t n, uint64_t word, uint8_t p);
/* The word after process p has given its ticket up. */
ticket_word_made ticket_word_cleared(uint8_t n, uint64_t word, uint8_t p);
/* The same word is the `&` of the word with this. */
ticket_word_made ticket_word_clear_mask(uint8_t n, uint8_t p);
/* Whether process i holds a ticket. */
ticket_word_told ticket_word_held(uint8_t n, uint64_t word, uint8_t i);
/* Whether the ticket of process i is smaller than that of j. Who holds none has 0. */
ticket_word_told ticket_word_older(uint8_t n, uint64_t word, uint8_t i, uint8_t j);
/* Whether process p holds a ticket, and nobody who holds one has a smaller one. */
ticket_word_told ticket_word_is_first(uint8_t n, uint64_t word, uint8_t p);
/* How many tickets are smaller than that of process i. */
ticket_word_counted ticket_word_rank(uint8_t n, uint64_t word, uint8_t i);
ticket_word_ranked ticket_word_ranks(uint8_t n, uint64_t word);

/* ---- The table and its calls. ---- */

/* What a call answers in place of a number. */
typedef enum ticket_fault {
    TICKET_BAD_COUNT = -1,   /* there are not one to six processes */
    TICKET_BAD_PROCESS = -2, /* a process is none of them */
    TICKET_BAD_WORD = -3     /* the word stands for no tickets: something else wrote it */
} ticket_fault;

/* The tickets of n processes. Its members are private. */
typedef struct ticket_table {
    uint64_t word __attribute__((aligned(8)));
    uint8_t n;
} ticket_table;

/* What a table was at one moment. Plain data: keep it, copy it, ask it later. */
typedef struct ticket_order {
    uint64_t word;
    uint8_t n;
} ticket_order;

/* A table of n processes at the start, as an initializer. n is a constant, and any but one to six doesn't compile. */
#define TICKET_TABLE(n) {0, TICKET_COUNT(n)}

/* A process number as the proved functions take it; what is too large for them is no process there either. */
static inline uint8_t ticket_number(unsigned p) {
    return p < 255 ? (uint8_t)p : (uint8_t)255;
}

/* Makes a table of n processes at the start, before threads share it: 0, or TICKET_BAD_COUNT. */
static inline int ticket_table_init(ticket_table *table, unsigned n) {
    ticket_word_made start = ticket_word_start(ticket_number(n));
    if (start.fault != 0) return -(int)start.fault;
    table->word = start.word;
    table->n = (uint8_t)n;
    return 0;
}

/* The order as it is: one load. */
static inline ticket_order ticket_scan(const ticket_table *table) {
    ticket_order order = {__atomic_load_n(&table->word, __ATOMIC_SEQ_CST), table->n};
    return order;
}

/* Process p takes a new ticket, above all others, if the order still is *seen: 1, and *seen is the order just
 * after. Else 0, and *seen is the order that was found. One exchange, which fails only if the word is another. */
static inline int ticket_try_stamp(ticket_table *table, unsigned p, ticket_order *seen) {
    ticket_word_made next = ticket_word_stamped(table->n, seen->word, ticket_number(p));
    if (next.fault != 0) return -(int)next.fault;
    seen->n = table->n;
    if (!__atomic_compare_exchange_n(&table->word, &seen->word, next.word, false, __ATOMIC_SEQ_CST, __ATOMIC_SEQ_CST))
        return 0;
    seen->word = next.word;
    return 1;
}

/* Puts out the order of this word, and answers 0; or beside a fault an order of no processes, and the fault. */
static inline int ticket_put(ticket_order *after, uint8_t n, uint64_t word, int fault) {
    if (after != NULL) {
        after->word = fault == 0 ? word : 0;
        after->n = fault == 0 ? n : (uint8_t)0;
    }
    return fault;
}

/* Process p takes a new ticket, above all others: 0, and *after, if there is one, is the order just after. Tries
 * until it wins. */
static inline int ticket_stamp(ticket_table *table, unsigned p, ticket_order *after) {
    ticket_order seen = ticket_scan(table);
    int won = 0;
    while (won == 0) won = ticket_try_stamp(table, p, &seen);
    return ticket_put(after, seen.n, seen.word, won < 0 ? won : 0);
}

/* Process p gives its ticket up, if it has one: 0, and *after, if there is one, is the order just after. One
 * fetch_and, which never fails. Only a word that stands for no tickets is told after it. */
static inline int ticket_clear(ticket_table *table, unsigned p, ticket_order *after) {
    ticket_word_made mask = ticket_word_clear_mask(table->n, ticket_number(p));
    if (mask.fault != 0) return ticket_put(after, 0, 0, -(int)mask.fault);
    uint64_t found = __atomic_fetch_and(&table->word, mask.word, __ATOMIC_SEQ_CST);
    ticket_word_made left = ticket_word_cleared(table->n, found, ticket_number(p));
    return ticket_put(after, table->n, left.word, -(int)left.fault);
}

/* ---- What an order answers. ---- */

/* Whether process i holds a ticket: 1 or 0. */
static inline int ticket_held(ticket_order order, unsigned i) {
    ticket_word_told told = ticket_word_held(order.n, order.word, ticket_number(i));
    return told.fault != 0 ? -(int)told.fault : (int)told.answer;
}

/* Whether the ticket of process i is smaller than that of j: 1 or 0. Who holds none is older than who does. */
static inline int ticket_older(ticket_order order, unsigned i, unsigned j) {
    ticket_word_told told = ticket_word_older(order.n, order.word, ticket_number(i), ticket_number(j));
    return told.fault != 0 ? -(int)told.fault : (int)told.answer;
}

/* Whether process p holds a ticket, and nobody who holds one has a smaller one: 1 or 0. */
static inline int ticket_is_first(ticket_order order, unsigned p) {
    ticket_word_told told = ticket_word_is_first(order.n, order.word, ticket_number(p));
    return told.fault != 0 ? -(int)told.fault : (int)told.answer;
}

/* How many tickets are smaller than that of process i: 0 to 5. */
static inline int ticket_rank(ticket_order order, unsigned i) {
    ticket_word_counted told = ticket_word_rank(order.n, order.word, ticket_number(i));
    return told.fault != 0 ? -(int)told.fault : (int)told.rank;
}

/* The rank of each process, and 0 past the last: 0. */
static inline int ticket_all_ranks(ticket_order order, uint8_t ranks[TICKET_MOST]) {
    ticket_word_ranked told = ticket_word_ranks(order.n, order.word);
    if (told.fault != 0) return -(int)told.fault;
    for (unsigned i = 0; i < TICKET_MOST; i++) ranks[i] = told.of[i];
    return 0;
}

#ifdef __cplusplus
}
#endif
#endif
