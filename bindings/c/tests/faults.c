/* A fault in each argument of each call is told, the first of several, and nothing is done. */
#include "ticket_word.h"
#include <stdio.h>

static unsigned wrong;

static void expect(const char *what, int found, int wanted) {
    if (found == wanted) return;
    printf("faults: %s answers %d, not %d\n", what, found, wanted);
    wrong++;
}

/* Each proved call with these arguments tells this fault, and its answer is 0. */
static void proved(uint8_t n, uint64_t word, uint8_t p, int fault) {
    ticket_word_made stamped = ticket_word_stamped(n, word, p), cleared = ticket_word_cleared(n, word, p);
    expect("stamped", stamped.fault, fault);
    expect("cleared", cleared.fault, fault);
    expect("held", ticket_word_held(n, word, p).fault, fault);
    expect("older, first", ticket_word_older(n, word, p, 0).fault, fault);
    expect("older, second", ticket_word_older(n, word, 0, p).fault, fault);
    expect("is_first", ticket_word_is_first(n, word, p).fault, fault);
    expect("rank", ticket_word_rank(n, word, p).fault, fault);
    expect("stamped to 0", stamped.word == 0, 1);
    expect("cleared to 0", cleared.word == 0, 1);
    expect("held no", ticket_word_held(n, word, p).answer, 0);
    expect("older no", ticket_word_older(n, word, p, 0).answer, 0);
    expect("is_first no", ticket_word_is_first(n, word, p).answer, 0);
    expect("rank 0", ticket_word_rank(n, word, p).rank, 0);
}

/* Each call of a table with these members tells this fault, and leaves the table. */
static void of_table(uint8_t n, uint64_t word, unsigned p, int fault) {
    ticket_table table = {0, 0};
    table.word = word;
    table.n = n;
    ticket_order order = ticket_scan(&table), after = {7, 7};
    expect("ticket_stamp", ticket_stamp(&table, p, &after), fault);
    expect("ticket_try_stamp", ticket_try_stamp(&table, p, &order), fault);
    expect("ticket_held", ticket_held(order, p), fault);
    expect("ticket_older", ticket_older(order, p, 0), fault);
    expect("ticket_older, second", ticket_older(order, 0, p), fault);
    expect("ticket_is_first", ticket_is_first(order, p), fault);
    expect("ticket_rank", ticket_rank(order, p), fault);
    expect("the table's word", table.word == word, 1);
    expect("ticket_clear", ticket_clear(&table, p, &after), fault);
    expect("the order after", ticket_held(after, 0), TICKET_BAD_COUNT);
}

int main(void) {
    const uint64_t words[] = {1, 256, (uint64_t)1 << 50, 3 | (uint64_t)1 << 48, (uint64_t)3 << 48, UINT64_MAX};
    const uint8_t counts[] = {0, 7, 255};
    for (unsigned k = 0; k < 3; k++) {
        ticket_table table;
        proved(counts[k], 0, 0, 1);
        proved(counts[k], UINT64_MAX, 255, 1);
        of_table(counts[k], 0, 0, TICKET_BAD_COUNT);
        of_table(counts[k], UINT64_MAX, 255, TICKET_BAD_COUNT);
        expect("start", ticket_word_start(counts[k]).fault, 1);
        expect("mask", ticket_word_clear_mask(counts[k], 0).fault, 1);
        expect("fault", ticket_word_fault(counts[k], 0), 1);
        expect("ranks", ticket_word_ranks(counts[k], 0).fault, 1);
        expect("init", ticket_table_init(&table, counts[k]), TICKET_BAD_COUNT);
    }
    for (uint8_t n = 1; n <= TICKET_MOST; n++) {
        proved(n, 0, n, 2);
        proved(n, UINT64_MAX, 255, 2);
        of_table(n, 0, n, TICKET_BAD_PROCESS);
        of_table(n, 0, 256, TICKET_BAD_PROCESS);
        of_table(n, 0, UINT32_MAX, TICKET_BAD_PROCESS);
        expect("mask", ticket_word_clear_mask(n, n).fault, 2);
    }
    for (unsigned k = 0; k < sizeof words / sizeof words[0]; k++) {
        ticket_order order = {words[k], 2};
        uint8_t ranks[TICKET_MOST];
        proved(2, words[k], 1, 3);
        of_table(2, words[k], 1, TICKET_BAD_WORD);
        expect("fault", ticket_word_fault(2, words[k]), 3);
        expect("ranks", ticket_word_ranks(2, words[k]).fault, 3);
        expect("ticket_all_ranks", ticket_all_ranks(order, ranks), TICKET_BAD_WORD);
    }
    printf("faults: %u wrong\n", wrong);
    return wrong != 0;
}
