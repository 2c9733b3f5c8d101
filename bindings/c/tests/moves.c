/* A million random stamps and clears of one to six processes: each answer is that of tickets of 128 bits. */
#include "ticket_word.h"
#include <stdio.h>

__extension__ typedef unsigned __int128 ticket;

static uint64_t drawn = 88172645463325252u;

/* A number below this one, drawn by xorshift. */
static unsigned draw(unsigned below) {
    drawn ^= drawn << 13;
    drawn ^= drawn >> 7;
    drawn ^= drawn << 17;
    return (unsigned)(drawn % below);
}

static int rank_of(unsigned n, const ticket *tickets, unsigned i) {
    int rank = 0;
    for (unsigned j = 0; j < n; j++) rank += tickets[j] < tickets[i];
    return rank;
}

static int is_first(unsigned n, const ticket *tickets, unsigned p) {
    for (unsigned i = 0; i < n; i++)
        if (tickets[i] != 0 && tickets[i] < tickets[p]) return 0;
    return tickets[p] != 0;
}

/* How many answers of an order are not those of the tickets. */
static unsigned wrong(ticket_order order, unsigned n, const ticket *tickets) {
    uint8_t ranks[TICKET_MOST];
    unsigned count = ticket_all_ranks(order, ranks) != 0;
    for (unsigned i = 0; i < n; i++) {
        count += ticket_held(order, i) != (tickets[i] != 0);
        count += ticket_rank(order, i) != rank_of(n, tickets, i);
        count += ranks[i] != rank_of(n, tickets, i);
        count += ticket_is_first(order, i) != is_first(n, tickets, i);
        for (unsigned j = 0; j < n; j++) count += ticket_older(order, i, j) != (tickets[i] < tickets[j]);
    }
    for (unsigned i = n; i < TICKET_MOST; i++) count += ranks[i] != 0;
    return count;
}

static ticket greatest(unsigned n, const ticket *tickets) {
    ticket most = 0;
    for (unsigned i = 0; i < n; i++)
        if (tickets[i] > most) most = tickets[i];
    return most;
}

static unsigned moves(unsigned n, unsigned count) {
    ticket tickets[TICKET_MOST] = {0};
    ticket_table table;
    ticket_order after;
    unsigned bad = ticket_table_init(&table, n) != 0;
    for (unsigned k = 0; k < count; k++) {
        unsigned p = draw(n);
        if (draw(3) != 0) {
            bad += ticket_stamp(&table, p, &after) != 0;
            tickets[p] = 1 + greatest(n, tickets);
        } else {
            bad += ticket_clear(&table, p, &after) != 0;
            tickets[p] = 0;
        }
        bad += wrong(after, n, tickets) + (ticket_scan(&table).word != after.word);
    }
    return bad;
}

int main(void) {
    unsigned bad = 0;
    for (unsigned n = 1; n <= TICKET_MOST; n++) bad += moves(n, 1000000 / TICKET_MOST + 1);
    printf("moves: %u wrong\n", bad);
    return bad != 0;
}
