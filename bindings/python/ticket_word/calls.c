/* The calls of the header under names that a library has. */
#include "ticket_word.h"

int table_init(ticket_table *table, unsigned n) { return ticket_table_init(table, n); }
void table_scan(const ticket_table *table, ticket_order *order) { *order = ticket_scan(table); }
int table_stamp(ticket_table *table, unsigned p, ticket_order *after) { return ticket_stamp(table, p, after); }
int table_try_stamp(ticket_table *table, unsigned p, ticket_order *seen) { return ticket_try_stamp(table, p, seen); }
int table_clear(ticket_table *table, unsigned p, ticket_order *after) { return ticket_clear(table, p, after); }
int order_held(const ticket_order *order, unsigned i) { return ticket_held(*order, i); }
int order_older(const ticket_order *order, unsigned i, unsigned j) { return ticket_older(*order, i, j); }
int order_is_first(const ticket_order *order, unsigned p) { return ticket_is_first(*order, p); }
int order_rank(const ticket_order *order, unsigned i) { return ticket_rank(*order, i); }
