/* The half in C of bindings/rust/mixed.rs. */
#include "ticket_word.h"
#include <sched.h>

uint32_t counts_in_c(void *shared, uint32_t p, uint32_t times, uint64_t *counter);

uint32_t counts_in_c(void *shared, uint32_t p, uint32_t times, uint64_t *counter) {
    ticket_table *table = (ticket_table *)shared;
    uint32_t faults = 0;
    for (uint32_t k = 0; k < times; k++) {
        int first = ticket_stamp(table, p, NULL);
        while (first == 0) {
            first = ticket_is_first(ticket_scan(table), p);
            if (first == 0) sched_yield();
        }
        ++*counter;
        faults += (first != 1) + (ticket_clear(table, p, NULL) != 0);
    }
    return faults;
}
