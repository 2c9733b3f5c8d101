/* The same calls written by hand, with tables: what the proved ones are measured beside. */
#ifndef BY_HAND_H
#define BY_HAND_H

#include "ticket_word.h"

/* Fills the tables. Call it first, once. */
void by_hand_start(void);

uint8_t by_hand_fault(uint8_t n, uint64_t word);
ticket_word_made by_hand_stamped(uint8_t n, uint64_t word, uint8_t p);
ticket_word_made by_hand_cleared(uint8_t n, uint64_t word, uint8_t p);
ticket_word_told by_hand_held(uint8_t n, uint64_t word, uint8_t i);
ticket_word_told by_hand_older(uint8_t n, uint64_t word, uint8_t i, uint8_t j);
ticket_word_told by_hand_is_first(uint8_t n, uint64_t word, uint8_t p);
ticket_word_counted by_hand_rank(uint8_t n, uint64_t word, uint8_t i);
ticket_word_ranked by_hand_ranks(uint8_t n, uint64_t word);

#endif
