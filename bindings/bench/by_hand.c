/* The calls of ticket_word.h written by hand: the same answers and the same faults, by tables.
 *
 * A label is a number in base 3, of n - 1 digits. Of two labels the one dominates the other whose digit is the
 * next one, modulo 3, at the first place at which they differ: a row of 243 bits tells for each label which it
 * dominates. The labels of a word are in an order where no two of them dominate equally many. */
#include "by_hand.h"

enum { LABELS = 243, PRESENCE = 48, MOST_DIGITS = 5 };

static const uint8_t counts[] = {1, 3, 9, 27, 81, 243};

/* Which labels each one dominates. */
static uint64_t rows[LABELS][4];
/* The digits of each label with two bits for each, the first one highest. */
static uint16_t codes[LABELS];
/* The label that keeps so many digits, has the next one turned, and 0 from there on. */
static uint8_t turned[MOST_DIGITS][LABELS];
/* The bits that a word of n processes may have set. */
static uint64_t room[TICKET_MOST + 1];

static int dominates(unsigned label, unsigned other) {
    for (unsigned weight = LABELS / 3; weight > 0; weight /= 3) {
        unsigned digit = label / weight % 3, against = other / weight % 3;
        if (digit != against) return digit == (against + 1) % 3;
    }
    return 0;
}

void by_hand_start(void) {
    for (unsigned label = 0; label < LABELS; label++) {
        for (unsigned other = 0; other < LABELS; other++) {
            if (dominates(label, other)) rows[label][other / 64] |= UINT64_C(1) << other % 64;
        }
        for (unsigned place = 0; place < MOST_DIGITS; place++) {
            unsigned weight = counts[MOST_DIGITS - 1 - place], digit = label / weight % 3;
            codes[label] |= (uint16_t)(digit << 2 * (MOST_DIGITS - 1 - place));
            turned[place][label] = (uint8_t)((label / weight / 3 * 3 + (digit + 1) % 3) * weight);
        }
    }
    for (unsigned n = 1; n <= TICKET_MOST; n++) {
        room[n] = (UINT64_C(1) << 8 * n) - 1 + (((UINT64_C(1) << n) - 1) << PRESENCE);
    }
}

/* The labels of those that are present, and how many of them each dominates. */
typedef struct order {
    unsigned count;
    uint8_t process[TICKET_MOST];
    uint8_t label[TICKET_MOST];
    uint8_t rank[TICKET_MOST];
} order;

static unsigned held(uint64_t word, unsigned i) { return word >> (PRESENCE + i) & 1; }
static unsigned label_of(uint64_t word, unsigned i) { return word >> 8 * i & 255; }
static unsigned over(unsigned label, unsigned other) { return rows[label][other / 64] >> other % 64 & 1; }

/* What stands against the word, and its order where nothing does. */
static inline uint8_t ordered(unsigned n, uint64_t word, order *found) {
    if (word & ~room[n]) return 3;
    unsigned count = 0;
    for (unsigned i = 0; i < n; i++) {
        unsigned label = label_of(word, i), present = held(word, i);
        if (label >= (present ? counts[n - 1] : 1)) return 3;
        found->process[count] = (uint8_t)i;
        found->label[count] = (uint8_t)label;
        count += present;
    }
    for (unsigned a = 0; a < count; a++) {
        unsigned rank = 0;
        for (unsigned b = 0; b < a; b++) {
            unsigned is_over = over(found->label[a], found->label[b]);
            rank += is_over;
            found->rank[b] += (uint8_t)(!is_over & (found->label[a] != found->label[b]));
        }
        found->rank[a] = (uint8_t)rank;
    }
    unsigned seen = 0;
    for (unsigned a = 0; a < count; a++) seen |= 1u << found->rank[a];
    found->count = count;
    return seen + 1 == 1u << count ? 0 : 3;
}

static inline uint8_t asked(unsigned n, uint64_t word, unsigned i, unsigned j, order *found) {
    if (n - 1 > 5) return 1;
    if (i >= n || j >= n) return 2;
    return ordered(n, word, found);
}

uint8_t by_hand_fault(uint8_t n, uint64_t word) {
    order found;
    return asked(n, word, 0, 0, &found);
}

/* The digits of the greatest, as long as few enough of the others share them. */
static unsigned next_label(unsigned n, const order *found, unsigned p) {
    unsigned top = TICKET_MOST, sharing[MOST_DIGITS + 1] = {0};
    for (unsigned a = 0; a < found->count; a++) {
        if (found->process[a] != p && (top == TICKET_MOST || found->rank[a] > found->rank[top])) top = a;
    }
    if (top == TICKET_MOST) return 0;
    unsigned code = codes[found->label[top]];
    for (unsigned a = 0; a < found->count; a++) {
        if (found->process[a] == p) continue;
        unsigned differ = codes[found->label[a]] ^ code;
        sharing[differ ? ((unsigned)__builtin_clz(differ) - 22) / 2 : MOST_DIGITS]++;
    }
    unsigned shared = 0, len = n - 1, first = MOST_DIGITS - len;
    for (unsigned a = first; a <= MOST_DIGITS; a++) shared += sharing[a];
    for (unsigned at = 0; at < len; at++) {
        shared -= sharing[first + at];
        if (shared > len - (at + 1)) return turned[first + at][found->label[top]];
    }
    return found->label[top];
}

static uint64_t without(uint64_t word, unsigned p) {
    return word & ~(UINT64_C(255) << 8 * p | UINT64_C(1) << (PRESENCE + p));
}

ticket_word_made by_hand_stamped(uint8_t n, uint64_t word, uint8_t p) {
    order found;
    uint8_t fault = asked(n, word, p, p, &found);
    if (fault) return (ticket_word_made){0, fault};
    uint64_t label = next_label(n, &found, p);
    return (ticket_word_made){without(word, p) | label << 8 * p | UINT64_C(1) << (PRESENCE + p), 0};
}

ticket_word_made by_hand_cleared(uint8_t n, uint64_t word, uint8_t p) {
    order found;
    uint8_t fault = asked(n, word, p, p, &found);
    if (fault) return (ticket_word_made){0, fault};
    return (ticket_word_made){without(word, p), 0};
}

ticket_word_told by_hand_held(uint8_t n, uint64_t word, uint8_t i) {
    order found;
    uint8_t fault = asked(n, word, i, i, &found);
    if (fault) return (ticket_word_told){false, fault};
    return (ticket_word_told){held(word, i), 0};
}

ticket_word_told by_hand_older(uint8_t n, uint64_t word, uint8_t i, uint8_t j) {
    order found;
    uint8_t fault = asked(n, word, i, j, &found);
    if (fault) return (ticket_word_told){false, fault};
    if (!held(word, j)) return (ticket_word_told){false, 0};
    return (ticket_word_told){!held(word, i) || over(label_of(word, j), label_of(word, i)), 0};
}

ticket_word_told by_hand_is_first(uint8_t n, uint64_t word, uint8_t p) {
    order found;
    uint8_t fault = asked(n, word, p, p, &found);
    if (fault) return (ticket_word_told){false, fault};
    if (!held(word, p)) return (ticket_word_told){false, 0};
    for (unsigned a = 0; a < found.count; a++) {
        if (found.process[a] == p) return (ticket_word_told){found.rank[a] == 0, 0};
    }
    return (ticket_word_told){false, 0};
}

ticket_word_counted by_hand_rank(uint8_t n, uint64_t word, uint8_t i) {
    order found;
    uint8_t fault = asked(n, word, i, i, &found);
    if (fault) return (ticket_word_counted){0, fault};
    for (unsigned a = 0; a < found.count; a++) {
        if (found.process[a] == i) return (ticket_word_counted){(uint8_t)(n - found.count + found.rank[a]), 0};
    }
    return (ticket_word_counted){0, 0};
}

ticket_word_ranked by_hand_ranks(uint8_t n, uint64_t word) {
    order found;
    ticket_word_ranked answer = {{0}, 0};
    answer.fault = asked(n, word, 0, 0, &found);
    if (answer.fault) return answer;
    for (unsigned a = 0; a < found.count; a++) answer.of[found.process[a]] = (uint8_t)(n - found.count + found.rank[a]);
    return answer;
}
