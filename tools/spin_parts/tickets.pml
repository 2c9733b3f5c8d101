/* Tickets have no bound, and Promela has no such numbers. A program asks only for their order, and for who holds one.
   So a ticket is its rank, as in the canonical states of ticklab: 0 for none, else how many of the tickets that are
   held are at most this one. Who gives one up brings those above down by one, and a stamp is one above all that are
   left. A scan copies the ranks of one moment, which have the order of the tickets. Each is one step. */
byte tickets[N];
hidden byte q, count;

inline give_up() {
  for (q : 0 .. N - 1) {
    if
    :: 0 < tickets[_pid] && tickets[_pid] < tickets[q] -> tickets[q]--
    :: else
    fi
  }
  tickets[_pid] = 0
}

inline stamp() {
  atomic {
    count = 1;
    d_step {
      give_up();
      for (q : 0 .. N - 1) {
        count = count + (0 < tickets[q])
      }
      tickets[_pid] = count
    }
  }
}

inline clear() {
  atomic { count = 0; d_step { give_up() } }
}

/* What has to hold: so many processes are inside at most, and who passes a round finds that all have reached it. */
inline at_most(most) {
  d_step {
    count = 0;
    for (q : 0 .. N - 1) {
      count = count + inside[q]
    }
    assert(count <= most)
  }
}

inline all_reached() {
  d_step {
    for (q : 0 .. N - 1) {
      assert(round <= reached[q])
    }
  }
}
