"""What tables, callers, orders and locks answer, beside tickets as whole numbers."""
import random
import signal
import threading
import unittest
from unittest import mock

from ticket_word import BadCount, BadProcess, BadWord, FairMutex, NoSeat, StampTable


def is_first(tickets, p):
    return tickets[p] != 0 and not any(0 < other < tickets[p] for other in tickets)


class Moves(unittest.TestCase):
    def compare(self, order, tickets):
        self.assertEqual(order.ranks(), [sum(other < ticket for other in tickets) for ticket in tickets])
        for i, ticket in enumerate(tickets):
            self.assertEqual(order.held(i), ticket != 0)
            self.assertEqual(order.is_first(i), is_first(tickets, i))
            for j, other in enumerate(tickets):
                self.assertEqual(order.older(i, j), ticket < other)

    def test_random_moves(self):
        draw = random.Random(1)
        for n in range(1, 7):
            table, tickets = StampTable(n), [0] * n
            callers = table.callers()
            for _ in range(2000):
                p = draw.randrange(n)
                stamps = draw.random() < 0.7
                tickets[p] = 1 + max(tickets) if stamps else 0
                after = callers[p].stamp() if stamps else callers[p].clear()
                self.compare(after, tickets)
                self.assertEqual(table.scan(), after)


class Calls(unittest.TestCase):
    def test_faults(self):
        for n in (0, 7, 255, 256, -1, 2**40):
            self.assertRaises(BadCount, StampTable, n)
        table = StampTable(2)
        for p in (2, 255, 256, -1, 2**40):
            self.assertIsNone(table.caller(p))
            self.assertRaises(BadProcess, table.scan().held, p)
            self.assertRaises(BadProcess, table.scan().older, 0, p)
            self.assertRaises(BadProcess, table.scan().rank, p)
            self.assertRaises(BadProcess, table.scan().is_first, p)
        caller = table.caller(0)
        table._table.word = 1
        self.assertRaises(BadWord, caller.stamp)
        self.assertRaises(BadWord, table.scan().held, 0)
        self.assertEqual(table._table.word, 1)

    def test_a_process_has_one_caller(self):
        table = StampTable(2)
        with table.caller(0) as caller:
            self.assertIsNone(table.caller(0))
            self.assertIsNone(table.callers())
            caller.stamp()
        self.assertFalse(table.scan().held(0))
        self.assertRaises(BadProcess, caller.stamp)
        self.assertEqual(len(table.callers()), 2)

    def test_a_try_wins_only_the_order_it_saw(self):
        zero, one = StampTable(2).callers()
        seen = zero.scan()
        after = one.stamp()
        self.assertEqual(zero.try_stamp(seen), (False, after))
        won, order = zero.try_stamp(after)
        self.assertTrue(won)
        self.assertTrue(order.older(1, 0))


class Locks(unittest.TestCase):
    def test_a_lock_counts(self):
        lock, count = FairMutex(4), [0]

        def work(seat):
            for _ in range(300):
                with seat:
                    found = count[0]
                    threading.Event().wait(0)
                    count[0] = found + 1

        threads = [threading.Thread(target=work, args=(lock.seat(),)) for _ in range(4)]
        with self.assertRaisesRegex(NoSeat, "^All seats of the lock are taken.$"):
            lock.seat()
        for thread in threads:
            thread.start()
        for thread in threads:
            thread.join()
        self.assertEqual(count[0], 1200)

    def test_a_third_seat_of_two_is_told(self):
        lock = FairMutex(2)
        one, _other = lock.seat(), lock.seat()
        self.assertRaises(NoSeat, lock.seat)
        one.close()
        self.assertTrue(lock.seat())

    def waits_in_vain(self, fault):
        """Waits behind another, where this fault ends it: then only the other holds a ticket."""
        lock = FairMutex(2)
        one, other = lock.seat(), lock.seat()
        with one:
            with self.assertRaises(fault):
                other.__enter__()
            order = lock._table.scan()
            self.assertEqual([order.held(0), order.held(1)], [True, False])
        with other:
            self.assertTrue(lock._table.scan().is_first(1))

    def test_ctrl_c_gives_the_ticket_up(self):
        found = signal.signal(signal.SIGINT, signal.default_int_handler)
        try:
            with mock.patch("time.sleep", side_effect=lambda _: signal.raise_signal(signal.SIGINT)):
                self.waits_in_vain(KeyboardInterrupt)
        finally:
            signal.signal(signal.SIGINT, found)

    def test_any_fault_of_waiting_gives_the_ticket_up(self):
        for fault in (KeyboardInterrupt, SystemExit, OSError):
            with mock.patch("time.sleep", side_effect=fault):
                self.waits_in_vain(fault)

    def test_a_fault_under_the_lock_leaves_it(self):
        lock = FairMutex(2)
        with self.assertRaises(OSError), lock.seat():
            raise OSError
        self.assertFalse(lock._table.scan().held(0))


if __name__ == "__main__":
    unittest.main()
