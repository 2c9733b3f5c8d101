"""First come, first served for one to six threads, in one 64-bit word.

Who wins the exchange that takes a ticket comes first, however long another has tried.

    from ticket_word import FairMutex

    lock = FairMutex(2)

    def work(seat):
        with seat:
            ...                   # one thread at a time, in the order of tickets

    seats = [lock.seat(), lock.seat()]

The functions of the word are proved. This package, and the loops in C that it calls, are tested.
"""
import ctypes
import os
import threading
import time

__all__ = [
    "BadCount", "BadProcess", "BadWord", "Caller", "FairMutex", "NoSeat", "Order", "Seat", "StampTable", "TicketFault",
]


class TicketFault(ValueError):
    """What stands against a call."""


class BadCount(TicketFault):
    """There are not one to six processes."""


class BadProcess(TicketFault):
    """A process is none of them."""


class BadWord(TicketFault):
    """The word stands for no tickets: something else wrote it."""


class NoSeat(TicketFault):
    """All seats of the lock are taken."""


_FAULTS = {-1: BadCount, -2: BadProcess, -3: BadWord}
_NO_PROCESS = 255


class _Table(ctypes.Structure):
    _fields_ = [("word", ctypes.c_uint64), ("n", ctypes.c_uint8)]


class _Order(ctypes.Structure):
    _fields_ = [("word", ctypes.c_uint64), ("n", ctypes.c_uint8)]


_calls = ctypes.CDLL(os.path.join(os.path.dirname(os.path.abspath(__file__)), "libticket_word_calls.so"))
# What each call takes and answers, as calls.c declares it.
_TABLE, _ORDER, _NUMBER = ctypes.POINTER(_Table), ctypes.POINTER(_Order), ctypes.c_uint
_CALLS = {
    "table_init": (ctypes.c_int, _TABLE, _NUMBER),
    "table_scan": (None, _TABLE, _ORDER),
    "table_stamp": (ctypes.c_int, _TABLE, _NUMBER, _ORDER),
    "table_try_stamp": (ctypes.c_int, _TABLE, _NUMBER, _ORDER),
    "table_clear": (ctypes.c_int, _TABLE, _NUMBER, _ORDER),
    "order_held": (ctypes.c_int, _ORDER, _NUMBER),
    "order_older": (ctypes.c_int, _ORDER, _NUMBER, _NUMBER),
    "order_is_first": (ctypes.c_int, _ORDER, _NUMBER),
    "order_rank": (ctypes.c_int, _ORDER, _NUMBER),
}
for _name, (_answer, *_takes) in _CALLS.items():
    _call = getattr(_calls, _name)
    _call.restype, _call.argtypes = _answer, _takes


def _number(p):
    """A process number as C takes it; what is no number of C is no process there either."""
    return ctypes.c_uint(p if 0 <= p < _NO_PROCESS else _NO_PROCESS)


def _checked(answer):
    """The answer of a call, or its fault as an exception."""
    if answer < 0:
        fault = _FAULTS[answer]
        raise fault(fault.__doc__)
    return answer


class Order:
    """What a table was at one moment: plain data, to be kept and asked later."""

    __slots__ = ("_order",)

    def __init__(self, order):
        self._order = order

    def __eq__(self, other):
        return isinstance(other, Order) and self._key() == other._key()

    def __hash__(self):
        return hash(self._key())

    def _key(self):
        return self._order.word, self._order.n

    def held(self, i):
        """Whether process i holds a ticket."""
        return bool(_checked(_calls.order_held(ctypes.byref(self._order), _number(i))))

    def older(self, i, j):
        """Whether the ticket of process i is smaller than that of j. Who holds none is older than who does."""
        return bool(_checked(_calls.order_older(ctypes.byref(self._order), _number(i), _number(j))))

    def is_first(self, p):
        """Whether process p holds a ticket, and nobody who holds one has a smaller one."""
        return bool(_checked(_calls.order_is_first(ctypes.byref(self._order), _number(p))))

    def rank(self, i):
        """How many tickets are smaller than that of process i."""
        return _checked(_calls.order_rank(ctypes.byref(self._order), _number(i)))

    def ranks(self):
        """For each process how many tickets are smaller than its own."""
        return [self.rank(i) for i in range(self._order.n)]


class StampTable:
    """The tickets of n processes, one to six."""

    def __init__(self, n):
        self._table = _Table()
        self._taken = set()
        self._taking = threading.Lock()
        _checked(_calls.table_init(ctypes.byref(self._table), _number(n)))
        self.n = n

    def scan(self):
        """The order as it is: one load."""
        order = _Order()
        _calls.table_scan(ctypes.byref(self._table), ctypes.byref(order))
        return Order(order)

    def caller(self, p):
        """The caller of process p, or None where there is no such process or it has one already."""
        with self._taking:
            if not 0 <= p < self.n or p in self._taken:
                return None
            self._taken.add(p)
        return Caller(self, p)

    def callers(self):
        """The callers of all processes, or None where one of them has one already."""
        with self._taking:
            if self._taken:
                return None
            self._taken.update(range(self.n))
        return [Caller(self, p) for p in range(self.n)]

    def _leave(self, p):
        with self._taking:
            self._taken.discard(p)


class Caller:
    """One process of a table, for one thread at a time. `close`, or the end of a `with`, gives its ticket up."""

    def __init__(self, table, process):
        self._table = table
        self._is_open = True
        self.process = process

    def __enter__(self):
        return self

    def __exit__(self, *_):
        self.close()

    def _open(self):
        if not self._is_open:
            raise BadProcess("the caller is closed")
        return ctypes.byref(self._table._table), _number(self.process)

    def scan(self):
        """The order as it is: one load."""
        return self._table.scan()

    def stamp(self):
        """Takes a new ticket, above all others, and answers the order just after. Tries until it wins."""
        table, process = self._open()
        after = _Order()
        _checked(_calls.table_stamp(table, process, ctypes.byref(after)))
        return Order(after)

    def try_stamp(self, seen):
        """Takes a new ticket if the order still is the one that was seen: whether it won, and the order just after,
        or the one that was found."""
        table, process = self._open()
        order = _Order(seen._order.word, seen._order.n)
        won = _checked(_calls.table_try_stamp(table, process, ctypes.byref(order)))
        return won == 1, Order(order)

    def clear(self):
        """Gives the ticket up, if there is one, and answers the order just after."""
        table, process = self._open()
        after = _Order()
        _checked(_calls.table_clear(table, process, ctypes.byref(after)))
        return Order(after)

    def is_first(self):
        """Whether its process holds a ticket, and nobody who holds one has a smaller one."""
        return self.scan().is_first(self.process)

    def close(self):
        """Gives the ticket up, and the process free for another caller."""
        if self._is_open:
            self.clear()
            self._is_open = False
            self._table._leave(self.process)


class FairMutex:
    """A lock of at most n threads, which enter in the order of their tickets.

    A thread takes a seat once, and locks by it.
    """

    def __init__(self, n):
        self._table = StampTable(n)

    def seat(self):
        """A seat; NoSeat where all n are taken."""
        callers = (self._table.caller(p) for p in range(self._table.n))
        caller = next((caller for caller in callers if caller), None)
        if not caller:
            raise NoSeat(NoSeat.__doc__)
        return Seat(caller)


class Seat:
    """A place at a lock: `with seat:` is under the lock. Who stops waiting, as by Ctrl-C, gives the ticket up."""

    def __init__(self, caller):
        self._caller = caller

    def __enter__(self):
        try:
            self._caller.stamp()
            while not self._caller.is_first():
                time.sleep(0)
        except BaseException:
            self._caller.clear()
            raise
        return self

    def __exit__(self, *_):
        self._caller.clear()

    def close(self):
        """Leaves the place to another thread."""
        self._caller.close()
