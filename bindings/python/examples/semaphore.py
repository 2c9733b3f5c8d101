"""A bounded semaphore, first come, first served: of those that hold tickets the two oldest are in."""
import threading
import time

from ticket_word import StampTable

THREADS, PLACES = 4, 2


def is_in(order, p):
    """Whether fewer than so many who hold a ticket have a smaller one."""
    before = sum(order.held(i) and order.older(i, p) for i in range(THREADS))
    return order.held(p) and before < PLACES


def main():
    """Four threads go in a hundred times each; the most that were in at once."""
    table = StampTable(THREADS)
    counting, inside, most = threading.Lock(), set(), [0]

    def goes_in(caller):
        for _ in range(100):
            caller.stamp()
            while not is_in(caller.scan(), caller.process):
                time.sleep(0)
            with counting:
                inside.add(caller.process)
                most[0] = max(most[0], len(inside))
            time.sleep(0)
            with counting:
                inside.discard(caller.process)
            caller.clear()

    threads = [threading.Thread(target=goes_in, args=(caller,)) for caller in table.callers()]
    for thread in threads:
        thread.start()
    for thread in threads:
        thread.join()
    print(f"at most {most[0]} at once")


if __name__ == "__main__":
    main()
