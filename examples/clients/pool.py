"""A pool of workers: tasks are written into one space, workers take them, and write what came of them into another.

    python3 pool.py HOST:PORT

It opens five connections. A task and its result change hands under one transaction: a worker that broke off between the
two would leave the task where it was, for another to take. A worker that finds no task, or whose transaction ends
before its work does, begins anew, so that the pool outlives any time without work. It leaves nothing behind.
"""
import sys
import threading

from jsp import FOREVER, LONGEST, Client, TransactionLost, entry

WORKERS = 4
TASKS = 40
WAIT = 20_000  # how long a worker waits for a task, in milliseconds
LEASE = 60_000  # how long its transaction may last, which is longer than the wait and the work together


def work(address, name, wait=WAIT, lease=LEASE):
    """Does tasks until it takes one that has no number."""
    with Client(*address) as jsp:
        goes_on = True
        while goes_on:
            try:
                goes_on = work_once(jsp, name, wait, lease)
            except TransactionLost:
                pass  # nothing of it was done, and if it had a task, that is there again


def work_once(jsp, name, wait, lease):
    """Takes a task and writes the square of its number, or neither. It is false where the task was the last one."""
    with jsp.transaction(lease) as txn:
        task = jsp.take("a", entry("Task"), timeout=wait, txn=txn)
        if task is None:
            return True
        if task["k"] is None:
            return False
        result = entry("Result", k=task["k"], square=task["k"] ** 2, worker=name)
        jsp.write("b", result, lease=LONGEST, txn=txn)
        return True


def main(address):
    with Client(*address) as jsp:
        jsp.declare("Task", k="int")
        jsp.declare("Result", k="int", square="int", worker="text")
        workers = [threading.Thread(target=work, args=(address, f"worker {n}")) for n in range(WORKERS)]
        for worker in workers:
            worker.start()
        # A task that nobody takes within the hour of its lease is gone: whoever wants it longer renews that.
        for k in range(1, TASKS + 1):
            jsp.write("a", entry("Task", k=k), lease=LONGEST)
        results = [jsp.take("b", entry("Result", k=k), timeout=FOREVER) for k in range(1, TASKS + 1)]
        for _ in workers:
            jsp.write("a", entry("Task"), lease=LONGEST)
        for worker in workers:
            worker.join()
        print("squares:", *(result["square"] for result in results))
        print("tasks left:", jsp.read("a", entry("Task")), "results left:", jsp.read("b", entry("Result")))


if __name__ == "__main__":
    host, port = sys.argv[1].rsplit(":", 1)
    main((host, int(port)))
