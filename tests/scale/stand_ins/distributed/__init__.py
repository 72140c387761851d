"""Stands in for the parts of Dask's `distributed` that scale/on-dask uses. A worker is a process that makes one try of one task,
and the address of a scheduler is its number of workers."""
import os
import pickle
import queue
import threading


def in_a_worker(function, values):
    """Returns the result of a function in a process of its own, or raises its exception; also raises one if the process is
    killed."""
    read, write = os.pipe()
    worker = os.fork()
    if worker == 0:
        os.close(read)
        with os.fdopen(write, "wb") as answer:
            try:
                pickle.dump(("finished", function(*values)), answer)
            except Exception as fault:
                pickle.dump(("error", fault), answer)
        os._exit(0)
    os.close(write)
    with os.fdopen(read, "rb") as answer:
        said = answer.read()
    os.waitpid(worker, 0)
    return pickle.loads(said) if said else ("error", RuntimeError("a worker was killed"))


class Future:
    def __init__(self, key):
        self.key, self.status, self.value, self.over = key, "pending", None, threading.Event()

    def result(self):
        return self.value

    exception = result

    def settle(self, status, value):
        self.status, self.value = status, value
        self.over.set()


class Client:
    def __init__(self, address=None, n_workers=None, threads_per_worker=1, dashboard_address=None):
        self.slots = threading.Semaphore(int(address or n_workers or 2))

    def __enter__(self):
        return self

    def __exit__(self, *fault):
        pass

    def submit(self, function, *values, key, retries, pure):
        future = Future(key)
        threading.Thread(target=self.perform, args=(future, function, values, retries)).start()
        return future

    def perform(self, future, function, values, retries):
        before = [value for value in values if isinstance(value, Future)]
        for it in before:
            it.over.wait()
        if failed := [it for it in before if it.status == "error"]:
            future.settle("error", failed[0].value)
            return
        values = [value.result() if isinstance(value, Future) else value for value in values]
        for _ in range(1 + retries):
            with self.slots:
                status, value = in_a_worker(function, values)
            if status == "finished":
                break
        future.settle(status, value)


def as_completed(futures):
    done = queue.Queue()
    for future in futures:
        threading.Thread(target=lambda future=future: (future.over.wait(), done.put(future))).start()
    for _ in futures:
        yield done.get()
