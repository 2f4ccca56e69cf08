"""What the disk and the link cost: a small write that is made durable, an append as a log makes it, with a gate and over zeros that are there, and a
round trip."""
import multiprocessing
import os
import socket
import tempfile
import time

from .orders import percentile

SIZE = 100
DATA = b"x" * SIZE
# A file has so many bytes before anything is written; after so many writes they begin anew at its front.
AHEAD = 1 << 20
WRITES = AHEAD // SIZE - 1


def times_of(count, call):
    times = []
    for number in range(count):
        began = time.perf_counter()
        call(number)
        times.append(time.perf_counter() - began)
    return sorted(times)


def write(descriptor, number):
    os.pwrite(descriptor, DATA, number % WRITES * SIZE)
    os.fdatasync(descriptor)


def append(descriptor, number):
    at = number % WRITES * SIZE
    os.pwrite(descriptor, DATA, at + 1)
    os.fdatasync(descriptor)
    os.pwrite(descriptor, b"\1", at)
    os.fdatasync(descriptor)


def open_in(folder, name):
    """A new file of durable zeros."""
    descriptor = os.open(os.path.join(folder, name), os.O_RDWR | os.O_CREAT)
    os.pwrite(descriptor, bytes(AHEAD), 0)
    os.fsync(descriptor)
    return descriptor


def append_on(folder, name):
    """Appends until it is ended."""
    descriptor, number = open_in(folder, name), 0
    while True:
        append(descriptor, number)
        number += 1


def disk_times(folder, others, count=300):
    """Times, ascending, in seconds: of a write and a sync, of an append, and of an append while so many others append to files of their own."""
    with tempfile.TemporaryDirectory(dir=folder) as inside:
        descriptor = open_in(inside, "own")
        written = times_of(count, lambda number: write(descriptor, number))
        appended = times_of(count, lambda number: append(descriptor, number))
        beside = [multiprocessing.Process(target=append_on, args=(inside, f"other-{number}"), daemon=True) for number in range(others)]
        for process in beside:
            process.start()
        time.sleep(0.2)
        shared = times_of(count, lambda number: append(descriptor, number))
        for process in beside:
            process.terminate()
            process.join()
        os.close(descriptor)
    return written, appended, shared


def bound_socket():
    bound = socket.socket(socket.AF_INET, socket.SOCK_DGRAM)
    bound.bind(("127.0.0.1", 0))
    return bound


def echo(bound):
    """Sends back what comes, until it is ended."""
    while True:
        data, address = bound.recvfrom(2048)
        bound.sendto(data, address)


def round_trip_times(count=2000):
    """Times, ascending, in seconds, of a datagram to another process on this machine and back."""
    far, near = bound_socket(), bound_socket()
    near.settimeout(5)
    process = multiprocessing.Process(target=echo, args=(far,), daemon=True)
    process.start()

    def trip(_):
        near.sendto(DATA, far.getsockname())
        near.recv(2048)

    try:
        return times_of(count, trip)
    finally:
        process.terminate()
        process.join()
        far.close()
        near.close()


def floor_of(appended, trips):
    """What a commit costs at least: two appends one after the other, which are four syncs, and a round trip."""
    return 2 * percentile(appended, 0.5) + percentile(trips, 0.5)
