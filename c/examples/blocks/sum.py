#!/usr/bin/env python3
"""Adds up the integers of a file, one in each line, in blocks that several processes read, each by
itself, and prints their count and sum, or the first byte at fault.

sum.py FILE [--blocks N] [--workers N]    by Dask: Debian's python3-dask and python3-distributed
sum.py FILE --alone                       by this process alone, which prints the same
sum.py FILE --make BYTES [--fault AT]     writes a file of so many bytes, from a seed; maybe with an
                                          `x` at a position

The blocks are cut at N - 1 positions that know nothing of lines. digits.py and its library: see
../../README.md."""
import argparse
import mmap
import os
import random
import sys

PYTHON = os.path.join(os.path.dirname(os.path.abspath(__file__)), "..", "..", "python")
sys.path.insert(0, PYTHON)
import digits  # noqa: E402


def read_block(path, begin, end):
    """How many numbers a block has, their sum, and the fault that ends the list in it: its status and
    its position in the file. Both ends of the block may be anywhere."""
    with open(path, "rb") as file, mmap.mmap(file.fileno(), 0, access=mmap.ACCESS_READ) as text:
        begin, end = (digits.block_start(text, at, b"\n") for at in (begin, end))
        is_last = end == len(text)
        with memoryview(text) as all_bytes, all_bytes[begin:end] as block:
            try:
                numbers, at, is_more = digits.read_i64_piece(block, 0, b"\n", is_last)
                fault = None if begin + at == end else (digits.INVALID, begin + at)
            except digits.Fault as error:
                numbers, fault = error.numbers, (error.status, begin + error.at)
    return len(numbers), sum(numbers), fault


def joined(reads):
    """The same of blocks one after the other, up to the first in which the list ends."""
    count = total = 0
    for more, part, fault in reads:
        count, total = count + more, total + part
        if fault:
            return count, total, fault
    return count, total, None


def by_dask(path, blocks, workers):
    """Reads the blocks on the workers of a cluster of this machine."""
    from dask.distributed import Client, LocalCluster

    os.environ["PYTHONPATH"] = os.pathsep.join([PYTHON, os.environ.get("PYTHONPATH", "")])
    size = os.path.getsize(path)
    cuts = [size * block // blocks for block in range(blocks + 1)]
    with LocalCluster(n_workers=workers, threads_per_worker=1, dashboard_address=None) as cluster:
        with Client(cluster) as client:
            reads = client.map(read_block, [path] * blocks, cuts[:-1], cuts[1:])
            return joined(client.gather(reads))


def alone(path):
    """Reads the file from its start to its end."""
    count = total = 0
    with open(path, "rb") as file:
        try:
            for number in digits.numbers_of(file, b"\n", digits.read_i64_piece):
                count, total = count + 1, total + number
        except digits.Fault as fault:
            return count, total, (fault.status, fault.at)
    return count, total, None


def make(path, size, fault):
    """Writes lines of 1 to 18 digits, some with a sign."""
    random.seed(1)
    lines = b"".join(b"%d\n" % random.randrange(-10 ** random.randint(1, 17), 10 ** random.randint(1, 18))
                     for _ in range(100_000))
    with open(path, "wb") as file:
        for _ in range(size // len(lines)):
            file.write(lines)
        file.write(lines[:lines.rfind(b"\n", 0, size % len(lines)) + 1])
        if fault is not None:
            file.seek(fault)
            file.write(b"x")


def main():
    parser = argparse.ArgumentParser(description="Adds up the integers of a file in blocks.")
    parser.add_argument("file")
    parser.add_argument("--blocks", type=int, default=32)
    parser.add_argument("--workers", type=int, default=4)
    parser.add_argument("--alone", action="store_true")
    parser.add_argument("--make", type=int, metavar="BYTES")
    parser.add_argument("--fault", type=int, metavar="AT")
    told = parser.parse_args()
    if told.make is not None:
        make(told.file, told.make, told.fault)
        return 0
    path = os.path.abspath(told.file)
    count, total, fault = alone(path) if told.alone else by_dask(path, told.blocks, told.workers)
    if fault:
        status, at = fault
        print(f"byte {at}: {digits.MESSAGES[status]}, after {count} numbers with the sum {total}")
        return 1
    print(f"count={count} sum={total}")
    return 0


if __name__ == "__main__":
    sys.exit(main())
