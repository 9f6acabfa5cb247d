"""Merges what workers of Dask counted: dask_workers.py [SAMPLES [WORKERS]].

Workers return V2 bytes, some kilobytes however many samples they counted. Without Dask (Debian's python3-distributed) they
are processes of concurrent.futures, as Dask's client has an executor of the same form.
"""

from __future__ import annotations

import multiprocessing
import random
import sys
from collections.abc import Iterable, Iterator
from concurrent.futures import Executor, ProcessPoolExecutor
from contextlib import contextmanager

from deckapricot import Histogram

try:
    from dask.distributed import Client, LocalCluster
except ImportError:
    Client = None


def count(seed: int, samples: int) -> bytes:
    """Counts what one worker measures."""
    rng = random.Random(seed)
    histogram = Histogram(digits=3)
    histogram.record_many(int(rng.lognormvariate(7, 1)) for _ in range(samples))
    return histogram.to_bytes()


def merge(parts: Iterable[bytes]) -> bytes:
    """Adds the histograms of several workers."""
    total = Histogram(digits=3)
    for part in parts:
        total += Histogram.from_bytes(part)
    return total.to_bytes()


@contextmanager
def pool(workers: int) -> Iterator[Executor]:
    """Yields an executor over worker processes."""
    if Client is None:
        with ProcessPoolExecutor(workers, mp_context=multiprocessing.get_context("spawn")) as executor:
            yield executor
    else:
        with LocalCluster(n_workers=workers, threads_per_worker=1, dashboard_address=None) as cluster, Client(cluster) as client:
            yield client.get_executor()


def main(samples: str = "10000", workers: str = "4") -> None:
    seeds = range(2 * int(workers))
    with pool(int(workers)) as executor:
        parts = list(executor.map(count, seeds, [int(samples)] * len(seeds)))
        # A tree: workers merge four parts at a time.
        while len(parts) > 1:
            parts = list(executor.map(merge, [parts[at : at + 4] for at in range(0, len(parts), 4)]))
    total = Histogram.from_bytes(parts[0])
    print(f"{total.total} samples, p99 {total.percentile(99)}")
    alone = merge(count(seed, int(samples)) for seed in seeds)
    print("equal to one process" if total == Histogram.from_bytes(alone) else "not equal to one process")


if __name__ == "__main__":
    main(*sys.argv[1:])
