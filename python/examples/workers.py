"""Merges what worker processes counted.

A histogram is pickled as V2 bytes, so the workers of Dask can return one too: `client.map(count, range(8))`.
"""

import multiprocessing
import random
from concurrent.futures import ProcessPoolExecutor

from deckapricot import Histogram


def count(seed: int) -> Histogram:
    """Counts what one worker measures."""
    rng = random.Random(seed)
    histogram = Histogram(digits=3)
    histogram.record_many(int(rng.lognormvariate(7, 1)) for _ in range(10_000))
    return histogram


def main() -> None:
    total = Histogram(digits=3)
    with ProcessPoolExecutor(4, mp_context=multiprocessing.get_context("spawn")) as pool:
        for part in pool.map(count, range(8)):
            total += part
    print(f"{total.total} samples, p99 {total.percentile(99)}")


if __name__ == "__main__":
    main()
