"""Tests of Recorder."""

from __future__ import annotations

import gc
import threading
import unittest
from array import array

from deckapricot import Histogram, InvalidBounds, Recorder, ValueOutOfRange

THREADS = 8


class Swaps(unittest.TestCase):
    def test_each_sample_is_in_one_interval(self) -> None:
        recorder = Recorder(3, 1, 10**9)
        values = array("Q", range(1, 20_001))
        running = [True] * THREADS

        def work(number: int) -> None:
            for _ in range(5):
                recorder.record_many(values)
                for _ in range(400):
                    recorder.record(7)
            running[number] = False

        threads = [threading.Thread(target=work, args=(number,)) for number in range(THREADS)]
        for thread in threads:
            thread.start()
        total = Histogram(3, 1, 10**9)
        swaps = 0
        while any(running):
            total += recorder.swap()
            swaps += 1
        total += recorder.swap()
        for thread in threads:
            thread.join()
        self.assertEqual((total.total, total.count_at(7)), (THREADS * 102_000, THREADS * 2005))
        self.assertGreater(swaps, 1)
        self.assertFalse(recorder.swap())

    def test_a_thread_that_ended_leaves_its_samples(self) -> None:
        recorder = Recorder()
        for value in range(20):
            thread = threading.Thread(target=recorder.record, args=(value,))
            thread.start()
            thread.join()
        self.assertEqual([(found.low, found.count) for found in recorder.swap()], [(it, 1) for it in range(20)])

    def test_recorders_are_freed_while_threads_end(self) -> None:
        for _ in range(200):
            recorder = Recorder(1)
            thread = threading.Thread(target=recorder.record, args=(5,))
            thread.start()
            thread.join()
            self.assertEqual(recorder.swap().total, 1)
            del recorder
        gc.collect()

    def test_into_a_histogram(self) -> None:
        recorder = Recorder(2)
        total = Histogram(3)
        recorder.record(1000, 3)
        self.assertIs(recorder.swap(total), total)
        recorder.record(2000, expected_interval=500)
        recorder.swap(into=total)
        self.assertEqual((total.total, total.count_at(1000)), (7, 4))
        self.assertRaises(TypeError, recorder.swap, [])


class Errors(unittest.TestCase):
    def test_samples_remain_after_an_error_of_a_swap(self) -> None:
        recorder = Recorder()
        recorder.record(10**6)
        with self.assertRaises(ValueOutOfRange):
            recorder.swap(Histogram(3, 1, 1000))
        self.assertEqual(recorder.swap().total, 1)

    def test_values(self) -> None:
        recorder = Recorder(3, 1, 1000)
        self.assertRaises(ValueOutOfRange, recorder.record, 5000)
        self.assertRaises(OverflowError, recorder.record, -1)
        recorder.record_saturating(5000, 2)
        with self.assertRaises(ValueOutOfRange) as caught:
            recorder.record_many([1, 2, 5000, 3])
        self.assertEqual(caught.exception.recorded, 2)
        self.assertEqual(recorder.record_many([0.25, 0.75], scale=100), 2)
        self.assertEqual([(found.low, found.count) for found in recorder.swap()], [(1, 1), (2, 1), (25, 1), (75, 1), (1000, 2)])

    def test_bounds(self) -> None:
        self.assertRaises(InvalidBounds, Recorder, 6)
        self.assertRaises(InvalidBounds, Recorder, 3, 0, 10)
        self.assertRaises(InvalidBounds, Recorder, 3, 10, 19)
        self.assertRaises(ValueError, Recorder, 3, 10)
        self.assertEqual(Recorder(3, 10, 1000).swap().low, 10)


if __name__ == "__main__":
    unittest.main()
