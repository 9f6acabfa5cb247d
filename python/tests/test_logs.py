"""Tests of interval logs: python3 -m unittest discover python/tests, with python on PYTHONPATH."""

from __future__ import annotations

import base64
import io
import sys
import tempfile
import unittest
import zlib
from decimal import Decimal
from fractions import Fraction
from pathlib import Path

sys.dont_write_bytecode = True
sys.path.append(str(Path(__file__).parents[2] / "tools"))

from case_files import cases_of
from deckapricot import ClosedError, DecodeError, Histogram, HistogramLogReader, LogError, LogWriter, read_log

FIELD = b"HISTEwAAAAMAAAAAAAAAAwAAAAAAAAABAAAAAAAAAAI/8AAAAAAAAAACCA=="


def counted(*values: int) -> Histogram:
    histogram = Histogram()
    histogram.record_many(values)
    return histogram


class Logs(unittest.TestCase):
    def test_round_trip(self) -> None:
        file = io.BytesIO()
        log = LogWriter(file)
        log.write(counted(1, 2, 2, 2, 2), 0, 1, "a")
        log.write(counted(10**9), Decimal("1.5"), Fraction(1, 4))
        log.write(counted(), 2.25, "3", "β")
        self.assertEqual(file.getvalue().split(b"\n")[0], b"Tag=a,0.000,1.000,2.000," + FIELD)
        first, second, third = read_log(file.getvalue())
        self.assertEqual((first.tag, first.start_ns, first.duration_ns, first.base_ns), ("a", 0, 10**9, None))
        self.assertEqual((second.tag, second.start, second.duration), (None, 1.5, 0.25))
        self.assertEqual((third.tag, third.start_ns, third.duration), ("β", 2_250_000_000, 3.0))
        self.assertEqual([i.histogram.total for i in (first, second, third)], [5, 1, 0])
        self.assertEqual(list(second.histogram), list(counted(10**9)))

    def test_files(self) -> None:
        with tempfile.TemporaryDirectory() as folder:
            path = Path(folder) / "log"
            with LogWriter(path) as log:
                log.write(counted(7), 1, 2)
            self.assertEqual([i.histogram.max for i in read_log(path)], [7])
            self.assertEqual([i.histogram.max for i in read_log(str(path))], [7])
            with open(path, "rb") as file:
                self.assertEqual([i.histogram.max for i in read_log(file)], [7])

    def test_base_time(self) -> None:
        log = b"1.0,1.0,1.0," + FIELD + b"\n#[BaseTime: 100.250 (seconds since epoch)]\n1.0,1.0,1.0," + FIELD + b"\n"
        self.assertEqual([i.base_ns for i in read_log(log)], [None, 100_250_000_000])
        self.assertEqual(list(read_log(b"")), [])

    def test_headers(self) -> None:
        file = io.BytesIO()
        log = LogWriter(file, compressed=True)
        log.write_start_time("1700000000.125")
        log.write_base_time(5)
        log.write_unit("us")
        log.write_comment("two\nlines")
        log.write(counted(1, 2, 3), 1, 2)
        lines = file.getvalue().decode().split("\n")
        self.assertEqual(lines[:2], ["#[Histogram log format version 1.3]", "#[StartTime: 1700000000.125 (seconds since epoch)]"])
        self.assertEqual(lines[2:6], ["#[BaseTime: 5.000 (seconds since epoch)]", "#[Values are in us]", "#two", "#lines"])
        self.assertTrue(lines[6].startswith("1.000,2.000,3.000,HISTFA"))
        reader = HistogramLogReader(file.getvalue() + b" \n\n")
        self.assertEqual((reader.start_time_ns, reader.unit), (1_700_000_000_125_000_000, "us"))
        self.assertEqual([(i.base_ns, list(i.histogram)) for i in reader], [(5 * 10**9, list(counted(1, 2, 3)))])
        self.assertEqual((read_log(b"").start_time_ns, read_log(b"").unit, read_log(b"").decimals), (None, None, 0))
        self.assertEqual(read_log(b"#[Values are in s]\n#[Values have 4 decimals]\n").decimals, 4)
        self.assertEqual(read_log(b"#[Values have 19 decimals]\n# [Values have 2 decimals]\n").decimals, 0)
        windows = read_log(b"#[Values are in ms]\r\n#[Values have 18 decimals]\r\n")
        self.assertEqual((windows.unit, windows.decimals), ("ms", 18))
        with self.assertRaises(ValueError):
            log.write_unit("minutes")

    def test_versions(self) -> None:
        """The case of hdrstat with logs of versions 0 and 1, whose histograms it converts to V2 bytes."""
        case = next(case for case in cases_of("hdrstat")[0] if case.name == "convert_old_versions")
        old, new = (list(read_log(io.BytesIO(case.text(kind)))) for kind in ("in", "out"))
        self.assertEqual([i.histogram for i in old], [i.histogram for i in new])
        self.assertEqual(([i.start for i in old], old[0].histogram.count_at(49)), ([0, 1, 2, 3, 4], 5))
        packed = zlib.compress(bytes(60_000_000))
        field = bytes.fromhex("1c849314") + len(packed).to_bytes(4, "big") + packed
        with self.assertRaises(DecodeError) as context:
            list(read_log(io.BytesIO(b"0.0,1.0,2.0," + base64.b64encode(field) + b"\n"), max_bins=1000))
        self.assertIn(context.exception.status, (27, 28))

    def test_errors(self) -> None:
        good = b"1.0,1.0,1.0," + FIELD + b"\n"
        lines = [(b"1,1\n", LogError, 24), (good[:-1], LogError, 24), (b"1.0,1.0,1.0,?\n", LogError, 25)]
        lines += [(b"1.0,1.0,1.0,HIST\n", DecodeError, 14), (b"1.0,1.0,1.0,AAAAAAAA\n", DecodeError, 15)]
        for line, error, status in lines:
            for before in (b"", good, good + b"#[BaseTime: 1.0 (seconds since epoch)]\n"):
                with self.assertRaises(error) as context:
                    list(read_log(before + line))
                self.assertEqual((context.exception.offset, context.exception.status), (len(before), status))

    def test_errors_of_writing(self) -> None:
        log = LogWriter(io.BytesIO())
        for arguments in ((-1, 0), (0, -1), (2**64, 0), (0, 0, "a b"), (0, 0, "a,b"), (0, 0, "a\n")):
            with self.assertRaises(LogError):
                log.write(counted(1), *arguments)
        closed = counted(1)
        closed.close()
        with self.assertRaises(ClosedError):
            log.write(closed, 0, 1)


if __name__ == "__main__":
    unittest.main()
