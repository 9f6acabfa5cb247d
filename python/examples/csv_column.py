"""Prints percentiles of a column of CSV: csv_column.py FILE COLUMN UNIT. Values are counted in the unit."""

import csv
import sys
from decimal import Decimal

from deckapricot import Histogram


def main(path: str, column: str, unit: str) -> None:
    histogram = Histogram(digits=3)
    with open(path, newline="", encoding="utf-8") as file:
        histogram.record_many(int(Decimal(row[column]) / Decimal(unit)) for row in csv.DictReader(file))
    print(f"count {histogram.total}")
    for percent in ("50", "90", "99", "99.9"):
        print(f"p{percent} {histogram.percentile(percent) * Decimal(unit)}")


if __name__ == "__main__":
    main(*sys.argv[1:])
