"""Readers of the samples of tools, by parsers of Python's, and their exact numbers and times."""
import csv
import dataclasses
import datetime
import functools
import json
import os
import re
import shlex
from decimal import Decimal
from fractions import Fraction

import forms
from levels import UNITS

SAMPLES = os.path.join(os.path.dirname(os.path.abspath(__file__)), "..", "..", "tests", "samples")
MOST_DIGITS = 15
PART = re.compile(r"([0-9.]+)(ns|us|µs|ms|s|m|h)")
LONGER = {"m": 60, "h": 3600}
ISO = re.compile(r"(\d{4}-\d\d-\d\dT\d\d:\d\d:\d\d)(?:\.(\d+))?(Z|[+-]\d\d:\d\d)")


# Numbers


def decimal_of(text):
    """The digits and the decimals of a decimal: 12.50 is 1250 by 2."""
    _, digits, exponent = Decimal(text).as_tuple()
    units = int("".join(map(str, digits)))
    return (units * 10**exponent, 0) if exponent > 0 else (units, -exponent)


def number_of(text, unit):
    """The digits and the decimals of a decimal, or of a duration as Go prints it, in a unit."""
    parts = PART.findall(text)
    if not unit or "".join(amount + name for amount, name in parts) != text:
        return decimal_of(text)
    total, most = Fraction(0), 0
    for amount, name in parts:
        digits, decimals = decimal_of(amount)
        shift = 0 if name in LONGER else UNITS[name.replace("µ", "u")]
        total += Fraction(digits * LONGER.get(name, 1), 10 ** (decimals + shift))
        most = max(most, decimals + shift)
    decimals = max(most - UNITS[unit], 0)
    return int(total * 10 ** (UNITS[unit] + decimals)), decimals


def decimals_of(numbers):
    """The most decimals, or as many as leave the greatest number 15 digits."""
    most = max(decimals for _, decimals in numbers)
    greatest = max(digits // 10**decimals for digits, decimals in numbers)
    return min(most, MOST_DIGITS - (len(str(greatest)) if greatest else 0))


def nanoseconds_of(text):
    """The nanoseconds of ISO 8601 with a zone, or of a number in the unit of dates of its size."""
    found = ISO.fullmatch(text)
    if found:
        seconds, part, zone = found.groups()
        date = datetime.datetime.fromisoformat(seconds + zone.replace("Z", "+00:00"))
        since = date - datetime.datetime(1970, 1, 1, tzinfo=datetime.timezone.utc)
        return (since.days * 86400 + since.seconds) * 10**9 + int((part or "").ljust(9, "0")[:9])
    return forms.nanoseconds_of(*decimal_of(text))


# Readers of samples


@dataclasses.dataclass
class Sample:
    """Texts of a number, of its group or None, of how often it comes, and of its time or None."""

    number: str
    group: str = None
    count: str = "1"
    time: str = None


def opened(name):
    return open(os.path.join(SAMPLES, name), encoding="utf-8", newline="")


def joined(texts):
    """One text, or several of which those with a space or a quotation mark are in quotation marks; None if there is none."""
    texts = list(texts)
    if len(texts) > 1:
        texts = ['"' + it.replace('"', '""') + '"' if " " in it or '"' in it else it for it in texts]
    return " ".join(texts) or None


def table(name, column, by=(), where=None, delimiter=",", time=None):
    """Rows of a table with names."""
    with opened(name) as file:
        for row in csv.DictReader(file, delimiter=delimiter):
            if where is None or row[where[0]] == where[1]:
                yield Sample(row[column], joined(row[it] for it in by), time=row.get(time))


def rows(name, column, by=(), where=None, count=None, time=None, split=shlex.split):
    """Rows without names, whose columns count from 0."""
    with opened(name) as file:
        for line in file:
            fields = split(line)
            if where is None or fields[where[0] : where[0] + 1] == [where[1]]:
                more = {} if count is None else {"count": fields[count]}
                more |= {} if time is None else {"time": fields[time]}
                yield Sample(fields[column], joined(fields[it] for it in by), **more)


def comma_rows(name, column, by=(), time=None):
    return rows(name, column, by, time=time, split=lambda line: next(csv.reader([line])))


def matches(name, pattern):
    """What the group of a regular expression matches in each line that has a match."""
    with opened(name) as file:
        for line in file:
            found = re.search(pattern, line.rstrip("\n"))
            if found:
                yield Sample(found[1])


def objects(name, path, by=(), where=None, time=None):
    """Lines of JSON, whose paths are as .data.value. A line without that of the number has none."""
    with opened(name) as file:
        for line in file:
            value = json.loads(line, parse_float=Decimal)
            if at(value, path) and (where is None or at(value, where[0]) == where[1]):
                group = joined(at(value, it) for it in by)
                yield Sample(at(value, path), group, time=time and at(value, time))


def at(value, path):
    """The text of a value by its path, or None."""
    for name in path.split(".")[1:]:
        value = value.get(name) if isinstance(value, dict) else None
    return None if value is None else str(value)


class Form:
    """What reads a sample, the unit of its numbers, and how its figures are printed."""

    def __init__(self, read, unit, output=None, percentiles=("50", "90", "99", "99.9")):
        self.read, self.unit, self.output, self.percentiles = read, unit, output, percentiles

    @functools.cached_property
    def samples(self):
        return list(self.read)

    @functools.cached_property
    def numbers(self):
        """The digits and the decimals of each sample's number."""
        return [number_of(it.number, self.unit) for it in self.samples]

    @property
    def is_grouped(self):
        return self.samples[0].group is not None
