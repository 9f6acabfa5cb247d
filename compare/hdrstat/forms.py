"""A model of groups, weights, conditions and times of rows, for numbers of the same decimals."""
import base64
import dataclasses
from fractions import Fraction

from inputs import FORMATS, figures
from levels import UNITS, Known, checked_line, status_of
from log_inputs import TAGGED, shown_tag
from logs import decode
from model import Bad, Options, Samples, Tally, class_of, decimal_text, parse_number, rounded

MOST_GROUPS = 1000
# The dates below these numbers are in these units
DATES = [(10**11, "s"), (10**14, "ms"), (10**17, "us")]


@dataclasses.dataclass
class Record:
    """The texts of a row, of a line of JSON or of a match, each None if it does not have it."""

    number: bytes
    groups: tuple = ()
    count: bytes = b"1"
    # The nanoseconds of its time, or None if that is invalid
    time: int = 0
    # Whether it meets the conditions
    is_chosen: bool = True


class Group:
    """The numbers of a group in units of so many decimals, as figures and levels see them."""

    def __init__(self, name, decimals, sigfig=3):
        self.name, self.decimals, self.samples, self.exact = name, decimals, Samples(sigfig), []

    def add(self, number, count):
        self.samples.add(rounded(*number, self.decimals), count)
        exact = Fraction(number[0], 10 ** number[1])
        self.exact.append(Known(exact, exact, count))

    def mean_ends(self, _):
        """The least and the greatest that the mean may be: a number that was rounded is off by half a unit at most."""
        scale = 10**self.decimals
        total, count = (sum(it) for it in zip(*((self.units_of(known) * known.count, known.count) for known in self.exact)))
        off = -(-sum(it.count for it in self.exact if self.units_of(it) != it.low * scale) // 2)
        return Fraction(max(total - off, 0), count * scale), Fraction(total + off, count * scale)

    def mean(self):
        """The mean of the numbers as they are rounded, in units."""
        count = sum(it.count for it in self.exact)
        return Fraction(sum(self.units_of(it) * it.count for it in self.exact), count) if count else None

    def units_of(self, known):
        return (known.low * 10**self.decimals + Fraction(1, 2)).__floor__()

    def greatest_within(self, level):
        return max(self.units_of(it) for it in self.exact if level.is_within(it.low))

    def tally(self):
        tally = Tally(Options(self.samples.sigfig))
        tally.samples, tally.decimals, tally.interval = self.samples, self.decimals, 0
        return tally


@dataclasses.dataclass
class Read:
    """The groups of an input in order of their first numbers, and how many rows were skipped."""

    groups: dict
    skipped: int = 0
    has_error: bool = False
    # The note if a choice of lines has left none
    none_chosen: str = ""


def joined(groups):
    """The text of a row's group: its fields, joined by spaces, or None without one of them. Of several, those with a space or a quotation
    mark are in quotation marks."""
    if None in groups:
        return None
    if len(groups) > 1:
        groups = [b'"' + it.replace(b'"', b'""') + b'"' if b" " in it or b'"' in it else it for it in groups]
    return b" ".join(groups)


def number_of(record):
    """The number, its group and its weight, or Bad."""
    group = joined(record.groups)
    if record.number is None or record.count is None or group is None:
        raise Bad("no field")
    if record.time is None:
        raise Bad("no time")
    if not record.count.isdigit():
        raise Bad("no count")
    return parse_number(record.number), group, int(record.count)


def read_records(records, decimals, skips_bad, sigfig=3, key=lambda record, group: group):
    """Reads records into groups. A bad one is skipped, or is an error."""
    read = Read({})
    names = set()
    for record in records:
        if not record.is_chosen:
            continue
        try:
            number, name, count = number_of(record)
        except Bad:
            if not skips_bad:
                return Read({}, 0, True)
            read.skipped += 1
            continue
        names.add(name)
        if len(names) > MOST_GROUPS:
            return Read({}, 0, True)
        found = key(record, name)
        read.groups.setdefault(found, Group(name, decimals, sigfig)).add(number, count)
    return read


def decimals_of_records(records):
    """The most decimals of the numbers that are found, also where a row has no group or time. They have 15 digits or fewer."""
    found = [0]
    for record in records:
        try:
            found.append(number_of(dataclasses.replace(record, groups=(), time=0))[0][1] if record.is_chosen else 0)
        except Bad:
            pass
    return max(found)


def numbers_read(read):
    return sum(len(group.exact) for group in read.groups.values())


def note_of(read):
    if read.none_chosen and not read.groups and not read.skipped:
        return f"hdrstat: {read.none_chosen}\n".encode()
    return f"hdrstat: bad lines skipped: {read.skipped}\n".encode() if read.skipped else b""


# Figures and levels


def summary_of(read, form, percentiles, is_grouped, decimals):
    """Standard output of summary."""
    groups = list(read.groups.values())
    if is_grouped:
        rows = [(it.name or None, figures(it.tally(), percentiles)) for it in groups]
        return TAGGED[form](rows).encode()
    group = groups[0] if groups else Group(b"", decimals)
    return FORMATS[form](figures(group.tally(), percentiles)).encode()


def levels_of(read, levels, is_grouped):
    """Standard output of check, and its status."""
    lines, verdicts = [], []
    unnamed = ["(no tag)"] if any(it.name for it in read.groups.values()) else []
    for group in read.groups.values():
        for level in levels:
            verdict, rest = checked_line(level, group.exact, group, None)
            verdicts.append(verdict)
            name = [group.name.decode()] if group.name else unnamed
            lines.append(" ".join([verdict, level.text, rest, *(name if is_grouped else [])]) + "\n")
    return "".join(lines).encode(), status_of(verdicts)


# Times


def nanoseconds_of(digits, decimals, unit=None):
    """The nanoseconds of a time in a unit, or in the one that its size has as a date."""
    number = Fraction(digits, 10**decimals)
    unit = unit or next((unit for bound, unit in DATES if number < bound), "ns")
    return (number * 10 ** (9 - UNITS[unit]) + Fraction(1, 2)).__floor__()


def tag_in_log(name):
    """A group in a log, where a tag ends at a comma or a blank."""
    for byte in b"%, \r\n":
        name = name.replace(bytes([byte]), b"%%%02X" % byte)
    return b"Tag=%s," % name if name else b""


class Printed:
    """In which part of a printed log an interval is: a part ends when an interval begins that is later than all before."""

    def __init__(self):
        self.latest, self.parts, self.late = None, 0, 0

    def part_of(self, start):
        if self.latest is None or start > self.latest:
            self.parts += self.latest is not None
            self.latest = start
        elif start < self.latest and self.parts:
            self.late += 1
        return self.parts

    def note(self):
        if not self.late:
            return b""
        if self.late == 1:
            return b"hdrstat: 1 number came after its interval had ended; gather --unsorted puts it in its place\n"
        return b"hdrstat: %d numbers came after their intervals had ended; gather --unsorted puts them in place\n" % self.late


class Written:
    """The first parts of a log that is printed as it is read, equal to an output that has them, each in order of time."""

    def __init__(self, read, length, parts):
        self.parts = [[] for _ in range(parts)]
        for (start, _, part), group in read.groups.items():
            times = [seconds(start), seconds(length), top_of(group.samples)]
            head, counts = tag_in_log(group.name) + b",".join(times), group.samples.counts
            if part < parts:
                self.parts[part].append((head, group.samples.sigfig, sorted(counts.items())))

    def __eq__(self, other):
        lines = [it for it in other.split(b"\n")[:-1] if not it.startswith(b"#")]
        for part in self.parts:
            first, lines = lines[: len(part)], lines[len(part) :]
            starts = [Fraction(it.split(b",")[it.startswith(b"Tag=")].decode()) for it in first]
            if starts != sorted(starts) or sorted(part) != sorted(line_of(it) for it in first):
                return False
        return not lines

    def __repr__(self):
        return repr(self.parts)


def seconds(milliseconds):
    return decimal_text(milliseconds, 3).encode()


def top_of(samples):
    """The top of the class of the greatest value."""
    return b"%d.000" % class_of(samples.greatest, samples.sigfig)[1]


def line_of(line):
    head, _, field = line.rpartition(b",")
    samples = decode(base64.b64decode(field))
    return head, samples.sigfig, sorted(samples.counts.items())


class Paged:
    """The rows of page --intervals without incidents, as an output has them in order of time."""

    NAMES = b"start,tag,length,count,50%,90%,99%,99.9%,100%,incident"
    TAILS = [(50, 100), (90, 100), (99, 100), (999, 1000), (1, 1)]

    def __init__(self, read, length):
        self.rows = []
        for (start, _), group in read.groups.items():
            times = [seconds(start).decode(), shown_tag(group.name), seconds(length).decode()]
            tails = (decimal_text(int(it), group.decimals) for it in tails_of(group.samples, self.TAILS))
            self.rows.append([*times, str(group.samples.len()), *tails])
        self.rows.sort()

    def __eq__(self, other):
        names, _, rows = other.partition(b"\n")
        came = [row.decode().split(",")[:-1] for row in rows.splitlines()]
        starts = [Fraction(it[0]) for it in came]
        return names == self.NAMES and starts == sorted(starts) and self.rows == sorted(came)

    def __repr__(self):
        return repr(self.rows)


def tails_of(samples, tails):
    """The tops of the classes of quantiles."""
    return [str(samples.at_rank(max(1, -(-num * samples.len() // den)))) for num, den in tails]

