"""A model of hdrstat: what the program prints of an input, by exact arithmetic and sorted samples."""
import dataclasses
import decimal
import re

NUMBER = re.compile(rb"\+?(\d+\.?\d*|\.\d+)(?:[eE]([+-]?\d+))?")
SPACE = b" \t\n\x0c\r"
MARK = b"\xef\xbb\xbf"
EXACT = decimal.Context(prec=10_000, Emax=decimal.MAX_EMAX, Emin=decimal.MIN_EMIN)
LIMIT = 1 << 64
MOST_DECIMALS = 18
# A unit has so many digits with the greatest number of those that begin in so many bytes
MOST_DIGITS, SURVEYED = 15, 65536
# The names of units of time, and how many of each are a second, as a power of ten, or how many seconds it is
UNITS = {"ns": 9, "us": 6, "ms": 3, "s": 0}
PART = re.compile("([0-9]+)(?:[.]([0-9]*))? ?(ns|us|\N{MICRO SIGN}s|\N{GREEK SMALL LETTER MU}s|ms|s|m|h)")


class Bad(Exception):
    """Why a text is no number that is counted."""


class Failure(Exception):
    """An error of the program: what it writes on standard error, and its status."""

    def __init__(self, text, status=1):
        super().__init__(text)
        self.text, self.status, self.dropped = text, status, []


def parse_number(text):
    """Returns the digits and the decimals of a number: 12.50 is 1250 by 2."""
    found = NUMBER.fullmatch(text.removeprefix(b"-"))
    if not found or text.startswith(b"-+"):
        raise Bad(cause_of(text))
    if text.startswith(b"-") and found[1].strip(b"0."):
        raise Bad("negative")
    exponent = int(found[2] or 0)
    mantissa = decimal.Decimal(found[1].decode(), EXACT)
    _, digits, scale = mantissa.as_tuple()
    digits, scale = int("".join(map(str, digits))), scale + exponent
    if not digits and scale > 0:
        return 0, 0
    if digits and len(str(digits)) + scale > 400:
        raise Bad("large")
    return (digits * 10**scale, 0) if scale >= 0 else (digits, -scale)


def parse_duration(text):
    """Returns a duration without sign in seconds, as digits and decimals, or None."""
    try:
        left, parts = text.decode(), []
    except UnicodeDecodeError:
        return None
    while found := PART.match(left):
        whole, fraction, name = found[1], found[2] or "", found[3]
        if len(whole + fraction) > 18:
            return None
        power = UNITS.get(name.replace("\N{MICRO SIGN}", "u").replace("\N{GREEK SMALL LETTER MU}", "u"), 0)
        parts.append((int(whole + fraction) * {"h": 3600, "m": 60}.get(name, 1), len(fraction) + power))
        left = left[found.end() :]
    if left or not 0 < len(parts) <= 6:
        return None
    most = max(decimals for _, decimals in parts)
    return sum(digits * 10 ** (most - decimals) for digits, decimals in parts), most


def parse(text, unit):
    """Returns the digits and the decimals of a number, or of a duration in a unit."""
    is_negative = text.startswith(b"-")
    seconds = parse_duration(text[1:] if text[:1] in (b"-", b"+") else text)
    if seconds is None:
        return parse_number(text)
    if unit is None:
        raise Bad("duration")
    digits, decimals = seconds
    if is_negative and digits:
        raise Bad("negative")
    fewer = min(UNITS[unit], decimals)
    return digits * 10 ** (UNITS[unit] - fewer), decimals - fewer


def cause_of(text):
    """Why a text is no number."""
    if text == b"-":
        return "dash"
    if re.fullmatch(rb"[+-]?(inf|infinity)", text, re.IGNORECASE):
        return "infinite"
    if b"," in text and re.fullmatch(rb"\d([\d,.]*\d)?", text):
        return "comma"
    return "blank" if b" " in text else "no number"


def decimals_of(numbers):
    """The decimals of a unit for numbers: the most, or as many as the greatest has in 15 digits."""
    most = max((decimals for _, decimals in numbers), default=0)
    whole = max((digits // 10**decimals if decimals <= len(str(digits)) else 0 for digits, decimals in numbers), default=0)
    return min(most, max(0, MOST_DIGITS - (len(str(whole)) if whole else 0)))


def surveyed(data):
    """The lines that begin in the first 64 KiB."""
    end = data.find(b"\n", SURVEYED - 1)
    return data if end < 0 else data[: end + 1]


def rounded(digits, decimals, to):
    """The number in units of so many decimals, halves up."""
    if decimals <= to:
        return digits * 10 ** (to - decimals)
    if decimals - to > len(str(digits)) + 1:
        return 0
    divisor = 10 ** (decimals - to)
    return (2 * digits + divisor) // (2 * divisor)


def class_of(value, sigfig, low=1):
    """The lowest and the greatest value of the class of a value."""
    unit = low.bit_length() - 1
    bits = (2 * 10**sigfig - 1).bit_length() if sigfig else 1
    shift = max(value.bit_length() - bits, unit)
    lowest = value >> shift << shift
    return lowest, lowest + (1 << shift) - 1


@dataclasses.dataclass
class Samples:
    """Counts of classes by their lowest value, with the exact extremes and sum where these are known."""

    sigfig: int = 3
    low: int = 1
    counts: dict = dataclasses.field(default_factory=dict)
    least: int = None
    greatest: int = None
    total: int = 0

    def add(self, value, count=1):
        lowest = class_of(value, self.sigfig, self.low)[0]
        self.counts[lowest] = self.counts.get(lowest, 0) + count
        self.least = value if self.least is None else min(self.least, value)
        self.greatest = value if self.greatest is None else max(self.greatest, value)
        self.total += value * count

    def len(self):
        return sum(self.counts.values())

    def at_rank(self, rank):
        """The greatest value of the class of the sample of this rank, counted from 1."""
        for lowest in sorted(self.counts):
            rank -= self.counts[lowest]
            if rank <= 0:
                return class_of(lowest, self.sigfig, self.low)[1]
        return 0

    def at(self, num, den):
        """The value at a quantile: that of the sample of rank ceil(num * len / den), and for 0 the first sample's."""
        count = self.len()
        if not count:
            return 0
        if not num:
            first = min(it for it, counted in self.counts.items() if counted)
            return min(max(first, self.least), self.greatest)
        return max(min(self.at_rank(max(1, -(-num * count // den))), self.greatest), self.least)

    def mean_of_classes(self):
        """The mean of the middles of classes, as a numerator over the number of samples."""
        total = 0
        for lowest, count in self.counts.items():
            top = class_of(lowest, self.sigfig, self.low)[1]
            total += count * (lowest + (top + 1 - lowest) // 2)
        return total


@dataclasses.dataclass
class Options:
    """The options of the input."""

    sigfig: int = 3
    decimals: int = None
    interval: tuple = (0, 0)
    column: bytes = None
    delimiter: bytes = None
    has_header: bool = True
    skips_bad: bool = False
    unit: str = None


class Tally:
    """The numbers of files."""

    def __init__(self, options):
        self.options, self.samples, self.skipped = options, Samples(options.sigfig), 0
        # The numbers as they were read: their digits and decimals, and their values in units; with the missing samples
        self.exact, self.lines_read, self.rounded = [], 0, 0
        self.dropped = []  # the files whose first row was taken as names, and these, if no column has a name
        self.set_decimals(options.decimals or 0)

    def set_decimals(self, decimals):
        self.decimals = decimals
        self.interval = min(rounded(*self.options.interval, decimals), LIMIT - 1)

    def survey(self, inputs, take):
        """Sets the decimals of a unit by inputs, each a name and bytes, unless they are an option."""
        if self.options.decimals is None:
            survey = Survey(self.options)
            for name, data in inputs:
                take(survey, name, data)
            self.set_decimals(min(max(decimals_of(survey.numbers), self.options.interval[1]), MOST_DECIMALS))

    def record(self, digits, decimals):
        value = rounded(digits, decimals, self.decimals)
        if value >= LIMIT:
            raise Bad("large")
        if decimals > self.decimals and digits and (decimals - self.decimals > len(str(digits)) or digits % 10 ** (decimals - self.decimals)):
            self.rounded += 1
        self.samples.add(value)
        self.exact.append((digits, decimals, value))
        self.lines_read += 1
        missing = value - self.interval
        while self.interval and missing >= self.interval:
            self.samples.add(missing)
            self.exact.append((missing, self.decimals, missing))
            missing -= self.interval

    def take(self, name, row, text):
        try:
            self.record(*parse(text, self.options.unit))
        except Bad as bad:
            self.refuse(name, row, text, str(bad), "row")

    def refuse(self, name, number, text, why, place="line"):
        if self.options.skips_bad:
            self.skipped += 1
            return
        raise Failure((name, f"{place} {number}", text, why, self.table_start))

    def refuse_open(self, name, number):
        """A quote that opens in this row is not closed, which no option ignores."""
        raise Failure((name, f"row {number}", b"", "open quote", None))

    table_start = None  # the delimiter and the first row of the table that is read

    def lines(self, name, data):
        """Takes a number a line."""
        for number, line in enumerate(data.split(b"\n"), 1):
            text = (line.removeprefix(MARK) if number == 1 else line).strip(SPACE)
            if not text or text.startswith(b"#"):
                continue
            try:
                self.record(*parse(text, self.options.unit))
            except Bad as bad:
                is_table = str(bad) in ("no number", "blank") and any(it in text for it in b",\t;")
                self.refuse(name, number, text, "table" if is_table else str(bad))

    def table(self, name, data):
        """Takes a column of a table."""
        options = self.options
        data = data.removeprefix(MARK)
        delimiter = options.delimiter or guess_delimiter(data)
        found, is_open = split_rows(data, delimiter)
        if not found:
            return
        if is_open and len(found) == 1:
            self.refuse_open(name, 1)
            return
        self.table_start = delimiter, found[0]
        names = [it.strip(SPACE) for it in found[0]]
        is_number = re.fullmatch(rb"\+?\d+", options.column) and 0 < int(options.column) < LIMIT
        is_named = options.has_header and options.column in names and not (is_number and int(options.column) <= len(names))
        if is_named:
            index = names.index(options.column)
        elif is_number:
            index = int(options.column) - 1
        else:
            raise Failure((name, options.column, found[0], "no column", None))
        if is_named and names.count(options.column) > 1:
            raise Failure((name, options.column, (index + 1, names.index(options.column, index + 1) + 1), "double name", None))
        drops_names = is_named or options.has_header and not has_number(found[0], index)
        for number, fields in enumerate(found, 1):
            if is_open and number == len(found):
                self.refuse_open(name, number)
                return
            if number == 1 and drops_names:
                continue
            if index >= len(fields):
                self.refuse(name, number, delimiter.join(fields), "no field", "row")
            else:
                self.take(name, number, fields[index].strip(SPACE))
        if drops_names and not is_named:
            self.dropped.append((name, found[0]))


class Survey(Tally):
    """The numbers that determine the decimals of a unit: those below 2^64."""

    def __init__(self, options):
        super().__init__(options)
        self.numbers = []

    def record(self, digits, decimals):
        if rounded(digits, decimals, 0) < LIMIT:
            self.numbers.append((digits, decimals))

    def refuse(self, name, number, text, why, place="line"):
        pass

    def refuse_open(self, name, number):
        pass


def has_number(fields, index):
    """Whether the field of a row is a number, at least one that is negative or too large."""
    try:
        return index < len(fields) and bool(parse(fields[index].strip(SPACE), None))
    except Bad as bad:
        return str(bad) not in ("no number", "blank", "dash", "infinite", "comma")


def guess_delimiter(data):
    first = data.split(b"\n")[0]
    if b"\t" in first:
        return b"\t"
    return b";" if b";" in first and b"," not in first else b","


def rows(data, delimiter):
    """The rows of a table."""
    return split_rows(data, delimiter)[0]


def split_rows(data, delimiter):
    """The rows of a table, and whether a quote of the last one is not closed: fields may be quoted, a doubled quote is one, and a quote that does not begin a field, or that ends one too
    early, is text. Rows end with LF, CR or CR LF, and empty lines are none."""
    found, fields, field, state, at = [], [], bytearray(), "start", 0
    while at < len(data):
        byte = data[at : at + 1]
        at += 1
        if state == "quoted":
            if byte != b'"':
                field += byte
            elif data[at : at + 1] == b'"':
                field += byte
                at += 1
            else:
                state = "text"
        elif byte in b"\r\n":
            if fields or field or state != "start":
                found.append([*fields, bytes(field)])
            fields, field, state = [], bytearray(), "start"
        elif byte == delimiter:
            fields.append(bytes(field))
            field, state = bytearray(), "field"
        elif byte == b'"' and state in ("start", "field"):
            state = "quoted"
        else:
            field += byte
            state = "text"
    if fields or field or state != "start":
        found.append([*fields, bytes(field)])
    return found, state == "quoted"


def decimal_text(units, decimals):
    if not decimals:
        return str(units)
    digits = str(units).rjust(decimals + 1, "0")
    return f"{digits[:-decimals]}.{digits[-decimals:]}"
