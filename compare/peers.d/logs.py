"""Random interval logs, and what each library reads of them."""
import versions
from model import Model

LEGEND = '"StartTimestamp","Interval_Length","Interval_Max","Interval_Compressed_Histogram"'
YEAR = 365 * 24 * 3600
TAGS = ["", "", "a", "read", "write.db", "p99-x", "caf\u00e9", "T", "0"]


def random_sample(rnd, high):
    """A value and its count."""
    value = rnd.randint(0, high) if rnd.random() < 0.5 else rnd.getrandbits(rnd.randint(1, high.bit_length() - 1))
    return value, rnd.choice([1, 1, 1, rnd.randint(2, 10 ** rnd.randint(1, 12))])


class Interval:
    def __init__(self, rnd, start, version, is_compressed):
        self.tag, self.start = rnd.choice(TAGS), start
        self.duration = rnd.choice([0, 1, 999, 1000, 1000, 60000, rnd.randint(0, 10**7)])
        self.version, self.is_compressed = version, is_compressed
        low, high = rnd.choice([(1, 3600000), (1, 1 << 40), (1000, 10**9), (3, 9999)])
        self.model = Model(low, high, rnd.randint(1, 3))
        self.samples = [random_sample(rnd, high) for _ in range(rnd.choice([0, 1, 3, 10, 40]))]
        for value, count in self.samples:
            self.model.record(value, count)
        self.model.closed()

    def line(self):
        tag = f"Tag={self.tag}," if self.tag else ""
        greatest = self.model.tops[-1] if self.model.tops else 0
        field = versions.field(self.model, self.version, self.is_compressed)
        return f"{tag}{seconds(self.start)},{seconds(self.duration)},{greatest}.0,{field}"


def seconds(millis):
    return f"{millis // 1000}.{millis % 1000:03}"


class Log:
    """A log: `parts` are pairs of a kind and its content, in the order of the lines."""

    def __init__(self, rnd):
        self.parts = []
        epoch = 1400000000000 + rnd.randrange(4 * 10**11)
        if rnd.random() < 0.95:
            self.parts.append(("comment", f"#[Histogram log format version 1.{rnd.randint(0, 3)}]"))
        if rnd.random() < 0.4:
            self.parts.append(("comment", "#[Logged by a test]"))
        self.is_absolute = rnd.random() < 0.4
        if rnd.random() < 0.6:
            self.parts.append(("start", epoch))
        if not self.is_absolute and rnd.random() < 0.7:
            self.parts.append(("base", epoch + rnd.choice([0, 0, rnd.randint(0, 10**6)])))
        if rnd.random() < 0.7:
            self.parts.append(("legend", LEGEND))
        self.add_intervals(rnd, epoch if self.is_absolute else rnd.choice([0, 0, rnd.randint(0, 10**7)]))

    def add_intervals(self, rnd, start):
        form = (rnd.choice([0, 1, 2, 2]), rnd.random() < 0.85)
        is_mixed, is_split = rnd.random() < 0.15, rnd.random() < 0.2
        for _ in range(rnd.randint(0, 8)):
            version, is_compressed = (rnd.choice([0, 1, 2]), rnd.random() < 0.85) if is_mixed else form
            interval = Interval(rnd, start, version, is_compressed)
            self.parts.append(("interval", interval))
            start += interval.duration
            if is_split and rnd.random() < 0.4:
                base = ("base", 1500000000000 + rnd.randrange(10**9))
                self.parts.append(rnd.choice([("blank", ""), ("comment", "# a comment"), base]))

    def lines(self):
        for kind, it in self.parts:
            if kind in ("start", "base"):
                name = "StartTime" if kind == "start" else "BaseTime"
                yield f"#[{name}: {seconds(it)} (seconds since epoch), Mon Jan 01 00:00:00 UTC 2018]"
            else:
                yield it.line() if kind == "interval" else it

    def text(self):
        return "".join(f"{line}\n" for line in self.lines())

    def intervals(self):
        return [it for kind, it in self.parts if kind == "interval"]

    def start_time(self):
        """The first start time, as it is printed."""
        return next((str(it) for kind, it in self.parts if kind == "start"), "")


def shown(interval, start, duration):
    samples = " ".join(f"{top}:{count}" for top, count in interval.model.recorded())
    return f" ;{interval.tag},{start},{duration},{samples}"


def exact(log):
    """What a reader of all forms prints: starts are sums with the base time before them."""
    found, base = log.start_time(), 0
    for kind, it in log.parts:
        if kind == "base":
            base = it
        if kind == "interval":
            found += shown(it, base + it.start, it.duration)
    return found + " ;end"


def in_rust(log):
    """The Rust crate: versions 0 and 1 are an error, and so is a blank line."""
    found, base = log.start_time(), 0
    for kind, it in log.parts:
        if kind == "blank":
            return found + " ;error", ["a blank line is an error"]
        if kind == "base":
            base = it
        if kind == "interval" and it.version != 2:
            return found + " ;error", ["versions 0 and 1 are an error"]
        if kind == "interval":
            found += shown(it, base + it.start, it.duration)
    return found + " ;end", []


def in_c(log):
    """HdrHistogram_c: its reader asks for a version, knows no base time, and takes comments only in the header."""
    reasons, found, is_header = [], log.start_time(), True
    if not any("version" in it for kind, it in log.parts if kind == "comment"):
        return " ;error", ["a log without a version is an error"]
    for kind, it in log.parts:
        is_header = is_header and kind not in ("interval", "blank", "legend")
        if kind == "base" and is_header:
            reasons = ["the base time is not added"]
        elif kind in ("comment", "base") and not is_header:
            return found + " ;error", [*reasons, "a later comment is an error"]
        elif kind == "interval" and not it.is_compressed:
            return found + " ;error", [*reasons, "a line that is not compressed is an error"]
        elif kind == "interval":
            found += shown(it, it.start, it.duration)
    return found + " ;end", reasons


class JavaTimes:
    """The start and base time of Java's reader, in seconds, as doubles."""

    def __init__(self):
        self.start = self.base = None

    def of(self, interval):
        """The start and the duration of an interval in milliseconds, as they are rounded down."""
        at = float(seconds(interval.start))
        if self.start is None:
            self.start = at
        if self.base is None:
            self.base = self.start if at < self.start - YEAR else 0.0
        start = at + self.base
        return int(start * 1000.0), int((start + float(seconds(interval.duration))) * 1000.0) - int(start * 1000.0)


def error_in_java(interval):
    """Why Java's reader ends with an error at an interval, or None."""
    if not interval.is_compressed:
        return "a line that is not compressed is an error"
    is_short = interval.version == 0 and versions.word_size(interval.model) < 8
    return "version 0 of 2 or 4 bytes is an error" if is_short else None


def in_java(log):
    """Java: a start time may be the base time, and without one the first start is it; times are rounded down."""
    reasons, found, times, base, end = set(), "", JavaTimes(), 0, " ;end"
    for kind, it in log.parts:
        if kind == "start":
            times.start = float(seconds(it))
        elif kind == "base":
            times.base, base = float(seconds(it)), it
        elif kind == "interval":
            start, duration = times.of(it)
            if error_in_java(it):
                reasons.add(error_in_java(it))
                end = " ;error"
                break
            if start not in (base + it.start, base + it.start - 1):
                reasons.add("the start time is added")
            elif (start, duration) != (base + it.start, it.duration):
                reasons.add("times in doubles, rounded down")
            found += shown(it, start, duration)
    if end == " ;end" and log.parts and log.parts[-1][0] == "blank":
        reasons.add("a blank last line is an error")
        end = " ;error"
    if header_of(times) != log.start_time():
        reasons.add("without a start time the first start is it")
    return header_of(times) + found + end, sorted(reasons)


def header_of(times):
    return str(round(times.start * 1000)) if times.start else ""


READERS = {"HdrHistogram_c": in_c, "Java": in_java, "Rust": in_rust}
