"""A model of what hdrstat page --text prints of what was slow or missing: the sentence, the incidents, what was tested and the level."""
import dataclasses
from fractions import Fraction

from cells import FEWEST_BLOCKS, IN_TAIL
from model import decimal_text
from verdict import TAILS

NAMED, FEWEST_ALIKE, SHORT, OUTLIER = 8, 4, 3, 8
MOST_TAGS, MOST_OVER, MOST_TIMES = 3, 5, 3
SPACE, LINE = "\N{NO-BREAK SPACE}", 80
UNITS = ("ns", "µs", "ms", "s")
UNIT_MS = tuple(Fraction(1000**it, 10**6) for it in range(4))
LONG, LONG_AT_AXIS = 10_000_000, 100_000
LENGTHS = ((86_400, "d"), (3_600, "h"), (60, "min"), (1, "s"))
MONTHS = "Jan Feb Mar Apr May Jun Jul Aug Sep Oct Nov Dec".split()
DAY, HOUR, CLOCK_FROM = 86_400_000, 3_600_000, 31_622_400_000


# Numbers


def decimal(number, is_trimmed=False):
    """Three significant digits, or an integer from 99.95 on; halves go to the even digit."""
    decimals = 0
    while decimals < 9 and round(number * 10 ** (decimals + 1)) < 1000:
        decimals += 1
    whole, part = divmod(round(number * 10**decimals), 10**decimals)
    digits = f"{part:0{decimals}d}" if decimals else ""
    digits = digits.rstrip("0") if is_trimmed else digits
    return f"{whole:,}.{digits}" if digits else f"{whole:,}"


def scientific(number):
    """From 1 up to 10, times a power of ten."""
    power = 0
    while number >= Fraction(9995, 10_000) * 10 ** (power + 1):
        power += 1
    return decimal(number / 10**power) + f"e{power}"


def value_text(value, unit):
    """A value in the longest unit of which it is one or more, by the index of its own unit."""
    number, shown = Fraction(value), unit
    while shown is not None and shown < 3 and number / 1000 >= Fraction(9995, 10_000):
        number, shown = number / 1000, shown + 1
    name = "" if unit is None else SPACE + UNITS[shown]
    if number >= LONG:
        return scientific(number) + name
    return (f"{value:,}" if shown == unit else decimal(number)) + name


def exact_text(value):
    """A value without rounding; many zeros at its end are an exponent."""
    digits = str(value).rstrip("0")
    zeros = len(str(value)) - len(digits)
    is_plain = value < LONG_AT_AXIS or len(digits) > 3 or not zeros
    return f"{value:,}" if is_plain else f"{int(digits):,}e{zeros}"


def label(value, unit):
    """A value without rounding in the longest unit of which it is a multiple."""
    while unit is not None and unit < 3 and value and value % 1000 == 0:
        value, unit = value // 1000, unit + 1
    return exact_text(value) + ("" if unit is None else SPACE + UNITS[unit])


def length_text(time):
    """A time in milliseconds, in two units at most."""
    if time < 10_000 and time % 1000:
        return decimal(Fraction(time, 1000), True) + SPACE + "s"
    rest, parts = (time + 500) // 1000, []
    for size, name in LENGTHS:
        if rest >= size or size == 1 and not parts:
            parts.append(f"{rest // size:,}{SPACE}{name}")
            rest %= size
        elif parts:
            break
    return SPACE.join(parts[:2])


def times_text(count):
    return " once" if count == 1 else f" {count:,} times"


def counted(count, what):
    return f"{count:,} {what}" + "s" * (count != 1)


def rate_text(rate):
    exact = Fraction(rate.samples * 1000, rate.time)
    return decimal(exact, True) if exact < 10 else f"{int(exact):,}"


def civil(time):
    """The year, month and day of milliseconds since the epoch."""
    days = time // DAY + 719_468
    era, day = divmod(days, 146_097)
    year = (day - day // 1460 + day // 36_524 - day // 146_096) // 365
    day -= 365 * year + year // 4 - year // 100
    month = (5 * day + 2) // 153
    day -= (153 * month + 2) // 5 - 1
    month = month + 3 if month < 10 else month - 9
    return year + 400 * era + (month <= 2), month, day


def date_text(time):
    """The day of milliseconds since the epoch, with its year."""
    year, month, day = civil(time)
    names = "January February March April May June July August September October November December".split()
    return f"{day} {names[month - 1]} {year}"


def hour_text(time):
    """The time of day of milliseconds since the epoch."""
    seconds = time // 1000 % 86_400
    return f"{seconds // 3600:02d}:{seconds // 60 % 60:02d}:{seconds % 60:02d}"


@dataclasses.dataclass
class Clock:
    """Writes times of a log that begins and ends at these, with fractions of a second if its intervals are usually shorter than one."""

    first: int
    last: int
    is_fine: bool

    def has_clock(self):
        return self.first >= CLOCK_FROM

    def text(self, time):
        since = time if self.has_clock() else time - self.first
        part = f".{since % 1000:03d}".rstrip("0") if self.is_fine and since % 1000 else ""
        return self.text_of(time, (since + (0 if self.has_clock() or self.is_fine else 500)) // 1000) + part

    def text_of(self, time, seconds):
        hours, minutes, seconds = seconds // 3600, seconds // 60 % 60, seconds % 60
        if self.has_clock():
            _, month, day = civil(time)
            date = f"{day} {MONTHS[month - 1]} " if self.first // DAY != self.last // DAY else ""
            return f"{date}{hours % 24:02d}:{minutes:02d}:{seconds:02d}"
        if self.last - self.first >= HOUR:
            return f"{hours}:{minutes:02d}:{seconds:02d}"
        return f"{minutes + 60 * hours}:{seconds:02d}"


# Which incidents are named


@dataclasses.dataclass
class Line:
    """Incidents by their indices: the heaviest, and all of them in order of time."""

    heaviest: int
    all: list


def start_of(incident):
    return incident.heaviest.start, incident.heaviest.tag


def alike_ones(incidents):
    """Lists of the short slow incidents of the same tags, the heaviest first, without those that are far heavier than their median."""
    found = {}
    for at, it in enumerate(incidents):
        if it.heaviest.is_slow() and len(it.heaviest.run) <= SHORT and not it.lasts():
            found.setdefault(tuple(sorted(it.tags())), []).append(at)
    for alike in found.values():
        while len(alike) >= FEWEST_ALIKE and incidents[alike[0]].weight() > OUTLIER * incidents[alike[len(alike) // 2]].weight():
            alike = alike[1:]
        if len(alike) >= FEWEST_ALIKE:
            yield alike


def named_lines(incidents):
    """The lines of incidents in order of time, how many incidents have none, and whether these are lighter than those with one."""
    groups = [Line(alike[0], sorted(alike, key=lambda at: start_of(incidents[at]))) for alike in alike_ones(incidents)]
    grouped = {at for it in groups for at in it.all}
    lines = groups + [Line(at, [at]) for at in range(len(incidents)) if at not in grouped]

    def order(line):
        it = incidents[line.heaviest]
        return not (it.has_stall() or it.heaviest.kind == "gap"), line.heaviest

    lines.sort(key=order)
    named, others = lines[:NAMED], lines[NAMED:]
    are_lighter = all(it.heaviest > max(one.heaviest for one in named) for it in others)
    return sorted(named, key=lambda it: start_of(incidents[it.heaviest])), sum(len(it.all) for it in others), are_lighter


# The lines of a page


@dataclasses.dataclass
class TagFigures:
    """The name of a tag, its samples, and their greatest value; at a level the value, and the highest one of its class."""

    name: str
    samples: int
    greatest: int
    at_level: int = 0
    lowest_at_level: int = 0
    highest_at_level: int = 0


@dataclasses.dataclass
class Page:
    """What the lines are of: the tags in order, the verdict, the clock, the index of the unit, a level, intervals coarser than the sums, and whether
    all intervals begin at one time."""

    tags: list
    verdict: object
    clock: Clock
    unit: int
    level: tuple = None
    amount: str = None
    coarser: int = 0
    intervals: int = 0
    is_instant: bool = False

    def __post_init__(self):
        self.named, self.others, self.are_lighter = named_lines(self.verdict.incidents)

    def value(self, value):
        return value_text(value, self.unit)

    def tag(self, index):
        return self.tags[index].name or ("all samples" if len(self.tags) == 1 else "(no tag)")

    def tag_names(self, indices):
        if len(indices) == len(self.tags) > 1:
            return "all tags"
        more = len(indices) - MOST_TAGS
        return ", ".join(map(self.tag, indices[:MOST_TAGS])) + (f" and {more} more" if more > 0 else "")

    def where(self, what, incidents):
        """The letter of the first of incidents, by index, or nothing if it has none."""
        return next((f", {what} {chr(65 + at)}" for at, it in enumerate(self.named) if incidents[:1] and incidents[0] in it.all), "")

    def letters(self, what, incidents):
        """The letters of incidents, by index, or nothing if none has one."""
        letters = [chr(65 + at) for at, it in enumerate(self.named) if any(one in it.all for one in incidents)]
        return f", {what} {', '.join(letters)}" if letters else ""

    def indices(self, is_of):
        return [at for at, it in enumerate(self.verdict.incidents) if is_of(it)]

    # The sentence

    def slow_text(self):
        slow = self.indices(lambda it: it.heaviest.is_slow())
        if not slow:
            return "no slow time found"
        text = "slow" + times_text(len(slow))
        if len(slow) > 1:
            text += self.letters("stalled in", self.indices(self.is_stalled)) or self.where("heaviest", slow)
        lasting = [it.tag for at in slow for it in self.verdict.incidents[at].episodes if it.lasts]
        return text + (f", still at the end: {self.tag_names(list(dict.fromkeys(lasting)))}" if lasting else "")

    def missing_text(self):
        missing, gaps = self.indices(lambda it: not it.heaviest.is_slow()), self.indices(lambda it: self.kind(it) == "No samples")
        if not missing:
            return ""
        where = (self.letters("no samples in", gaps) or self.where("heaviest", missing)) if len(missing) > 1 else ""
        return "; samples missing" + times_text(len(missing)) + where

    def greatest_text(self):
        greatest = max(it.greatest for it in self.tags)
        return f"Max {self.value(greatest)} in {self.tag_names([at for at, it in enumerate(self.tags) if it.samples and it.greatest == greatest])}."

    def over_text(self, at):
        """A tag over the level, or one that may be, and when it was."""
        tag = self.tags[at]
        if tag.lowest_at_level <= self.level[2]:
            return f"; {self.tag(at)} may be over: the class of its value ends at {label(tag.highest_at_level, self.unit)}"
        spans = [] if self.is_instant else self.verdict.tags[at].over
        times = " and ".join(f"{self.clock.text(start)} for {length_text(end - start)}" for start, end in spans[:MOST_TIMES])
        more = len(spans) - MOST_TIMES
        times += f" and {counted(more, 'more time')}" if more > 0 else ""
        return f"; {self.tag(at)} {self.value(tag.at_level)}" + (f", broken from {times}" if times else "")

    def level_text(self):
        if not self.level:
            return ""
        num, den, value = self.level
        others = [at for at, it in enumerate(self.tags) if it.highest_at_level > value]
        others.sort(key=lambda at: (-self.tags[at].at_level, at))
        percent = decimal_text(round(Fraction(den - num, den) * 10**10), 8).rstrip("0").rstrip(".")
        text = f" {len(self.tags) - len(others):,} of {counted(len(self.tags), 'tag')} within p{percent} {self.amount or label(value, self.unit)}"
        more = len(others) - MOST_OVER
        return text + "".join(map(self.over_text, others[:MOST_OVER])) + (f"; and {more} more" if more > 0 else "") + "."

    def sentence(self):
        samples, length = sum(it.samples for it in self.tags), self.clock.last - self.clock.first
        time = f" in {length_text(length)}" if length else ""
        if not samples:
            return f"No samples{time}."
        head = f"{counted(samples, 'sample')}{time}, {counted(len(self.tags), 'tag')}: "
        return head + self.slow_text() + self.missing_text() + ". " + self.greatest_text() + self.level_text()

    def coarser_text(self):
        which, whose = ("is", "its") if self.coarser == 1 else ("are", "their")
        text = f"{self.coarser:,} of {self.intervals:,} intervals {which} coarser than 3 digits: {whose} samples"
        return f"{text} count as the lowest values of their classes."

    # The incidents

    def rise_text(self, rise):
        text = f"{rise.name} {self.value(rise.usual)} -> {self.value(rise.value)}"
        tenths = (10 * rise.value + rise.usual // 2) // rise.usual if rise.usual else 0
        part = f".{tenths % 10}" if tenths < 100 else ""
        return text + (f" ({tenths // 10:,}{part} times)" if rise.usual else "")

    def slowness(self, incident):
        first = incident.heaviest
        most = max(first.rises, key=lambda it: (it.value + 1) * 1000 // (it.usual + 1))
        shown = [it for it in first.rises if it is first.rises[0] or it is most]
        text = "".join(f", {self.rise_text(it)}" for it in shown) + (f" in {self.tag(first.tag)}" if len(incident.episodes) > 1 else "")
        if not first.rates:
            return text
        rate, usual = first.rates
        part = f" for {length_text(rate.time)}" if rate.time < first.end - first.start else ""
        return f"{text}; samples/s {rate_text(usual)} -> {rate_text(rate)}{part}"

    def was_stalled(self, one):
        """Whether a tag had no samples, and then a percentile took half of this time, as far as the unit is known."""
        if one.kind != "stall" or self.unit is None:
            return one.kind == "stall"
        return max(it.value for it in one.rises) * UNIT_MS[self.unit] >= (one.end - one.start) // 2

    def is_stalled(self, incident):
        return any(map(self.was_stalled, incident.episodes))

    def kind(self, incident):
        """What happened in all tags of an incident, or in some."""
        if not incident.heaviest.is_slow():
            are_empty = [it.kind == "gap" and not it.rates[0].samples for it in incident.episodes]
            return "No samples" if all(are_empty) else "No or fewer samples" if are_empty[0] else "Fewer samples"
        if self.is_stalled(incident):
            return "Stalled" if all(map(self.was_stalled, incident.episodes)) else "Stalled or slow"
        return "No samples and then slow" if all(it.kind == "stall" for it in incident.episodes) else "Slow"

    def span(self, one):
        until = ", until the end" if one.lasts else ""
        return f"from {self.clock.text(one.start)} for {length_text(one.end - one.start)}{until}"

    def other_times(self, incident):
        """When the episodes other than the heaviest were, if they were at other times."""
        first, *others = incident.episodes
        if all((it.start, it.end, it.lasts) == (first.start, first.end, first.lasts) for it in others):
            return ""
        if len(others) == 1:
            return f"; in {self.tag(others[0].tag)} {self.span(others[0])}"
        until = ", until the end" if any(it.lasts for it in others) else ""
        start, end = min(it.start for it in others), max(it.end for it in others)
        return f"; in others between {self.clock.text(start)} and {self.clock.text(end)}{until}"

    def incident(self, incident):
        """What an incident is, when, for how long, of which tags, how bad, and when others were."""
        first = incident.heaviest
        kind = self.kind(incident)
        text = f"{kind} {self.span(first)}: {self.tag_names(incident.tags())}"
        if first.is_slow():
            return text + self.slowness(incident) + self.other_times(incident)
        rate = f", {rate_text(first.rates[0])}/s" if kind == "Fewer samples" else ""
        where = f" in {self.tag(first.tag)}" if len(incident.episodes) > 1 else ""
        return f"{text}{rate} (usually {rate_text(first.rates[1])}/s{where}){self.other_times(incident)}"

    def group(self, line):
        """How many incidents are alike, how long they are and how often they come."""
        all_of = [self.verdict.incidents[at] for at in line.all]
        strides = sorted(after.heaviest.start - it.heaviest.start for it, after in zip(all_of, all_of[1:]))
        longest = length_text(max(it.end - it.start for one in all_of for it in one.episodes))
        median = strides[len(strides) // 2]
        every = f", about every {length_text(median)}" if 2 * strides[0] >= median and strides[-1] <= 2 * median else ""
        return f"{len(all_of):,} times, each {longest} at most{every}; heaviest: "

    def incident_lines(self):
        for at, line in enumerate(self.named):
            yield f"{chr(65 + at)} {self.group(line) if len(line.all) > 1 else ''}{self.incident(self.verdict.incidents[line.heaviest])}"
        if self.others:
            yield f"and {self.others} more" + (", none heavier than these" if self.are_lighter else "")

    # What was tested

    def tested_text(self):
        tags, whole, part, none = len(self.tags), [], [], []
        for name, (num, den) in TAILS.items():
            count, fewest = sum(name in it.tested for it in self.verdict.tags), f"(it takes {IN_TAIL * FEWEST_BLOCKS * den // num:,} samples or more)"
            if count == tags:
                whole.append(name)
            elif count:
                part.append(f"{name} of {count} of {tags} tags {fewest}")
            else:
                none.append(f"{name} {fewest}")
        text = ", ".join(whole) + (f" of all {tags} tags" if whole and tags > 1 else "")
        text = "; ".join([*([text] if text else []), *part]) or "nothing"
        if all(it.cells < FEWEST_BLOCKS for it in self.verdict.tags):
            return f"Tested: {text}; nothing can be usual in fewer than {FEWEST_BLOCKS} intervals. "
        return f"Tested: {text}" + (f". Too few samples for {', '.join(none)}" if none else "") + ". "

    def rule_text(self):
        return (
            "Slow: such a percentile is 3/2 of its usual value (its lower quartile over time) over 8 intervals or more, 2 times over 4, 3 over 2, "
            f"or 4 times in one, by as much as {self.verdict.bar} samples that are all above. "
            "Missing: none, or at most half of the usual samples a second over 8 intervals or more, or a fifth over 3, beyond chance. "
        )

    def zone_text(self):
        if not self.clock.has_clock():
            return "Times are since the start, as the log has no clock time."
        first, last = self.clock.first, self.clock.last
        begun = f", {date_text(first)}," if first // DAY != last // DAY else ""
        return f"{hour_text(first)}{begun} to {hour_text(last)} UTC, {date_text(last)}."

    def lines(self):
        yield "Interval log"
        yield self.sentence()
        if self.coarser:
            yield self.coarser_text()
        yield from self.incident_lines()
        if not self.intervals:
            return
        has_samples = any(it.samples for it in self.tags)
        yield (self.tested_text() + self.rule_text() if has_samples else "") + self.zone_text()

    def text(self):
        return "".join(map(wrapped, self.lines()))


def wrapped(line):
    """A line, broken at spaces."""
    out, column = "", 0
    for word in line.split(" "):
        if column and column + len(word) >= LINE:
            out, column = out + "\n", 0
        if column:
            out, column = out + " ", column + 1
        out, column = out + word, column + len(word)
    return out + "\n"
