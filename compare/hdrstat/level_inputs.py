"""Random samples for hdrstat check --ci, with what the model prints."""
import dataclasses
import math
from collections import Counter
from fractions import Fraction

import runs
from inputs import Case
from levels import Known, Level, LogTally, at_rank, checked_line, classes_of, is_level_in_each_unit, level_near, rank_of, status_of, value_of
from log_inputs import case_of, coarser_text, field_of, no_tag, notes_text
from logs import sums
from model import UNITS, Options, Samples, Tally, decimal_text, rounded
from run_inputs import interval_of, numbers_of, text_of, with_missing

NAMES = ["p50", "p50", "p50", "p25", "p75", "p90", "p90", "p99", "p99", "p99.9", "p1", "p33.3333", "p99.99", "p0", "p100", "count", "min", "max"]


@dataclasses.dataclass
class Part:
    """Samples of a tag, or of all: as they are known, as histograms have them, and in batches."""

    tag: str
    known: list
    tally: object
    batches: list
    is_ordered: bool
    sigfig: int

    def run(self):
        return runs.Samples(self.batches, self.tally.decimals, self.sigfig, "", self.is_ordered) if self.known else None


class Counted:
    """What levels see of numbers."""

    def __init__(self, numbers, decimals, sigfig):
        self.decimals, self.numbers, self.samples = decimals, numbers, Samples(sigfig)
        for _, units in numbers:
            self.samples.add(units)

    def greatest_within(self, level):
        return max(units for number, units in self.numbers if level.is_within(number))


# Verdicts


def interval_line(level, part, run, tier):
    """The verdict on a percentile by its interval, and what follows it."""
    quantile, count = level.quantile(), sum(it.count for it in part.known)
    sure = sum(it.count for it in part.known if level.is_within(it.high))
    perhaps = sum(it.count for it in part.known if level.is_within(it.low))
    most = math.floor(level.bound * 10**part.tally.decimals)
    most -= not level.is_within(Fraction(most, 10**part.tally.decimals))
    found = run.verdict((quantile.numerator, quantile.denominator), tier, most if most >= 0 else None, sure, perhaps)
    verdict = found if isinstance(found, str) else "kept" if found == level.is_upper() else "broken"
    value = value_of(level, part.tally, at_rank(part.known, rank_of(level, count), lambda it: it.high))
    needs = f" needs {runs.needed((quantile.numerator, quantile.denominator), tier)}" if verdict == "few" else ""
    return verdict, decimal_text(value, part.tally.decimals) + needs


def checked_part(levels, part, tier):
    """The verdict on each level, and what follows it."""
    run, lines = part.run(), []
    for level in levels:
        if run and level.name[0] == "p" and 0 < level.quantile() < 1:
            lines.append(interval_line(level, part, run, tier))
        else:
            lines.append(checked_line(level, part.known, part.tally, None))
    return lines


def printed(levels, parts):
    """The lines, and the status."""
    tier, text, verdicts = runs.tier_of(len(levels)), "", []
    for part in parts:
        for level, (verdict, rest) in zip(levels, checked_part(levels, part, tier)):
            verdicts.append(verdict)
            text += f"{verdict} {level.text} {rest}{no_tag([it.tag for it in parts]) if part.tag is None else ' ' + part.tag}\n"
    return text.encode(), status_of(verdicts)


def random_levels(random, parts, unit):
    """Levels near the samples of their percentiles, or near those at the ends of their intervals."""
    levels, parts = [], [(it, it.run()) for it in parts if it.known]
    many = random.choice([1, 1, 2, 4, 5, 6, 12, 51]) if random.random() < 0.98 else 501
    for _ in range(many):
        (part, run), name = random.choice(parts), random.choice(NAMES)
        count, decimals = run.count, part.tally.decimals
        if name == "count":
            value, decimals = count, 0
        else:
            rank = random_rank(random, name, run, runs.tier_of(many))
            value = int(at_rank(part.known, min(max(rank, 1), count), lambda it: it.low) * 10**decimals)
        levels.append(level_near(random, name, value, decimals, unit))
    levels = [it for it in levels if it]
    return levels or [level_near(random, "count", 1, 0, None)]


def random_rank(random, name, run, tier):
    """A rank near the figure's, or at an end of its interval, or beside it."""
    share = float(name[1:]) / 100 if name[0] == "p" else name == "max"
    if 0 < share < 1 and random.random() < 0.6:
        quantile = Level("", name, "<", None).quantile()
        quantile = quantile.numerator, quantile.denominator
        ends = [it for it in run.ranks(quantile, tier, run.point(quantile, tier).independent) if it]
        if ends:
            return random.choice(ends) + random.choice([-1, 0, 0, 1])
    return round(run.count * share + random.uniform(-6, 6) * math.sqrt(run.count * share * (1 - share)) * random.choice([1, 1, 2, 5]))


def without_interval(random, levels):
    """The arguments, at times with a level that has no interval."""
    texts = [it.text for it in levels]
    if random.random() < 0.03:
        texts.insert(random.randint(0, len(texts)), random.choice(["mean<5", "p99.99999<5", "p12.345678>=0"]))
        return texts, False
    return texts, True


# Numbers


def many_numbers(random):
    """Numbers as of runs, mostly enough for intervals."""
    return max((numbers_of(random) for _ in range(random.choice([1, 3, 4]))), key=len)


def digits_for(random, numbers):
    """Significant digits, with which an unproved program takes seconds at most."""
    return random.choice([3, 3, 3, 2, 1, 0] + [5] * (max(numbers) < 10**6))


def part_of_numbers(tag, files, decimals, places, sigfig, interval, is_counted=False):
    """Numbers of files in units of so many decimals, which are rounded to so many places."""
    lists = [[(Fraction(it, 10**decimals), rounded(it, decimals, places)) for it in numbers] for numbers in files]
    ascends = any(one < other for numbers in lists for (_, one), (_, other) in zip(numbers, numbers[1:]))
    descends = any(one > other for numbers in lists for (_, one), (_, other) in zip(numbers, numbers[1:]))
    is_ordered = ascends == descends and not is_counted
    parts = []
    for batch in runs.batches_of([it for numbers in lists for it in numbers]):
        parts.append([])
        for number, units in batch:
            parts[-1] += [(number, units)] + [(Fraction(it, 10**places), it) for it in with_missing(units, interval)[1:]]
    every = [it for batch in parts for it in batch]
    known = [Known(number, number, count) for number, count in Counter(number for number, _ in every).items()]
    batches = [[units for _, units in batch] for batch in (parts if is_ordered else [every])]
    return Part(tag, known, Counted(every, places, sigfig), batches, is_ordered, sigfig)


def number_levels(random):
    """Numbers of a file or two, of the groups of a table, or with how often each counts."""
    decimals = random.choice([0, 0, 1, 3])
    places = random.randint(0, decimals) if random.random() < 0.2 else decimals
    unit = random.choice([None, None, *UNITS])
    kind, numbers = random.choice(["one", "one", "two", "groups", "counts"]), many_numbers(random)
    sigfig = digits_for(random, numbers)
    interval = interval_of(random, [numbers]) if kind in ("one", "two") and places == decimals else 0
    arguments = ["check", "--ci", "-d", str(sigfig), *(["--unit", unit] if unit else [])]
    arguments += ["--decimals", str(places)] if places < decimals else []
    arguments += ["--expected-interval", decimal_text(interval, decimals)] if interval else []
    if kind == "groups":
        tags = random.choices("abc", k=len(numbers)) if random.random() < 0.5 else ["a" if at % 50 < 20 else "b" for at in range(len(numbers))]
        data = "n,who\n" + "".join(f"{decimal_text(it, decimals)},{tag}\n" for it, tag in zip(numbers, tags))
        arguments += ["-c", "n", "--by", "who"]
        each = {tag: [it for it, own in zip(numbers, tags) if own == tag] for tag in dict.fromkeys(tags)}
        parts = [part_of_numbers(tag, [own], decimals, places, sigfig, 0) for tag, own in each.items()]
        files, stdin = {}, data.encode()
    elif kind == "counts":
        times = [random.choice([1, 1, 2, 7, 0]) for _ in numbers]
        times[0] = max(times[0], 1)
        stdin = ("n,times\n" + "".join(f"{decimal_text(it, decimals)},{many}\n" for it, many in zip(numbers, times))).encode()
        arguments += ["-c", "n", "--count", "times"]
        every = [it for it, many in zip(numbers, times) for _ in range(many)]
        files, parts = {}, [part_of_numbers(None, [every], decimals, places, sigfig, 0, True)]
    else:
        lists = [numbers]
        if kind == "two":
            lists = [numbers[: len(numbers) // 3], numbers[len(numbers) // 3 :]]
        parts = [part_of_numbers(None, lists, decimals, places, sigfig, interval)]
        files = {name: text_of(it, decimals) for name, it in zip("ab", lists)} if kind == "two" else {}
        stdin = b"" if files else text_of(numbers, decimals)
    levels = random_levels(random, parts, unit)
    texts, are_valid = without_interval(random, levels)
    arguments += [word for name in files for word in ("-i", name)] + texts
    if not are_valid:
        return Case(arguments, stdin, files, (b"", None, 2))
    out, status = printed(levels, parts)
    return Case(arguments, stdin, files, (out, b"", status))


# Logs


def random_log(random, numbers):
    """The intervals of some tags, which have numbers in turns."""
    tags, decimals, lines, at = random.choice([[None], [None], [b"a", b"b"], [b"a", None, b"b"]]), random.choice([0, 0, 3]), [], 0
    lines += [b"#[Values have %d decimals]" % decimals] if decimals else []
    sigfig, most = digits_for(random, numbers), random.choice([1, 5, 40, 400])
    while numbers:
        samples = Samples(sigfig if random.random() < 0.95 else 1, random.choice([1, 1, 1, 1, 8]) if random.random() < 0.2 else 1)
        taken = random.randint(0, 2 * most)
        for it in numbers[:taken]:
            samples.add(it)
        numbers, tag = numbers[taken:], random.choice(tags) if random.random() < 0.2 else tags[at % len(tags)]
        head = b"Tag=%s," % tag if tag else b""
        lines.append(head + b"%d.000,1.000,1.000," % at + field_of(Plain(random), samples))
        at += 1
    return b"".join(line + b"\n" for line in lines)


class Plain:
    """A source of random choices by which no field is damaged or of another form."""

    def __init__(self, random):
        self.choice = random.choice

    def random(self):
        return 1.0


def log_levels(random):
    numbers = many_numbers(random)
    text = random_log(random, numbers)
    logs = {"standard input": text}
    if random.random() < 0.3:
        lines = text.splitlines(keepends=True)
        head = [it for it in lines[:1] if it[:1] == b"#"]
        half = random.randint(len(head), len(lines))
        logs = {"one": b"".join(lines[:half]), "two": b"".join([*head, *lines[half:]])}
    sigfig, by_tag, unit, notes, classes = digits_for(random, numbers), random.random() < 0.4, random.choice([None, None, *UNITS]), {}, {}
    arguments = ["check", "--ci", "--from", "log", "-d", str(sigfig), *(["--unit", unit] if unit else []), *(["--by-tag"] if by_tag else [])]
    found, coarser, decimals, chosen = sums(logs, sigfig, by_tag, notes, {}, classes)
    parts = []
    for tag, total in found.items():
        each = classes[tag]
        # Intervals without samples are in no batch
        some = [one for one in each if one.counts]
        batches = [[low for one in batch for low, count in one.counts.items() for _ in range(count)] for batch in runs.batches_of(some)]
        known = [it for one in each for it in classes_of(one, decimals)]
        parts.append(Part(tag.decode() if tag is not None else None, known, LogTally(total, decimals), batches, True, sigfig))
    levels = random_levels(random, parts, unit)
    texts, are_valid = without_interval(random, levels)
    if not are_valid or not all(is_level_in_each_unit(it, unit) for it in levels):
        return case_of([*arguments, *texts], logs, (b"", None, 2), ["-i"])
    out, status = printed(levels, parts)
    return case_of([*arguments, *texts], logs, (out, notes_text(notes, logs) + coarser_text(coarser, chosen, sigfig), status), ["-i"])


def levels_case(random):
    """A case of check --ci on numbers or on logs."""
    return number_levels(random) if random.random() < 0.6 else log_levels(random)
