"""Random runs for hdrstat compare and summary --ci, with what the model prints."""
import base64
import collections
import csv
import io

from inputs import Case
from logs import bin_of, v2
from runs import TIERS, Samples, batches_of, class_of, decimal_of, exceeds, falls_below, in_small_units, needed, percent_of, ratios, tier_of, verdict_of

HEADS = ["figure", "before", "low", "high", "after", "low", "high", "change", "low", "high", "verdict"]
COLUMNS = ["figure", "before", "before_low", "before_high", "after", "after_low", "after_high", "change", "change_low", "change_high", "verdict",
           "before_independent", "after_independent"]
SINGLE = "What changes from run to run by itself is not seen in one run of each: --with compares 4 or more of each.\n"
SORTED = "is sorted, so its order is not that of time: its samples are taken as independent."
FEW = "has fewer than 4 intervals: its samples are taken as independent."


# Numbers of a run


def numbers_of(random):
    """Numbers as a service measures them: independent, in bursts, drifting, sorted, or few different ones."""
    count = random.choice([1, 2, 5, 12, 40, 100, 300, 1000, 1000])
    count = max(1, int(count * random.uniform(0.6, 1.4)))
    base = random.choice([5, 100, 3000, 10**6, 10**12])
    kind = random.choice(["even", "even", "tail", "bursts", "drift", "sorted", "ties"])
    if kind == "ties":
        return [base + random.choice([0, 0, 0, 1]) for _ in range(count)]
    numbers = [int(base * random.lognormvariate(0, 0.5)) for _ in range(count)]
    if kind == "tail":
        numbers = [it * (20 if random.random() < 0.03 else 1) for it in numbers]
    if kind == "bursts":
        start = random.randrange(count)
        numbers[start : start + count // 20 + 1] = [base * 9] * min(count // 20 + 1, count - start)
    if kind == "drift":
        numbers = [it * (count + at) // count for at, it in enumerate(numbers)]
    return sorted(numbers, reverse=random.random() < 0.3) if kind == "sorted" else numbers


def after_change(random, numbers):
    """Numbers like others, or others."""
    if random.random() < 0.2:
        return numbers_of(random)
    factor = random.choice([100, 100, 101, 105, 110, 80, 300])
    changed = [it * factor // 100 for it in random.choices(numbers, k=max(1, int(len(numbers) * random.uniform(0.7, 1.3))))]
    return changed


def is_sorted(numbers):
    ascends = any(one < other for one, other in zip(numbers, numbers[1:]))
    descends = any(one > other for one, other in zip(numbers, numbers[1:]))
    return ascends != descends


def with_missing(number, interval):
    samples = [number]
    while interval and samples[-1] >= 2 * interval:
        samples.append(samples[-1] - interval)
    return samples


def samples_of(numbers, decimals, sigfig, interval):
    """The samples of a file, in batches if their order is that of time."""
    if is_sorted(numbers):
        every = [it for number in numbers for it in with_missing(number, interval)]
        return Samples([every], decimals, sigfig, SORTED, False)
    parts = [[it for number in batch for it in with_missing(number, interval)] for batch in batches_of(numbers)]
    return Samples(parts, decimals, sigfig)


def text_of(numbers, decimals):
    return "".join(decimal_of(it, decimals) + "\n" for it in numbers).encode()


# Logs of a run


def intervals_of(random):
    """The numbers of each interval of a log: of even traffic, of some busy intervals, in waves, or with idle ones."""
    count = random.choice([2, 3, 4, 5, 15, 17, 40, 100])
    rate = random.choice([1, 3, 10, 30])
    kind = random.choice(["even", "busy", "waves", "idle"])
    level, every = random.choice([5, 300, 10**6, 10**12]), []
    first, width = random.randrange(count), random.randint(1, 4)
    for at in range(count):
        own = {"busy": rate * 30 if first <= at < first + width else 1, "waves": 1 + rate * abs(at % 20 - 10) // 3, "idle": rate if random.random() < 0.3 else 0}.get(kind, rate)
        factor = random.lognormvariate(0, 0.3)
        every.append([int(level * factor * random.lognormvariate(0, 0.4)) for _ in range(min(own, 400))])
    every[first] = every[first] or [level]
    return every


def samples_of_log(intervals, digits):
    """The samples of a log: batches are of its intervals with samples, and values are known by their classes of these digits."""
    some = [it for it in intervals if it]
    batches = [[it for interval in batch for it in interval] for batch in batches_of(some)]
    samples = Samples(batches, 0, digits, FEW if len(batches) < 4 else "")
    samples.least, samples.greatest = samples.classes[0][0], samples.classes[-1][1]
    return samples


def log_of(intervals, digits):
    lines = ["#[Histogram log format version 1.3]"]
    for at, numbers in enumerate(intervals):
        counts = collections.Counter(bin_of(it, digits, 1) for it in numbers)
        field = base64.b64encode(v2(counts, digits, 1, class_of(max([2, *numbers]), digits)[1])).decode()
        lines.append(f"{at}.000,1.000,1.000,{field}")
    return ("\n".join(lines) + "\n").encode()


# Reports


def pair_lines(one, other, percentiles, tier):
    """For each percentile its cells, points, and measured numbers in small units."""
    decimals = max(one.decimals, other.decimals)
    lines = []
    for text, quantile in percentiles:
        points = [it.point(quantile, tier) for it in (one, other)]
        more = [decimals - it.decimals for it in (one, other)]
        small = in_small_units(*(it.measured(by) for it, by in zip(points, more)))
        cells = [cell for it, by in zip(points, more) for cell in it.shown(decimals, by)]
        changes = [None if it is None else percent_of(it) for it in ratios(*small)]
        lines.append((text, quantile, cells + changes, verdict_of(*small), points, small))
    return lines


def table_of(rows, names):
    widths = [max(len(row[at]) for row in rows) for at in range(len(rows[0]))]
    text = ""
    for row in rows:
        cells = [cell.ljust(width) if at < names or at == len(row) - 1 else cell.rjust(width) for at, (cell, width) in enumerate(zip(row, widths))]
        text += "  ".join(cells).rstrip() + "\n"
    return text


def shown_verdict(verdict, quantile, tier):
    has_number = verdict == "too few" and 0 < quantile[0] < quantile[1]
    return f"{verdict}: {needed(quantile, tier)} independent needed" if has_number else verdict


def people_rows(report, tier, has_runs):
    rows = [(["run"] if has_runs else []) + HEADS]
    for run, one, other, lines in report:
        rows.append(([run] if has_runs else []) + ["count", str(one.count), "", "", str(other.count)] + [""] * 6)
        for text, quantile, cells, verdict, _, _ in lines:
            cells = [it if it is not None else "-" for it in cells]
            cells[6] += "%" if cells[6] != "-" else ""
            rows.append(([run] if has_runs else []) + ["p" + text, *cells, shown_verdict(verdict, quantile, tier)])
    return rows


def footer_of(report, tier, has_several):
    text = f"Intervals of {tier[1]} %: of 20 such reports on equal runs, at most 1 has a false verdict.\n"
    text += "" if has_several else SINGLE
    if any(one.decimals != other.decimals for _, one, other, _ in report):
        text += "Runs have values of different decimals or units: what was rounded is taken as exact.\n"
    least = None
    for run, one, other, lines in report:
        for digits, _, _, _, points, _ in lines:
            for name, samples, point in (("before", one, points[0]), (run, other, points[1])):
                if least is None or point.independent * least[1] < least[0] * samples.count:
                    least = (point.independent, samples.count, digits, name)
    if least and 2 * least[0] < least[1]:
        text += f"p{least[2]} of {least[3]}: its {least[1]} samples count as {least[0]} independent ones.\n"
    for name, samples in [("before", report[0][1]), *((run, other) for run, _, other, _ in report)]:
        text += f"{name} {samples.note}\n" if samples.note else ""
    return text


def separated_of(report, has_runs, delimiter):
    text = io.StringIO()
    writer = csv.writer(text, delimiter=delimiter, lineterminator="\n")
    writer.writerow((["run"] if has_runs else []) + COLUMNS)
    for run, one, other, lines in report:
        writer.writerow(([run] if has_runs else []) + ["count", one.count, "", "", other.count] + [""] * 8)
        for digits, _, cells, verdict, points, _ in lines:
            cells = ["" if it is None else it for it in cells]
            writer.writerow(([run] if has_runs else []) + ["p" + digits, *cells, verdict, *(it.independent for it in points)])
    return text.getvalue()


def json_of(report, tier, has_runs):
    rows = []
    for run, _, _, lines in report:
        for digits, _, cells, verdict, points, _ in lines:
            texts = ["null" if it is None else it.lstrip("+") for it in cells]
            three = [f"[{','.join(texts[at : at + 3])}]" for at in (0, 3, 6)]
            head = f'"run":"{run}",' if has_runs else ""
            independent = f"[{points[0].independent},{points[1].independent}]"
            rows.append(f'{{{head}"figure":"p{digits}","before":{three[0]},"after":{three[1]},"change":{three[2]},"independent":{independent},"verdict":"{verdict}"}}')
    return f'{{"confidence":{tier[1]},"rows":[' + ",\n".join(rows) + "]}\n"


def limits_of(report, limits, has_runs):
    """The lines of limits, and the status."""
    said, text = [], ""
    for run, _, _, lines in report:
        for digits, _, _, _, _, small in lines:
            for limit, percentile, num, den in limits:
                if percentile != digits:
                    continue
                over, under = exceeds(num, den, *small), falls_below(num, den, *small)
                verdict = "broken" if over else "kept" if under else "few" if over is None else "undecided"
                said.append(verdict)
                text += f"{verdict} {limit}{' ' + run if has_runs else ''}\n"
    return text, 3 if "broken" in said else 4 if "few" in said else 0


# Cases


def random_percentiles(random):
    texts = random.sample(["50", "90", "99", "99.9", "75", "1", "99.99", "0", "100", "33.3333"], random.randint(1, 4))
    return [(text, fraction_of(text)) for text in texts]


def fraction_of(text):
    whole, _, part = text.partition(".")
    return int(whole + part), 100 * 10 ** len(part)


def random_limits(random, percentiles):
    limits = []
    for text, _ in random.sample(percentiles, random.choice([0, 0, 1, len(percentiles)])):
        amount = random.choice(["0", "5", "10", "2.5", "0.125", "100", "300"])
        whole, _, part = amount.partition(".")
        den = 100 * 10 ** len(part)
        limits.append((f"p{text}>+{amount}%", text, den + int(whole + part), den))
    return limits


def interval_of(random, runs):
    """An expected interval for which no number has many missing samples, or 0."""
    most = max(max(it) for it in runs)
    interval = max(runs[0]) // random.randint(2, 9)
    return interval if random.random() < 0.15 and interval and most // interval < 100 else 0


def run_case(random):
    """A case of compare: two or three runs, or several of each side."""
    sigfig = random.choice([3, 3, 3, 2, 5, 1, 0])
    has_several = random.random() < 0.2
    decimals = [random.choice([0, 0, 1, 3]) for _ in range(3)]
    first = numbers_of(random)
    files, arguments = {}, ["compare"]
    if has_several:
        sides = [[first if random.random() < 0.7 else after_change(random, first) for _ in range(random.randint(4, 18))] for _ in range(2)]
        names = [[f"{side}{at}" for at in range(len(runs))] for side, runs in zip("ab", sides)]
        files = {name: text_of(numbers, decimals[0]) for side, runs in zip(names, sides) for name, numbers in zip(side, runs)}
        arguments += [*names[0], "--with", *names[1]]
        both = [Samples([[it for number in numbers for it in with_missing(number, 0)] for numbers in runs], decimals[0], sigfig) for runs in sides]
        interval, runs = 0, [("after", both[1])]
    else:
        each = [first] + [after_change(random, first) for _ in range(random.choice([1, 1, 1, 2]))]
        interval = interval_of(random, each)
        if interval:
            decimals = [decimals[0]] * 3
        files = {name: text_of(numbers, places) for name, numbers, places in zip("abc", each, decimals)}
        arguments += list(files)
        both = [samples_of(numbers, places, sigfig, interval) for numbers, places in zip(each, decimals)]
        runs = [("after" if len(each) == 2 else name, it) for name, it in zip("bc", both[1:])]
    percentiles = random_percentiles(random)
    limits = random_limits(random, percentiles)
    form = random.choice(["table", "table", "csv", "tsv", "json", "md"])
    arguments += ["-p", ",".join(text for text, _ in percentiles), "-f", form, "-d", str(sigfig)]
    arguments += [word for it in limits for word in ("--fail", it[0])]
    arguments += ["--expected-interval", decimal_of(interval, decimals[0])] if interval else []
    tier = tier_of(len(runs) * len(percentiles))
    report = [(name, both[0], it, pair_lines(both[0], it, percentiles, tier)) for name, it in runs]
    return Case(arguments, b"", files, wanted_of(report, tier, limits, form, has_several))


def log_run_case(random):
    """A case of compare of logs."""
    first = intervals_of(random)
    others = [after_change_of_intervals(random, first) for _ in range(random.choice([1, 1, 2]))]
    every = [(it, random.choice([3, 3, 3, 3, 2, 1])) for it in (first, *others)]
    files = {name: log_of(*it) for name, it in zip("abc", every)}
    before, *after = [samples_of_log(*it) for it in every]
    runs = [("after" if len(after) == 1 else name, it) for name, it in zip("bc", after)]
    percentiles = random_percentiles(random)
    limits = random_limits(random, percentiles)
    form = random.choice(["table", "csv", "tsv", "json", "md"])
    arguments = ["compare", "--from", "log", *files, "-p", ",".join(text for text, _ in percentiles), "-f", form]
    arguments += [word for it in limits for word in ("--fail", it[0])]
    tier = tier_of(len(runs) * len(percentiles))
    report = [(name, before, it, pair_lines(before, it, percentiles, tier)) for name, it in runs]
    out, said, status = wanted_of(report, tier, limits, form, False)
    return Case(arguments, b"", files, (out, "".join(fewer_text(*it) for it in every).encode() + said, status))


def fewer_text(intervals, digits):
    """What is said of a log of fewer than 3 digits."""
    count = len(intervals)
    text = f"hdrstat: {count} of {count} intervals coarser than 3 digits\nhdrstat: such a run is compared by classes of {digits} digits\n"
    return text if digits < 3 else ""


def after_change_of_intervals(random, intervals):
    """Other intervals, or the same ones in another order with a change."""
    if random.random() < 0.4:
        return intervals_of(random)
    factor = random.choice([100, 100, 103, 110, 80, 300])
    return [[it * factor // 100 for it in random.choices(numbers, k=len(numbers))] if numbers else [] for numbers in random.sample(intervals, len(intervals))]


def wanted_of(report, tier, limits, form, has_several):
    has_runs = len(report) > 1
    said, status = limits_of(report, limits, has_runs)
    rows = people_rows(report, tier, has_runs)
    if form == "table":
        return (table_of(rows, 1 + has_runs) + footer_of(report, tier, has_several) + said).encode(), b"", status
    if form == "md":
        text = "".join("| " + " | ".join(row) + " |\n" + ("|" + "---|" * len(row) + "\n" if not at else "") for at, row in enumerate(rows))
        return (text + "\n" + footer_of(report, tier, has_several) + said).encode(), b"", status
    text = json_of(report, tier, has_runs) if form == "json" else separated_of(report, has_runs, "," if form == "csv" else "\t")
    return text.encode(), said.encode(), status


def ends_case(random):
    """A case of summary --ci as CSV."""
    sigfig, decimals, numbers = random.choice([3, 3, 2, 5, 1]), random.choice([0, 2]), numbers_of(random)
    percentiles = random_percentiles(random)
    samples = samples_of(numbers, decimals, sigfig, 0)
    names, cells = ["count", "min"], [str(samples.count), decimal_of(samples.least, decimals)]
    total = sum(numbers)
    names.append("mean")
    cells.append(decimal_of((200 * total + samples.count) // (2 * samples.count), decimals + 2))
    for text, quantile in percentiles:
        names += [f"p{text}", f"p{text}_low", f"p{text}_high"]
        cells += ["" if it is None else it for it in samples.point(quantile, TIERS[0]).shown(decimals, 0)]
    names.append("max")
    cells.append(decimal_of(samples.greatest, decimals))
    arguments = ["summary", "--ci", "-f", "csv", "-d", str(sigfig), "-p", ",".join(text for text, _ in percentiles)]
    return Case(arguments, text_of(numbers, decimals), {}, ((",".join(names) + "\n" + ",".join(cells) + "\n").encode(), None, 0))
