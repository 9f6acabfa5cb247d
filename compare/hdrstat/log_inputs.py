"""Random interval logs for hdrstat, with the output of the model for each."""
import base64
import csv
import io
import json
import unicodedata
import zlib
from fractions import Fraction

from inputs import FORMATS, USUAL, Case, digits, figures, percentiles, shown
from levels import UNITS, Level, LogTally, classes_of, checked_line, is_level_in_each_unit, random_level, status_of
from logs import CAUSES, NOTES, RATIO, Undecodable, bin_of, closed, converted_sums, decode, decoded, encode, have_one_scale, in_one_scale
from logs import inflated, read_first, side_by_side, sums, sums_by_key, with_form
from model import LIMIT, Failure, Samples, Tally, class_of, decimal_text, Options

TAGS = [None, b"a", b"b", b"GET", b"caf\xc3\xa9", b"=1+1", b"-2", b'say"', b"a;b", b""]


def random_samples(random):
    """Samples of a few values, mostly of 3 digits and from 1."""
    samples = Samples(random.choice([3, 3, 3, 2, 0, 5]), random.choice([1, 1, 1, 1, 8, 1000]))
    samples.low = 1 << samples.low.bit_length() - 1
    for _ in range(random.choice([0, 1, 1, 3, 10])):
        samples.add(random.randrange(1 << random.choice([4, 10, 20, 20, 40])), random.choice([1, 1, 7, 300]))
    return samples


def compressed(random, data):
    """The same bytes, compressed, or at times something else that has the cookie of another form."""
    if random.random() < 0.02:
        data = random.choice([b"", data[:3], b"\0" + data])
    stream = zlib.compress(data, random.randint(0, 9))
    if random.random() < 0.02:
        stream = stream[: random.randrange(len(stream))]
    length = max(len(stream) + random.choice([0] * 50 + [1, -1]), 0)
    cookie = random.choice([b"\x1c\x84\x93\x14"] * 50 + [bytes.fromhex(it) for it in ("1c849301", "1c849311", "1c849312", "1c849342", "1c849308", "1c849329", "0c72124e", "0c72124f", "1c849315")])
    return cookie + length.to_bytes(4, "big") + stream


def old(random, samples, high):
    """The bytes of version 0 or 1 of the same samples, at times compressed."""
    counts = {bin_of(lowest, samples.sigfig, samples.low): count for lowest, count in samples.counts.items()}
    width, version, bins = random.choice([2, 4, 8]), random.randrange(2), max(counts, default=0) + 1
    counters = b"".join(counts.get(bin, 0).to_bytes(width, "big") for bin in range(bins))
    bounds = samples.low.to_bytes(8, "big") + high.to_bytes(8, "big")
    digits, cookie = samples.sigfig.to_bytes(4, "big"), (0x1c849301 if version else 0x1c849308) | width << 4
    head = len(counters).to_bytes(4, "big") + bytes(4) + digits + bounds + RATIO if version else digits + bounds + samples.len().to_bytes(8, "big")
    data = cookie.to_bytes(4, "big") + head + counters
    if random.random() < 0.05:
        data = bytearray(data)
        data[random.randrange(len(data))] = random.choice([0, 1, 255, random.randrange(256)])
    if random.random() < 0.5:
        stream = zlib.compress(data)
        data = (cookie + 1).to_bytes(4, "big") + len(stream).to_bytes(4, "big") + stream
    return data


def field_of(random, samples):
    """The bytes of a histogram, as a field."""
    least = max(2 * samples.low, samples.greatest or 0)
    high = min(class_of(least, samples.sigfig, samples.low)[1] * random.choice([1, 1, 4]), LIMIT - 1)
    data = encode(samples, high)
    if random.random() < 0.05 and bin_of(high, samples.sigfig, samples.low) < 20000:
        data = old(random, samples, high)
    elif random.random() < 0.1:
        data = compressed(random, data)
    if random.random() < 0.01:
        data = bytearray(data)
        data[random.randrange(len(data))] = random.choice([0, 1, 255, random.randrange(256)])
    if random.random() < 0.005:
        data = data[: random.randrange(len(data))]
    return base64.b64encode(bytes(data))


def seconds(random, milliseconds):
    text = b"%d.%03d" % divmod(milliseconds, 1000)
    return random.choice([text, text, text, b"+" + text, text + digits(random, 9).encode()])


def log_text(random, step):
    """A log of a host: an interval a second for each of a few tags, at times out of order or damaged."""
    lines, tags = [], random.sample(TAGS, random.choice([1, 1, 2, 4]))
    end = random.choice([b"\n", b"\n", b"\n", b"\r\n"])
    if random.random() < 0.3:
        lines.append(b"#[StartTime: 1700000000.000 (seconds since epoch), some date]")
    if random.random() < 0.3:
        lines.append(b"#[BaseTime: %s (seconds since epoch)]" % seconds(random, random.randint(0, 5000)))
    if random.random() < 0.25:
        lines.append(b"#[Values have %d decimals]" % random.choice([0, 1, 3, 3, 3, 5, 18, 19]))
    if random.random() < 0.3:
        lines.append(b'"StartTimestamp","Interval_Length","Interval_Max","Interval_Compressed_Histogram"')
    for at in range(random.choice([0, 1, 3, 8])):
        for tag in tags:
            start = seconds(random, at * step + random.choice([0, 0, 0, 0, 1]))
            head = b"Tag=%s," % tag if tag is not None else b""
            field = field_of(random, random_samples(random))
            lines.append(head + b",".join([start, seconds(random, random.choice([step, 1, 9000])), random.choice([b"1.000", b"7", b".5", b"3."]), field]))
        if random.random() < 0.1:
            lines.append(random.choice([b"#note", b"", b"#[BaseTime: 2.000 x]", b"#[BaseTime: x]", b"#[StartTime: -1.0 x]", b"#[Values have x decimals]", b"  "]))
    if random.random() < 0.1:
        random.shuffle(lines)
    text = b"".join(line + end for line in lines)
    if random.random() < 0.08 and text:
        text = bytearray(text)
        for _ in range(random.randint(1, 3)):
            text[random.randrange(len(text))] = random.choice([0, 10, 13, 32, 44, 255, random.randrange(256)])
        text = bytes(text)
    if random.random() < 0.06 and text:
        text = text[: random.choice([-1, -1, random.randrange(len(text))])]
    return b"\xef\xbb\xbf" + text if random.random() < 0.03 else text


def log_error(failure):
    """What standard error has, or None where the model does not say it."""
    name, line, text, why = failure.text
    if why == "log":
        hint = "; `hdrstat log` makes a log of numbers, and `page --column` reads a table" if line == "line 1" else ""
        return f"hdrstat: {name}: {line}: `{shown(text)}` is not a line of an interval log{hint}\n".encode()
    if why == "other decimals":
        return f"hdrstat: {name}: {line}: the values have {text[0]} decimals, and others {text[1]}; `hdrstat gather --unsorted` makes one log of both\n".encode()
    if why == "large":
        return f"hdrstat: {name}: {line}: a value does not fit 64 bits in the unit and the decimals of other intervals\n".encode()
    if why == "late":
        return f"hdrstat: {name}: {line}: the interval begins past 64 bits of milliseconds\n".encode()
    if why == "nest":
        return f"hdrstat: {name}: {line}: the interval is neither finer nor coarser than others of its time and tag\n".encode()
    if why == "order":
        return f"hdrstat: {name}: {line}: the interval begins before the one above it; --unsorted gathers such logs\n".encode()
    if why == "interval" and text in CAUSES:
        return f"hdrstat: {name}: {line}: {CAUSES[text]}\n".encode()
    return None


def notes_text(notes, names):
    """What standard error has of the lines of these logs that are not read."""
    return "".join(f"hdrstat: {name}: line {line}: {NOTES[kind]}\n" for name in names for line, kind in notes.get(name, [])).encode()


def logs_of(random):
    """One log on standard input, or several as files."""
    step = random.choice([1000, 1000, 500, 1])
    if random.random() < 0.5:
        return {"standard input": log_text(random, step)}
    return {name: log_text(random, step) for name in ("one", "two", "three")[: random.randint(1, 3)]}


def case_of(arguments, logs, wanted, option=()):
    """A case whose files are arguments, each of them behind an option if there is one."""
    stdin = logs.get("standard input", b"")
    files = {name: data for name, data in logs.items() if name != "standard input"}
    return Case([*arguments, *(word for name in files for word in (*option, name))], stdin, files, wanted)


def failed(failure, notes, names, arguments, logs, option=()):
    """A case that prints nothing and fails, after the notes of these logs."""
    error = log_error(failure)
    return case_of(arguments, logs, (b"", None if error is None else notes_text(notes, names) + error, 1), option)


def before(failure, logs):
    """The names of the logs before the one that fails, whose notes are printed."""
    names = list(logs)
    return names[: names.index(failure.text[0])]


def choice_of(random):
    """A choice of intervals, as arguments and as the model takes it."""
    arguments, choice = [], {}
    if random.random() < 0.3:
        choice["tag"] = random.choice([it for it in TAGS if it is not None])
        arguments += [f"--tag={choice['tag'].decode()}"]
    if random.random() < 0.2:
        since = random.randint(0, 4000)
        choice["since"] = since * 1_000_000
        arguments += ["--from-time", "%d.%03d" % divmod(since, 1000)]
    if random.random() < 0.2:
        least = choice.get("since", -1_000_000) // 1_000_000 + 1
        until = random.randint(least, max(least, 9000))
        choice["until"] = until * 1_000_000
        arguments += ["--to-time", "%d.%03d" % divmod(until, 1000)]
    return arguments, choice


def tally_of(samples, decimals):
    tally = Tally(Options(samples.sigfig))
    tally.samples, tally.decimals, tally.interval = samples, decimals, 1
    return tally


def tagged_table(rows):
    """A line of names and one for each tag, in columns: the tags to the left, numbers to the right."""
    if not rows:
        return ""
    lines = [["tag", *(name for name, _ in rows[0][1])]]
    lines += [[(tag or b"").decode() if tag is not None else "(no tag)", *(value or "-" for _, value in found)] for tag, found in rows]
    wide = [max(len(line[at]) for line in lines) for at in range(len(lines[0]))]
    return "".join("  ".join([f"{line[0]:{wide[0]}}", *(f"{it:>{to}}" for it, to in zip(line[1:], wide[1:]))]) + "\n" for line in lines)


def shown_tag(tag):
    """A tag in a table for a spreadsheet, which may take it for a formula."""
    tag = (tag or b"").decode()
    return "'" + tag if tag[:1] in ("=", "+", "-", "@", "\t", "\r") and tag else tag


def csv_text(rows):
    out = io.StringIO()
    csv.writer(out, lineterminator="\n").writerows(rows)
    return out.getvalue()


def tagged_csv(rows):
    """The same as CSV, with an apostrophe before what a spreadsheet takes for a formula."""
    names = [["tag", *(name for name, _ in found)] for _, found in rows[:1]]
    return csv_text([*names, *([shown_tag(tag), *(value or "" for _, value in found)] for tag, found in rows)])


def tagged_json(rows):
    objects = []
    for tag, found in rows:
        text = "null" if tag is None else json.dumps(tag.decode(), ensure_ascii=False)
        objects.append("".join(["{", f'"tag":{text}', *(f',"{name}":{value or "null"}' for name, value in found), "}"]))
    return "[" + ",\n".join(objects) + "]\n"


TAGGED = {"table": tagged_table, "csv": tagged_csv, "json": tagged_json}


def log_case(random):
    logs, arguments, wanted = logs_of(random), ["summary", "--from", "log"], USUAL
    sigfig = 3
    if random.random() < 0.3:
        sigfig = random.randint(0, 5)
        arguments += ["-d", str(sigfig)]
    if random.random() < 0.4:
        text, wanted = percentiles(random)
        arguments += ["-p", text]
    more, choice = choice_of(random)
    arguments += more
    name = random.choice(["table", "csv", "json"])
    arguments += ["-f", name]
    by_tag = random.random() < 0.3
    arguments += ["--by-tag"] * by_tag
    notes = {}
    try:
        found, coarser, decimals, chosen = sums(logs, sigfig, by_tag, notes, choice)
        told = notes_text(notes, logs)
    except Failure as failure:
        if failure.text[3] != "other decimals" or "standard input" in logs:
            return failed(failure, notes, before(failure, logs), arguments, logs)
        try:
            read, told = read_in_one_scale(logs, choice)
            found, coarser, decimals, chosen = converted_sums(read, sigfig, by_tag)
        except Told as bad:
            return case_of(arguments, logs, bad.wanted)
        except Failure as bad:
            error = log_error(bad)
            return case_of(arguments, logs, (b"", None if error is None else told + error, 1))
    told += coarser_text(coarser, chosen, sigfig)
    if by_tag:
        out = TAGGED[name]([(tag, figures(tally_of(it, decimals), wanted)) for tag, it in found.items()]).encode()
        return case_of(arguments, logs, (out, told, 0))
    total = found.get(None) or Samples(sigfig)
    out = FORMATS[name](figures(tally_of(total, decimals), wanted)).encode()
    return case_of(arguments, logs, (out, told, 0))


class Told(Exception):
    """What a program prints that fails."""

    def __init__(self, failure, told):
        super().__init__()
        error = log_error(failure)
        self.wanted = (b"", None if error is None else told + error, 1)


def read_in_one_scale(logs, choice):
    """The intervals of logs in the scale of the finest, and what is told of them, which is their notes first."""
    notes = {}
    try:
        read = read_first(logs, notes, choice)
    except Failure as failure:
        raise Told(failure, notes_text(notes, before(failure, logs))) from failure
    try:
        read, told = in_one_scale(read)
    except Failure as failure:
        raise Told(failure, notes_text(notes, logs)) from failure
    return read, notes_text(notes, logs) + told


def coarser_text(coarser, chosen, sigfig):
    return f"hdrstat: {coarser} of {chosen} intervals coarser than {sigfig} digits\n".encode() if coarser else b""


def known_as_read(logs, choice, by_tag):
    """By tag, the samples of intervals by the classes that they have in their own decimals."""
    known = {}
    for name, it in read_first(logs, {}, choice):
        known.setdefault(it.tag if by_tag else None, []).extend(classes_of(it.samples(name), it.decimals))
    return known


def with_extremes(total, known, decimals):
    """A sum of converted intervals, with the least and the greatest value of the classes that its samples had."""
    if known:
        total.least = int(min(it.low for it in known) * 10**decimals)
        total.greatest = int(max(it.high for it in known) * 10**decimals)
    return total


def log_check_case(random):
    """A case of check on logs."""
    logs, notes = logs_of(random), {}
    arguments, choice = choice_of(random)
    unit = random.choice([None, None, *UNITS])
    sigfig, by_tag = random.choice([3, 3, 3, random.randint(0, 5)]), random.random() < 0.3
    arguments = ["check", "--from", "log", *arguments, *(["--unit", unit] if unit else []), *(["-d", str(sigfig)] if sigfig != 3 else [])]
    arguments += ["--by-tag"] * by_tag
    histograms = {}
    try:
        found, coarser, decimals, chosen = sums(logs, sigfig, by_tag, notes, choice, histograms)
        told = notes_text(notes, logs)
        known = {tag: [it for one in own for it in classes_of(one, decimals)] for tag, own in histograms.items()}
    except Failure as failure:
        if failure.text[3] != "other decimals" or "standard input" in logs:
            return failed(failure, notes, before(failure, logs), [*arguments, "count>=0"], logs, ["-i"])
        try:
            read, told = read_in_one_scale(logs, choice)
            found, coarser, decimals, chosen = converted_sums(read, sigfig, by_tag)
        except Told as bad:
            return case_of([*arguments, "count>=0"], logs, bad.wanted, ["-i"])
        except Failure as bad:
            error = log_error(bad)
            return case_of([*arguments, "count>=0"], logs, (b"", None if error is None else told + error, 1), ["-i"])
        known = known_as_read(logs, choice, by_tag)
        found = {tag: with_extremes(total, known.get(tag, []), decimals) for tag, total in found.items()}
    if not found:
        found = {None: Samples(sigfig)}
    parts = [(tag, LogTally(total, decimals), known.get(tag, [])) for tag, total in found.items()]
    levels = [it for it in (random_level(random, samples, tally, unit) for _ in range(random.randint(1, 3)) for _, tally, samples in parts[:2]) if it]
    levels = levels or [Level("count>=0", "count", ">=", Fraction(0))]
    is_empty_allowed = random.random() < 0.5
    arguments += [*(["--allow-empty"] if is_empty_allowed else []), *(it.text for it in levels)]
    if not all(is_level_in_each_unit(it, unit) for it in levels):
        return case_of(arguments, logs, (b"", None, 2), ["-i"])
    told += coarser_text(coarser, chosen, sigfig)
    if not any(samples for _, _, samples in parts) and not is_empty_allowed:
        return case_of(arguments, logs, (b"", told + b"hdrstat: no numbers; --allow-empty accepts an empty input\n", 3), ["-i"])
    out, verdicts = "", []
    for tag, tally, samples in parts:
        count = tally.samples.len()
        mean = Fraction(tally.samples.mean_of_classes(), count) if count else None
        for level in levels:
            verdict, rest = checked_line(level, samples, tally, mean)
            verdicts.append(verdict)
            out += f"{verdict} {level.text} {rest}{no_tag([it for it, _, _ in parts]) if tag is None else ' ' + shown_control(tag)}\n"
    return case_of(arguments, logs, (out.encode(), told, status_of(verdicts)), ["-i"])


def no_tag(tags):
    """What follows the value of a level of samples without a tag: a name, if others have one."""
    return " (no tag)" if any(it is not None for it in tags) else ""


def shown_control(tag):
    """A tag with control characters as ?."""
    return "".join("?" if unicodedata.category(it) == "Cc" else it for it in tag.decode())


def gather_case(random):
    logs, notes, is_unsorted = logs_of(random), {}, random.random() < 0.5
    arguments, choice = choice_of(random)
    arguments = ["gather", *(["--unsorted"] if is_unsorted else []), *arguments]
    told = None
    try:
        if is_unsorted or "standard input" not in logs and not have_one_scale(logs, notes, choice):
            read, told = read_in_one_scale(logs, choice)
            found = sums_by_key(read)
        else:
            notes = {}
            found = side_by_side(logs, notes, choice)
            told = notes_text(notes, logs)
    except Told as bad:
        return case_of(arguments, logs, bad.wanted)
    except Failure as failure:
        error = log_error(failure)
        told = notes_text(notes, logs) if told is None else told
        return case_of(arguments, logs, (None, None if error is None else told + error, 1))
    read, finer = sum(it[4] for it in found), sum(it[5] for it in found)
    if finer:
        told += f"hdrstat: {finer} of {read} intervals finer than their sum, which has the digits of the coarsest\n".encode()
    return case_of(arguments, logs, (Gathered(found), told, 0))


def convert_case(random):
    logs, notes, form = logs_of(random), {}, random.choice(["plain", "compressed"])
    arguments, choice = choice_of(random)
    lines, failure = with_form(logs, form == "compressed", notes, choice)
    error = log_error(failure) if failure else b""
    told = None if error is None else notes_text(notes, logs) + error
    return case_of(["convert", "--to", form, *arguments], logs, (Converted(lines), told, 1 if failure else 0))


class Converted:
    """The lines of logs, equal to an output that has them, where a new stream may have any bytes that hold the same."""

    def __init__(self, lines):
        self.lines = lines

    def __eq__(self, other):
        for line in self.lines:
            if isinstance(line, bytes):
                if not other.startswith(line):
                    return False
                other = other[len(line) :]
                continue
            came, _, other = other.partition(b"\n")
            if holding(came) != line:
                return False
        return not other

    def __repr__(self):
        return repr(self.lines)


def holding(line):
    """What is before the histogram of a line, and the V2 bytes that it compresses, or None if it compresses none."""
    head, _, field = line.rpartition(b",")
    try:
        return head + b",", inflated(decoded(field))
    except Undecodable:
        return head + b",", None


def page_case(random):
    """A case of page --intervals."""
    logs = logs_of(random)
    arguments, choice = choice_of(random)
    arguments = ["page", "--intervals", *arguments]
    try:
        read, told = read_in_one_scale(logs, choice)
    except Told as bad:
        return case_of(arguments, logs, bad.wanted)
    rows = [["start", "tag", "length", "count", "50%", "90%", "99%", "99.9%", "100%"]]
    try:
        for name, it in sorted(read, key=by_tag_and_time):
            it.samples(name)
    except Failure as failure:
        error = log_error(failure)
        return case_of(arguments, logs, (b"", None if error is None else told + error, 1))
    rows += [row_of(it, closed(it.samples(name))) for name, it in read]
    return case_of(arguments, logs, (csv_text(rows).encode(), told, 0))


def by_tag_and_time(named):
    """The order in which histograms are decoded: by tag, start and end."""
    start, _, tag = named[1].key()
    return tag, start, min(start + named[1].length(), LIMIT - 1)


def row_of(it, samples):
    """The row of an interval: its times in seconds, its tag, and its figures."""
    start, length = ("%d.%03d" % divmod(time, 1000) for time in (it.key()[0], it.length()))
    values = [samples.at(num, den) for num, den in ((1, 2), (9, 10), (99, 100), (999, 1000), (1, 1))]
    return [start, shown_tag(it.tag), length, samples.len(), *(decimal_text(value, it.decimals) for value in values)]


class Gathered:
    """The lines of a gathered log, equal to an output with the same times, tags and samples."""

    def __init__(self, found):
        self.lines = []
        for tag, start, duration, samples, _, _ in found:
            top = class_of(max(samples.counts), samples.sigfig, samples.low)[1] if samples.counts else 0
            head = (b"Tag=%s," % tag if tag is not None else b"") + b"%d.%03d" % divmod(start, 1000)
            length = b"%d.%03d" % divmod((duration + 500_000) // 1_000_000, 1000)
            self.lines.append((b",".join([head, length, b"%d.000" % top]), samples.sigfig, samples.low, samples.counts))

    def __eq__(self, other):
        return self.lines == [line_of(it) for it in other.split(b"\n")[:-1] if not it.startswith(b"#")]

    def __repr__(self):
        return repr(self.lines)


def line_of(line):
    head, _, field = line.rpartition(b",")
    samples = decode(base64.b64decode(field))
    return head, samples.sigfig, samples.low, samples.counts
