"""Random inputs for hdrstat, with the output of the model for each."""
import dataclasses
import json
from fractions import Fraction

from levels import Known, checked, fraction, status_of
from model import UNITS, Failure, Options, Tally, decimal_text, surveyed

REASONS = {
    "no number": "is not a number; --skip-bad ignores such lines",
    "blank": "is not a number; --skip-bad ignores such lines. --column reads a field with --delimiter space, --match a number in a text",
    "table": "is not a number; --column reads a column of a table, --from log an interval log",
    "negative": "is negative, and a histogram counts numbers from 0; --skip-bad ignores such lines",
    "dash": "is not a number but a mark for none; --skip-bad ignores such lines",
    "infinite": "is infinite, and a histogram counts finite numbers; --skip-bad ignores such lines",
    "comma": "is not a number; --skip-bad ignores such lines. With a comma it is 1234, 1.234 or a row: write it without, or read --column",
    "duration": "is not a number; --skip-bad ignores such lines. --unit, as --unit ms, reads numbers with units of time",
    "large": "is too large: in units of its last decimal (--decimals) it has to be below 2^64",
}


@dataclasses.dataclass
class Case:
    arguments: list
    stdin: bytes
    files: dict
    wanted: tuple


def is_invisible(character):
    """Whether a character controls a terminal, has no width or changes the direction of text."""
    code = ord(character)
    ranges = ((0, 0x1F), (0x7F, 0x9F), (0x61C, 0x61C), (0x200B, 0x200F), (0x2028, 0x202E), (0x2060, 0x206F), (0xFEFF, 0xFEFF))
    return any(first <= code <= last for first, last in ranges)


def shown(text):
    """The start of a text, as an error shows it: at most 40 bytes, and no part of a character."""
    most = min(40, len(text))
    ends = [end for end in range(most, max(most - 4, -1), -1) if end == len(text) or text[end] & 0xC0 != 0x80]
    return "".join("?" if is_invisible(it) else it for it in text[: ends[0] if ends else most].decode("utf-8", "replace"))


def names_text(row):
    """The first fields of a row."""
    names = ""
    for it in row[:20]:
        names += (", " if names else "") + shown(it)
    return names + (", ..." if len(row) > 20 else "")


BETWEEN = {b",": "commas", b"\t": "tabs", b";": "semicolons", b" ": "spaces"}


def error_text(failure):
    name, line, text, why, start = failure.text
    if why == "no column":
        return f"{name}: no column `{line.decode()}`: give one of {names_text(text)}, or a number from 1"
    if why == "double name":
        first, second = text
        return f"{name}: columns {first} and {second} have the name `{line.decode()}`: give the number of one"
    if why == "open quote":
        return f"{name}: {line}: a quote opens a field and is never closed"
    if why == "no field":
        has = f"row 1 has, between {BETWEEN[start[0]]}, {names_text(start[1])}"
        return f"{name}: {line}: `{shown(text)}` is a row without that column; {has}; --delimiter sets another, --skip-bad ignores such rows"
    return f"{name}: {line}: `{shown(text)}` {REASONS[why]}"


def dropped_text(dropped):
    """The notes of first rows that were taken as names."""
    return "".join(f"hdrstat: {name}: row 1 is taken as names: {names_text(row)}; --no-header reads it as a row\n" for name, row in dropped)


def notes(tally):
    """What is written on standard error of rows of names, lines skipped and numbers rounded."""
    text = dropped_text(tally.dropped)
    text += f"hdrstat: bad lines skipped: {tally.skipped}\n" if tally.skipped else ""
    if tally.rounded and tally.options.decimals is None:
        have = "number has" if tally.rounded == 1 else "numbers have"
        were = "was" if tally.rounded == 1 else "were"
        text += f"hdrstat: {tally.rounded} {have} more than {tally.decimals} decimals, and {were} rounded\n"
    return text.encode()


def is_rounded(number, decimals):
    """Whether a number changes if it is rounded."""
    digits, places = number
    return places > decimals and digits % 10 ** (places - decimals) > 0


# Numbers


def digits(random, most=6):
    return "".join(random.choice("0123456789") for _ in range(random.randint(1, most)))


def odd_number(random):
    """A text that may be no number, or one out of range."""
    return random.choice([
        lambda: "-" + digits(random), lambda: "+" + digits(random), lambda: "++1", lambda: "-", lambda: "+", lambda: ".", lambda: "e5",
        lambda: digits(random, 25), lambda: digits(random, 400), lambda: "0" * random.randint(1, 300) + digits(random),
        lambda: f"{digits(random)}.{digits(random, 30)}", lambda: f".{digits(random)}", lambda: f"{digits(random)}.", lambda: "1.2.3",
        lambda: f"{digits(random)}e{random.randint(-30, 30)}", lambda: f"{digits(random)}.{digits(random)}E+{random.randint(0, 12)}",
        lambda: f"{digits(random, 3)}e-{random.randint(0, 9)}", lambda: f"0e{digits(random, 30)}", lambda: f"{digits(random)}e-{digits(random, 30)}",
        lambda: f"{digits(random)}e", lambda: f"{digits(random)}e+", lambda: f"{digits(random)}e1.5", lambda: "1_000", lambda: "1 2", lambda: "0x1f",
        lambda: "nan", lambda: "inf", lambda: "-Infinity", lambda: duration(random), lambda: duration(random), lambda: f"{digits(random)}e-3s", lambda: f"{digits(random)},{digits(random)}", lambda: f"{digits(random)}\t{digits(random)}", lambda: "1;2",
        lambda: "-0", lambda: "-abc", lambda: "12ms", lambda: "\N{ARABIC-INDIC DIGIT ONE}", lambda: "1\0", lambda: "\0", lambda: f"\N{MINUS SIGN}1",
        lambda: str(2**64 - 1), lambda: str(2**64), lambda: f"{2**64 - 1}.0", lambda: f"{2**64 - 1}.5", lambda: "1\r2", lambda: "#7", lambda: " # a",
        lambda: f"{2**64 // 10}.{random.randint(0, 9)}", lambda: "99999999999999999999x", lambda: "1e-39", lambda: "0.0e-50", lambda: "\v1", lambda: "1\f",
    ])().encode()


def duration(random):
    """A duration as programs print it, or a text much like one."""
    names = ["h", "m", "s", "ms", "us", "\N{MICRO SIGN}s", "\N{GREEK SMALL LETTER MU}s", "ns"]
    parts = random.choice([["ms"], ["s"], ["h", "m", "s"], ["m", "s"], random.choices(names, k=random.randint(1, 7)), ["us"], ["\N{MICRO SIGN}s"], ["sec"]])
    return random.choice(["", "", "", "+", "-"]) + "".join(digits(random, 2) + random.choice(["", "", ".", "." + digits(random, 3)]) + random.choice(["", "", "", " "]) + name for name in parts)


def number_line(random, decimals):
    text = digits(random, random.choice([3, 6, 9, 12]))
    if decimals and random.random() < 0.9:
        places = decimals if random.random() < 0.9 else random.randint(1, 17)
        text += "." + "".join(random.choice("0123456789") for _ in range(places))
    return text.encode()


def spaced(random, text):
    if random.random() < 0.9:
        return text
    return random.choice([b" ", b"\t", b"  ", b"\f"]) + text + random.choice([b"", b" ", b"\t"])


def broken(random, data):
    """Bytes with a few changed, taken out or added."""
    data = bytearray(data)
    for _ in range(random.randint(1, 3)):
        at = random.randint(0, len(data))
        byte = random.choice([0, 0xFF, 0xC3, 0xEF, ord('"'), 10, 13, ord("-"), ord("."), random.randint(0, 255)])
        action = random.randint(0, 2)
        if action == 0:
            data.insert(at, byte)
        elif at < len(data):
            if action == 1:
                data[at] = byte
            else:
                del data[at]
    return bytes(data)


def numbers(random, decimals):
    lines = []
    odd = random.choice([0, 0, 0.02, 0.1, 0.5])
    for _ in range(random.choice([0, 1, 2, 5, 20, 100])):
        chance = random.random()
        line = odd_number(random) if chance < odd else b"" if chance > 0.98 else b"#note" if chance > 0.97 else number_line(random, decimals)
        lines.append(spaced(random, line))
    end = random.choice([b"\n", b"\n", b"\n", b"\r\n"])
    data = end.join(lines) + random.choice([b"", end])
    if random.random() < 0.1:
        data = b"\xef\xbb\xbf" + data
    return broken(random, data) if random.random() < 0.2 else data


def amount(random, decimals):
    """A number for an option, as text, digits and decimals."""
    whole, places = random.randint(100, 5000), random.randint(0, decimals)
    return decimal_text(whole, places), (whole, places)


def options(random, decimals):
    """Options of the input: arguments and what they mean."""
    arguments, chosen = [], Options()
    if random.random() < 0.3:
        chosen.sigfig = random.randint(0, 5)
        arguments += random.choice([["-d", str(chosen.sigfig)], [f"--digits={chosen.sigfig}"]])
    if random.random() < 0.25:
        chosen.decimals = random.choice([0, 1, decimals, decimals + 1, 18])
        arguments += ["--decimals", str(chosen.decimals)]
    if random.random() < 0.3:
        chosen.skips_bad = True
        arguments.append("--skip-bad")
    return arguments, chosen


def percentiles(random):
    """A list of percentiles: the argument, and for each its text, numerator and denominator."""
    found = []
    for _ in range(random.randint(1, 5)):
        places = random.choice([0, 0, 1, 2, 3, 6])
        number = random.choice([random.randint(0, 100 * 10**places), 100 * 10**places, 0, 99 * 10**places, 50 * 10**places])
        text = decimal_text(number, places)
        if text not in [it for it, _, _ in found]:
            found.append((text, number, 100 * 10**places))
    texts = [text for text, _, _ in found]
    if random.random() < 0.2:
        texts.append(random.choice(texts))
    return ",".join(random.choice(["", "p"]) + text + random.choice(["", "%"]) for text in texts), found


USUAL = [("50", 50, 100), ("90", 90, 100), ("99", 99, 100), ("99.9", 999, 1000)]


# Figures


def shifted(units, decimals, shift):
    """A decimal divided by ten this many times, and multiplied if it is negative."""
    decimals += shift
    return decimal_text(units, decimals) if decimals >= 0 else str(units * 10**-decimals)


def figures(tally, wanted, shift=0):
    """Names and values of the figures; None where there is no value."""
    samples, decimals = tally.samples, tally.decimals or 0
    count = samples.len()
    value = (lambda units: shifted(units, decimals, shift)) if count else lambda _: None
    mean = None
    if count:
        total = samples.mean_of_classes() if tally.interval else samples.total
        places = max(0, decimals + shift) + 2
        total *= 10 ** (places - decimals - shift)
        mean = decimal_text((2 * total + count) // (2 * count), places)
    found = [("count", str(count)), ("min", value(samples.least)), ("mean", mean)]
    found += [(f"p{text}", value(samples.at(num, den))) for text, num, den in wanted]
    return [*found, ("max", value(samples.greatest))]


def table_text(found):
    wide = max(len(name) for name, _ in found)
    whole = max(len((value or "-").split(".")[0]) for _, value in found)
    lines = []
    for name, value in found:
        value = value or "-"
        lines.append(f"{name:{wide}}  {' ' * (whole - len(value.split('.')[0]))}{value}\n")
    return "".join(lines)


def separated_text(found, separator):
    return separator.join(name for name, _ in found) + "\n" + separator.join(value or "" for _, value in found) + "\n"


def json_text(found):
    return "{" + ",".join(f"{json.dumps(name)}:{value or 'null'}" for name, value in found) + "}\n"


FORMATS = {"table": table_text, "csv": lambda it: separated_text(it, ","), "tsv": lambda it: separated_text(it, "\t"), "json": json_text}


def summary_case(random, arguments, chosen, data, take):
    """A case of summary on standard input, or on one file or two."""
    arguments, wanted = ["summary", *arguments], USUAL
    if random.random() < 0.5:
        text, wanted = percentiles(random)
        arguments += random.choice([["-p", text], [f"--percentiles={text}"]])
    name = random.choice(["table", "table", "csv", "tsv", "json"])
    if name != "table" or random.random() < 0.2:
        arguments += random.choice([["-f", name], [f"--format={name}"]])
    shift = 0
    if random.random() < 0.2:
        unit, to = random.choice(list(UNITS)), random.choice(list(UNITS))
        arguments += ["--unit", unit, "--output-unit", to]
        chosen.unit, shift = unit, UNITS[unit] - UNITS[to]
    files, stdin = {}, data
    if random.random() < 0.2:
        files, stdin = {"one": data}, b""
        arguments.append("one")
        if random.random() < 0.5:
            files["two"] = data[: len(data) // 2]
            arguments.append("two")
    if chosen.decimals is not None and is_rounded(chosen.interval, chosen.decimals):
        return Case(arguments, stdin, files, (b"", None, 2))
    try:
        tally = tally_of(chosen, files or {"standard input": stdin}, bool(files), take)
    except Failure as failure:
        return Case(arguments, stdin, files, (b"", f"{dropped_text(failure.dropped)}hdrstat: {error_text(failure)}\n".encode(), 1))
    if tally.skipped > tally.lines_read:
        return Case(arguments, stdin, files, (b"", notes(tally) + b"hdrstat: more lines were skipped than counted\n", 1))
    return Case(arguments, stdin, files, (FORMATS[name](figures(tally, wanted, shift)).encode(), notes(tally), 0))


def tally_of(chosen, inputs, are_files, take):
    """The numbers of inputs, by the decimals of those that begin in their first 64 KiB, or of all if files have more."""
    tally = Tally(chosen)
    tally.survey([(name, surveyed(data)) for name, data in inputs.items()], take)
    take_all(tally, inputs, take)
    if are_files and tally.rounded:
        finer = Tally(chosen)
        finer.survey(inputs.items(), take)
        if finer.decimals > tally.decimals:
            take_all(finer, inputs, take)
            finer.dropped = tally.dropped
            return finer
    return tally


def take_all(tally, inputs, take):
    """Reads inputs. An error knows which first rows were taken as names before it."""
    try:
        for name, data in inputs.items():
            take(tally, name, data)
    except Failure as failure:
        failure.dropped = tally.dropped
        raise


def number_case(random):
    decimals = random.choice([0, 0, 0, 1, 3, 4, 6])
    arguments, chosen = options(random, decimals)
    data = numbers(random, decimals)
    if random.random() < 0.2:
        text, chosen.interval = amount(random, decimals)
        arguments += ["--expected-interval", text]
        data = b"\n".join(decimal_text(random.randint(0, 300_000), decimals).encode() for _ in range(random.randint(0, 30)))
    elif random.random() < 0.1:
        data = after_long_start(random, data)
    return summary_case(random, arguments, chosen, data, Tally.lines)


def after_long_start(random, data):
    """A line that ends near the end of what is surveyed, and other lines after it."""
    start = b"7\n" * random.randint(30_000, 32_000)
    return start + b"0" * (random.randint(65_530, 65_540) - len(start)) + b"8\n" + data


# Tables


def field(random, text, delimiter):
    """A field as a table has it, quoted if it has to be, or at times for no reason."""
    if any(it in text for it in (delimiter, b'"', b"\n", b"\r")) or random.random() < 0.1:
        return b'"' + text.replace(b'"', b'""') + b'"'
    return text


def table(random, decimals, delimiter, names):
    """The bytes of a table. Column 1 has numbers, the others text."""
    texts = [b"", b"ok", b"a b", b"x\ny", b'say "hi"', b"1,5", b"a;b\tc", b"\xff", b"=1+1", b"caf\xc3\xa9", b"a\r\nb"]
    odd = random.choice([0, 0, 0.05, 0.3])
    rows = [names] if names else []
    for _ in range(random.choice([0, 1, 3, 10, 40])):
        number = odd_number(random) if random.random() < odd else spaced(random, number_line(random, decimals))
        row = [random.choice(texts), number, random.choice(texts)]
        if random.random() < odd:
            row = row[: random.randint(0, 3)]
        rows.append(row)
    if rows and random.random() < 0.1:
        rows[0] = random.choice([[b"1", b"2", b"2"], [b"2", b"7", b"7"], [b"7", b"2"]])
    end = random.choice([b"\n", b"\n", b"\r\n"])
    return end.join(delimiter.join(field(random, it, delimiter) for it in row) for row in rows) + random.choice([b"", end])


def table_case(random):
    decimals = random.choice([0, 0, 2, 4])
    arguments, chosen = options(random, decimals)
    delimiter = random.choice([b",", b",", b"\t", b";"])
    names = random.choice([[b"when", b"took", b"note"], [b" when", b"took ", b"note"], [b"took", b"took", b"a,b"], None])
    data = table(random, decimals, delimiter, names)
    if random.random() < 0.15:
        data = broken(random, data)
    if random.random() < 0.05:
        data = b"\xef\xbb\xbf" + data
    chosen.column = random.choice([b"took", b"took", b"2", b"2", b"1", b"7", b"0", b"none"])
    arguments += random.choice([["-c", chosen.column.decode()], [f"--column={chosen.column.decode()}"]])
    if random.random() < 0.3:
        chosen.delimiter = delimiter
        arguments += ["--delimiter", {b",": ",", b"\t": "tab", b";": ";"}[delimiter]]
    if random.random() < 0.15:
        chosen.has_header = False
        arguments.append("--no-header")
    return summary_case(random, arguments, chosen, data, Tally.table)


# Checks


class NumberTally:
    """What levels see of numbers."""

    def __init__(self, tally):
        self.decimals, self.samples, self.exact = tally.decimals, tally.samples, tally.exact
        self.rounded, self.missing, self.interval = tally.rounded, len(tally.exact) - tally.lines_read, tally.interval

    def known(self):
        numbers = [fraction(digits, decimals) for digits, decimals, _ in self.exact]
        return [Known(it, it, 1) for it in numbers]

    def mean_ends(self, samples):
        """The least and the greatest that the mean may be: a number that was rounded is off by half a unit at most, and a missing sample as much."""
        off = -(-(self.rounded + self.missing) // 2) if self.rounded else 0
        total, scale = sum(value for _, _, value in self.exact), len(self.exact) * 10 ** (self.decimals or 0)
        return Fraction(max(total - off, 0), scale), Fraction(total + off, scale)

    def mean(self):
        """The mean of the numbers as they are rounded, in units, or that of their classes."""
        if not self.exact:
            return None
        total = self.samples.mean_of_classes() if self.interval else sum(value for _, _, value in self.exact)
        return Fraction(total, len(self.exact))

    def greatest_within(self, level):
        return max(value for digits, decimals, value in self.exact if level.is_within(fraction(digits, decimals)))


def check_case(random):
    decimals = random.choice([0, 0, 1, 3])
    arguments, chosen = options(random, decimals)
    data = numbers(random, decimals)
    if random.random() < 0.25:
        text, chosen.interval = amount(random, decimals)
        arguments += ["--expected-interval", text]
        data = b"\n".join(decimal_text(random.randint(0, 300_000), decimals).encode() for _ in range(random.randint(0, 30)))
        if chosen.decimals is not None and is_rounded(chosen.interval, chosen.decimals):
            return Case(["check", *arguments, "count>=0"], data, {}, (b"", None, 2))
    unit = random.choice([None, None, *UNITS])
    arguments += ["--unit", unit] if unit else []
    chosen.unit = unit
    tally, failure = Tally(chosen), None
    try:
        tally.survey([("standard input", surveyed(data))], Tally.lines)
        tally.lines("standard input", data)
    except Failure as it:
        failure = it
    seen = NumberTally(tally)
    samples = seen.known()
    texts, lines = checked(random, samples, seen, unit, seen.mean())
    is_empty_allowed = random.random() < 0.2
    arguments = ["check", *arguments, *(["--allow-empty"] if is_empty_allowed else []), *texts]
    if failure:
        return Case(arguments, data, {}, (b"", f"hdrstat: {error_text(failure)}\n".encode(), 1))
    is_mostly_skipped = tally.skipped > tally.lines_read
    told = notes(tally)
    told += b"hdrstat: more lines were skipped than counted\n" if is_mostly_skipped else b""
    if not samples and not is_empty_allowed:
        return Case(arguments, data, {}, (b"", told + b"hdrstat: no numbers; --allow-empty accepts an empty input\n", 3))
    out = "".join(f"{verdict} {text} {rest}\n" for text, (verdict, rest) in zip(texts, lines))
    return Case(arguments, data, {}, (out.encode(), told, status_of([verdict for verdict, _ in lines], is_mostly_skipped)))
