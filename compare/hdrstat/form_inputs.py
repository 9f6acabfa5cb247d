"""Random tables, lines of JSON, and lines with matches for hdrstat, with what the model prints."""
import dataclasses
import json
import re
from fractions import Fraction

from forms import Record, decimals_of_records, levels_of
from forms import note_of, numbers_read, read_records, summary_of
from inputs import USUAL, Case, digits, field, percentiles
from levels import UNITS, Level, random_level

# Texts of groups and of conditions. The plain ones are not quoted, and have no blanks
PLAIN = [b"200", b"500", b"GET", b"get", b"/a/b", b"caf\xc3\xa9", b"A=1", b"+x", b"100"]
NAMES = [*PLAIN, b"=1+1", b"-", b'say "hi"', b"a,b", b"a b", b"100%", b"x;y", b""]
# The decimals of an input whose numbers have different ones
MIXED = -1
E_ACUTE = "\N{LATIN SMALL LETTER E WITH ACUTE}"


@dataclasses.dataclass
class Form:
    """An input: the arguments that read it, its bytes, and the records that it has."""

    arguments: list
    data: bytes
    records: list
    decimals: int
    is_grouped: bool = False
    # Whether a first row that is dropped as names may be said on standard error
    drops_names: bool = False


# What a command prints of a form


def some_levels(random, read, unit):
    groups = list(read.groups.values())[:3]
    found = [random_level(random, it.exact, it, unit) for it in groups for _ in range(2)]
    found = [it for it in found if it][: random.randint(1, 4)]
    return found or [Level("count>=0", "count", ">=", Fraction(0))]


def summary_output(random, form, read):
    """The arguments of summary, and what it prints."""
    name, wanted, arguments = random.choice(["table", "csv", "json"]), USUAL, []
    if random.random() < 0.4:
        text, wanted = percentiles(random)
        arguments = ["-p", text]
    arguments += ["-f", name]
    if read.has_error:
        return arguments, (b"", None, 1)
    out = summary_of(read, name, wanted, form.is_grouped, form.decimals)
    return arguments, (out, note_of(read), 0)


def check_output(random, form, read, unit):
    """The arguments of check, and what it prints."""
    if read.has_error:
        return ["count>=0"], (b"", None, 1)
    levels = some_levels(random, read, unit)
    texts = [it.text for it in levels]
    if not read.groups:
        note = b"hdrstat: no numbers; --allow-empty accepts an empty input\n"
        return texts, (b"", note_of(read) + note, 3)
    out, status = levels_of(read, levels, form.is_grouped)
    return texts, (out, note_of(read), status)


def none_chosen(arguments, name):
    """The note if the lines of a file that these arguments choose are none."""
    if "--match" in arguments:
        return f"{name}: --match finds no number"
    if "--where" in arguments and "--count" not in arguments:
        return f"{name}: no {'line' if '--json' in arguments else 'row'} has the text of each --where"
    return ""


def output_case(random, form):
    """A case of summary or check of a form, on standard input or in a file."""
    skips_bad, sigfig = random.random() < 0.4, random.choice([3, 3, 3, 2, 5])
    unit, is_check = random.choice([None, *UNITS]), random.random() < 0.35
    arguments = [*form.arguments, *(["--skip-bad"] if skips_bad else [])]
    arguments += ["-d", str(sigfig)] if sigfig != 3 else []
    arguments += ["--unit", unit] if unit else []
    if form.decimals == MIXED:
        form.decimals = decimals_of_records(form.records)
    read = read_records(form.records, form.decimals, skips_bad, sigfig)
    is_file = random.random() < 0.4
    read.none_chosen = none_chosen(form.arguments, "one" if is_file else "standard input")
    if is_check:
        more, wanted = check_output(random, form, read, unit)
    else:
        more, wanted = summary_output(random, form, read)
    if read.skipped and read.skipped >= numbers_read(read):
        wanted = None, None, None
    if form.drops_names:
        wanted = wanted[0], None, wanted[2]
    files, stdin = ({"one": form.data}, b"") if is_file else ({}, form.data)
    inputs = [word for name in files for word in (["-i", name] if is_check else [name])]
    command = "check" if is_check else "summary"
    return Case([command, *arguments, *inputs, *more], stdin, files, wanted)


def number_text(random, decimals):
    """A number with so many decimals."""
    decimals = random.choice([0, 0, 1, 3, 6]) if decimals == MIXED else decimals
    whole = str(int(digits(random, random.choice([1, 3, 6]))))
    part = "".join(random.choice("0123456789") for _ in range(decimals))
    return f"{whole}.{part}" if decimals else whole


def equal_decimals(random):
    return random.choice([0, 0, 2, 3])


def few_texts(random, texts):
    return random.sample(texts, random.randint(1, min(4, len(texts))))


# Tables

TOOK, CODE, PATH, TIMES = range(4)
HEADS = [b"took", b"code", b"path", b"times"]
GROUPED = [[], [CODE], [PATH], [CODE, PATH], [PATH, CODE], [CODE, CODE]]
DELIMITERS = {b",": "comma", b";": "semicolon", b"\t": "tab", b" ": "space"}
BAD_NUMBERS = [b"-5", b"x", b"NaN", b"1.2.3", b"-", b"12_5"]


def table_rows(random, decimals, names):
    """Rows of a number, two texts and a count, of which some are bad or left out."""
    codes, paths = few_texts(random, names), few_texts(random, names)
    counts = random.choice([[b"1"], [b"1", b"2", b"30"], [b"7", b"1000000", b"1"]])
    odd, rows = random.choice([0, 0, 0, 0.03, 0.1]), []
    for _ in range(random.choice([1, 2, 5, 20, 60])):
        number = number_text(random, decimals).encode()
        if random.random() < odd:
            number = random.choice(BAD_NUMBERS)
        count = random.choice([b"x", b"-1", b"1.5"] if random.random() < odd / 3 else counts)
        row = [number, random.choice(codes), random.choice(paths), count]
        rows.append(row[: random.randint(1, 3)] if random.random() < odd else row)
    return rows


def blanks(random, *counts):
    return b" " * random.choice(counts)


def row_bytes(random, row, delimiter):
    if delimiter != b" ":
        return delimiter.join(field(random, it, delimiter) for it in row)
    text = b"".join(it + blanks(random, 1, 1, 3) for it in row).rstrip(b" ")
    return blanks(random, 0, 0, 2) + text + blanks(random, 0, 0, 1)


def table_bytes(random, rows, delimiter):
    end = random.choice([b"\n", b"\n", b"\r\n"])
    lines = [row_bytes(random, row, delimiter) for row in rows]
    return end.join(lines) + random.choice([b"", end])


def field_of(row, index):
    return row[index] if index < len(row) else None


def condition(random, rows):
    """A column, and a text that it mostly has in some rows."""
    index = random.choice([CODE, PATH])
    found = [row[index] for row in rows if len(row) > index]
    return index, random.choice(found) if found and random.random() < 0.9 else b"none"


def table_record(row, by, where):
    groups = tuple(field_of(row, it) for it in by)
    is_chosen = where is None or field_of(row, where[0]) == where[1]
    return Record(field_of(row, TOOK), groups, is_chosen=is_chosen)


def table_case(random, decimals):
    """A case of --by, --where and --delimiter on a table."""
    delimiter = random.choice([b",", b";", b"\t", b" "])
    rows = table_rows(random, decimals, PLAIN if delimiter == b" " else NAMES)
    has_names, by = random.random() < 0.7, random.choice(GROUPED)
    where = condition(random, rows) if random.random() < 0.35 else None

    def column(index):
        return HEADS[index].decode() if has_names and random.random() < 0.7 else str(index + 1)

    arguments = ["-c", column(TOOK), *([] if has_names else ["--no-header"])]
    arguments += ["--by", ",".join(column(it) for it in by)] if by else []
    arguments += ["--where", f"{column(where[0])}={where[1].decode()}"] if where else []
    if delimiter == b" " or not has_names or random.random() < 0.3:
        arguments += ["--delimiter", DELIMITERS[delimiter]]
    records = [table_record(row, by, where) for row in rows]
    data = table_bytes(random, ([HEADS] if has_names else []) + rows, delimiter)
    drops_names = has_names and not any(it.decode() in word for word in arguments for it in HEADS)
    return output_case(random, Form(arguments, data, records, decimals, bool(by), drops_names))


class Ends:
    """Equal to bytes that end with these."""

    def __init__(self, end):
        self.end = end

    def __eq__(self, other):
        return other.endswith(self.end)

    def __repr__(self):
        return f"..{self.end!r}"


def many_groups_case(random):
    """A case of about as many groups as there may be."""
    count = random.choice([999, 1000, 1001, 1200])
    names = [b"g%d" % it for it in [*range(count), *(random.randrange(count) for _ in range(100))]]
    records = [Record(b"%d" % random.randint(0, 999), (name,)) for name in names]
    data = b"took,id\n" + b"".join(b"%s,%s\n" % (it.number, it.groups[0]) for it in records)
    read = read_records(records, 0, False)
    arguments = ["summary", "-c", "took", "--by", "id", "-f", "csv", "-p", "50"]
    if not read.has_error:
        return Case(arguments, data, {}, (summary_of(read, "csv", USUAL[:1], True, 0), b"", 0))
    note = b"column `id` has more than 1000 different texts; choose one with fewer\n"
    return Case(arguments, data, {}, (b"", Ends(note), 1))


def group_case(random):
    if random.random() < 0.01:
        return many_groups_case(random)
    return table_case(random, equal_decimals(random))


# Lines of JSON. A path is a tuple of names

OTHERS = ['"text"', "null", "true", "[1,2,{}]", '{"value":7}', "-1e5", '"\\u00e9\\n"', "[]"]
PATHS = [
    [("took",), ("status",), ("data", "tags", "name")],
    [("data", "value"), ("code",), ("metric",)],
    [("http", "latency"), ("http", "status"), ("a_b", "c-d")],
    [("a", "b", "c"), ("a", "d"), ("e",)],
]


def json_string(random, text):
    """A string of JSON, in which some characters are escaped that need not be."""
    found = json.dumps(text, ensure_ascii=random.random() < 0.3)
    return found.replace("/", "\\/") if random.random() < 0.2 else found


def json_object(random, values):
    """An object with the texts of these values by their paths, and with others beside them."""
    parts, inner = [], {}
    for path, text in values.items():
        if len(path) == 1:
            parts.append((path[0], text))
        else:
            inner.setdefault(path[0], {})[path[1:]] = text
    parts += [(name, json_object(random, more)) for name, more in inner.items()]
    parts += [(f"other{it}", random.choice(OTHERS)) for it in range(random.randint(0, 2))]
    random.shuffle(parts)
    blank = random.choice(["", "", " "])
    members = [f"{blank}{json_string(random, name)}:{blank}{text}" for name, text in parts]
    return "{" + ",".join(members) + blank + "}"


def dotted(path):
    return "".join(f".{name}" for name in path)


def json_record(random, paths, texts, decimals, odd):
    """A line with an object, its number or a text that is none, and the texts of its groups."""
    number = number_text(random, decimals)
    code, name = random.choice(["200", "404"]), random.choice(texts)
    if random.random() < odd:
        number = random.choice(["-5", "true", "null", '"x"', "{}", "[1]"])
    line = json_object(random, dict(zip(paths, [number, code, json_string(random, name)])))
    if random.random() < odd / 2:
        return line[: random.randrange(1, len(line))], None, ("", "")
    return line, number, (code, name)


def json_lines_case(random, decimals):
    """A case of --json, with --by and --where."""
    paths = random.choice(PATHS)
    texts = few_texts(random, [it.decode() for it in [*PLAIN, b'say "hi"', b"a,b"]])
    by, odd = random.choice([[], [0], [1], [0, 1]]), random.choice([0, 0, 0.05])
    where = random.choice([None, None, random.choice(texts)])
    lines, records = [], []
    for _ in range(random.choice([1, 3, 20, 60])):
        line, number, found = json_record(random, paths, texts, decimals, odd)
        lines.append(line)
        groups = tuple(found[it].encode() for it in by)
        is_chosen = number is None or where in (None, found[1])
        records.append(Record((number or "none").encode(), groups, is_chosen=is_chosen))
    arguments = ["--json", dotted(paths[0])]
    arguments += ["--by", ",".join(dotted(paths[1 + it]) for it in by)] if by else []
    arguments += ["--where", f"{dotted(paths[2])}={where}"] if where else []
    data = "".join(line + "\n" for line in lines).encode()
    return output_case(random, Form(arguments, data, records, decimals, bool(by)))


def json_case(random):
    return json_lines_case(random, equal_decimals(random))


# Matches

# A regular expression, and what is before and after the number that it matches
PATTERNS = [
    (r"time=([0-9.]+)", "64 bytes from ::1: ttl=64 time=", " ms"),
    (r"<([0-9.]+)>$", 'read(3, "", 5) = 0 <', ">"),
    (r"([0-9.]+)$", "GET /a 200 ", ""),
    (r"^r ([0-9.]+)", "r ", " 12"),
    (r"(?:took|in)[ :]+([0-9.]+) ?ms", "done, took: ", "ms"),
    (r'"ms":([0-9.]+)[,}]', '{"a":1,"ms":', "}"),
    (r"\blat=(\S+)", "x=1 lat=", " y=2"),
]
WITHOUT = ["", "PING ::1", "exit_group(0) = ?", "-- no number --", "latency: none", f"caf{E_ACUTE}"]


def line_around(random, before, number, after):
    """A line with a number between texts, or at times another one."""
    line, chance = before + number + after, random.random()
    if chance < 0.15:
        return random.choice(WITHOUT)
    if chance < 0.2:
        return random.choice(["x ", "[1] ", f"caf{E_ACUTE} "]) + line
    return f"{line} {line}" if chance < 0.23 else line


def match_lines_case(random, decimals):
    """A case of --match."""
    pattern, before, after = random.choice(PATTERNS)
    lines, records = [], []
    for _ in range(random.choice([1, 5, 30, 80])):
        lines.append(line_around(random, before, number_text(random, decimals), after))
        found = re.search(pattern, lines[-1])
        records.append(Record(found[1].encode() if found else b"", (), is_chosen=bool(found)))
    end = random.choice(["\n", "\n", "\n", "\r\n"])
    data = (end.join(lines) + random.choice(["", end])).encode()
    # (another number of a line may match)
    return output_case(random, Form(["--match", pattern], data, records, MIXED))


def match_case(random):
    return match_lines_case(random, equal_decimals(random))


def mixed_case(random):
    """A case whose numbers have different decimals: the most of them are those of all groups."""
    return random.choice([table_case, json_lines_case, match_lines_case])(random, MIXED)
