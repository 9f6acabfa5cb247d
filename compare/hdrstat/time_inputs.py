"""Random rows with times for hdrstat, with the log or the page that the model writes of them."""
import datetime

from form_inputs import PLAIN, few_texts, json_object, json_string, number_text
from forms import Paged, Printed, Record, Written, nanoseconds_of, note_of, read_records
from inputs import Case, field
from levels import UNITS
from model import decimal_text

# The argument of --every, and its milliseconds
LENGTHS = [("1s", 1000), (None, 1000), ("500ms", 500), ("10s", 10_000), ("60s", 60_000)]
FORMS = ["offset", "s", "ms", "us", "ns", "iso", "named", "named"]
STEPS = [10**6, 10**8, 3 * 10**9, 10**11]
BAD_TIMES = ["x", "-5", "2026-11-28", "2026-11-28T06:00:00", "2026-13-28T06:00:00Z", "1e40"]
ZONES = [0, 0, 60, 120, -300, 330]
# The paths of a line of JSON, and the columns of a table
NUMBER, TIME, GROUP = ("took",), ("at",), ("code",)


def iso_time(random, nanoseconds):
    """A date in ISO 8601 with a zone, and its nanoseconds as far as it has them."""
    places, zone = random.choice([0, 3, 3, 6, 9]), random.choice(ZONES)
    kept = nanoseconds - nanoseconds % 10 ** (9 - places)
    date = datetime.datetime(1970, 1, 1) + datetime.timedelta(seconds=kept // 10**9 + zone * 60)
    part = f".{kept % 10**9:09d}"[: places + 1] if places else ""
    hours, minutes = divmod(abs(zone), 60)
    shown = f"{'-' if zone < 0 else '+'}{hours:02d}:{minutes:02d}"
    if not zone and random.random() < 0.8:
        shown = "Z"
    return date.strftime("%Y-%m-%dT%H:%M:%S") + part + shown, kept


def unit_time(nanoseconds, unit, places):
    """A time in a unit with so many decimals, and its nanoseconds as far as it has them."""
    units = nanoseconds // 10 ** (9 - UNITS[unit] - places)
    return decimal_text(units, places), nanoseconds_of(units, places, unit)


def times_of(random, count):
    """Times as texts, with their nanoseconds, and the arguments that read them."""
    form, step = random.choice(FORMS), random.choice(STEPS)
    base = 0 if form in ("offset", "named") else random.randint(10**18, 2 * 10**18)
    exact = [base + random.randrange(20) * step + random.randrange(step) for _ in range(count)]
    if form == "iso":
        return [iso_time(random, it) for it in exact], []
    unit = random.choice(list(UNITS)) if form == "named" else {"offset": "s"}.get(form, form)
    places = random.choice({"s": [0, 3, 9], "ms": [0, 0, 3]}.get(unit, [0]))
    times = [unit_time(it, unit, places) for it in exact]
    if form in ("ms", "us", "ns") and random.random() < 0.3:
        # The unit is that of the first time's size, so a later time may be of any size below
        times[1:] = [random.choice([it, small_time(random, unit)]) for it in times[1:]]
    return times, ["--time-unit", unit] if form == "named" else []


def small_time(random, unit):
    number = random.randrange(10 ** random.randint(1, 11))
    return str(number), nanoseconds_of(number, 0, unit)


def json_bytes(random, rows):
    """Lines of JSON of numbers, times and groups."""
    lines = []
    for number, time, group in rows:
        time = time if time.replace(".", "").isdigit() else f'"{time}"'
        values = {NUMBER: number, TIME: time, GROUP: json_string(random, group)}
        lines.append(json_object(random, values) + "\n")
    return "".join(lines).encode()


def csv_bytes(random, rows):
    heads = [NUMBER[0], TIME[0], GROUP[0]]
    lines = [b",".join(field(random, it.encode(), b",") for it in row) for row in [heads, *rows]]
    return b"".join(line + b"\n" for line in lines)


def time_case(random):
    """A case of log --time, or of a page from a table or from lines of JSON."""
    decimals, count = random.choice([0, 0, 2]), random.choice([1, 3, 20, 60])
    times, arguments = times_of(random, count)
    skips_bad = random.random() < 0.3
    arguments += ["--skip-bad"] if skips_bad else []
    if count > 2 and random.random() < 0.08:
        times[random.randrange(1, count)] = random.choice(BAD_TIMES), None
    every, length = random.choice(LENGTHS)
    is_page, is_grouped, is_json = (random.random() < it for it in (0.3, 0.5, 0.25))
    names = PLAIN[:3] if is_page or is_json else [*PLAIN, b"a b", b"a,b", b"100%", b""]
    texts = [it.decode() for it in few_texts(random, names)]
    rows = [(number_text(random, decimals), time, random.choice(texts)) for time, _ in times]
    dot = "." if is_json else ""
    arguments += ["--json" if is_json else "-c", dot + NUMBER[0], "--time", dot + TIME[0]]
    arguments += ["--by", dot + GROUP[0]] if is_grouped else []
    arguments += ["--every", every] if every else []
    records = [
        Record(number.encode(), (group.encode() if is_grouped else b"",), time=time)
        for (number, _, group), (_, time) in zip(rows, times)
    ]
    start = lambda it: it.time // (length * 10**6) * length
    read = read_records(records, decimals, skips_bad, key=lambda it, name: (start(it), name))
    data = json_bytes(random, rows) if is_json else csv_bytes(random, rows)
    if not is_page:
        return Case(["log", *arguments], data, {}, printed_log(records, decimals, skips_bad, start, length))
    arguments = ["page", "--intervals", *arguments]
    if read.has_error:
        return Case(arguments, data, {}, (b"", None, 1))
    return Case(arguments, data, {}, (Paged(read, length), note_of(read), 0))


def printed_log(records, decimals, skips_bad, start, length):
    """What log prints of records that it reads from a pipe, up to the first one with an error, and its status."""
    read_all = lambda count, printed: read_records(
        records[:count], decimals, skips_bad, key=lambda it, name: (start(it), name, printed.part_of(start(it)))
    )
    good = next((it for it in range(len(records)) if read_all(it + 1, Printed()).has_error), None)
    printed = Printed()
    read = read_all(good, printed)
    if good is not None:
        return Written(read, length, printed.parts), None, 1
    return Written(read, length, printed.parts + 1), note_of(read) + printed.note(), 0
