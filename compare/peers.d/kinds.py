"""The kinds in which results of the other libraries may differ from the exact ones. A result of no kind is an error."""
import math
from fractions import Fraction

from versions import decompressed, encode

C, JAVA, RUST = "HdrHistogram_c", "Java", "Rust"
NONE = (1 << 63) - 1


def parsed(name, text):
    """A result as a value: a number, a list, bytes, or a text. None if the library has no such call."""
    if text == "-":
        return None
    if text.startswith("error") or name in ("new", "correct", "decode"):
        return text
    if name in ("mean", "sd", "below"):
        words = text.split(" ")
        return float(text) if len(words) == 1 else Fraction((int(words[1]) << 64) + int(words[0]), int(words[2]) or 1)
    if name in ("recorded", "linear", "log", "ticks"):
        return [tuple(map(int, pair.split(":"))) for pair in text.split()]
    if name == "class":
        return [None if word == "-" else int(word) for word in text.split(" ")]
    if name in ("encode", "compress"):
        return bytes.fromhex(text) if name == "encode" else decompressed(bytes.fromhex(text))
    return int(text)


def text_of(value):
    """A value as the drivers print it; bytes are hexadecimal digits."""
    if isinstance(value, bytes):
        return value.hex()
    if isinstance(value, list):
        return " ".join(":".join(map(str, it)) if isinstance(it, tuple) else str(it) for it in value)
    return f"{value} = {float(value):.17g}" if isinstance(value, Fraction) else str(value)


def is_same(query, came):
    if query.name == "class" and isinstance(came, list):
        return len(came) == 5 and all(it in (None, wanted) for it, wanted in zip(came, query.wanted))
    if isinstance(came, float):
        return came == float(query.wanted)
    return came == query.wanted


def rank_in_c(model, num, den):
    """The rank that HdrHistogram_c takes: rounded, and of doubles."""
    percentile = num / den
    return max(1, int(min(percentile, 100.0) / 100 * model.total + 0.5))


def rank_in_java(model, num, den):
    """The rank that Java's library takes: rounded up from the next smaller double."""
    percentile = min(max(math.nextafter(num / den, -math.inf), 0.0), 100.0)
    return max(1, math.ceil(percentile * float(model.total) / 100.0))


def rank_in_rust(model, num, den):
    """The rank that the Rust crate takes: rounded up, and of doubles."""
    return max(1, math.ceil(min(num / den / 100.0, 1.0) * float(model.total)))


def is_of_rank(rank):
    """The value of this rank; past the last sample, as doubles may be, 0 or the class of 0."""
    def is_kind(query, came):
        model, (num, den) = query.model, query.of
        at = rank(model, num, den)
        return came in (0, model.scale.top(0)) if at > model.total > 0 else came == model.value_of_rank(at, num == 0)
    return is_kind


def is_rounded(query, came):
    return isinstance(came, float) and abs(came - float(query.wanted)) <= 1e-12 * float(query.wanted)


def is_double_root(query, came):
    """The standard deviation, whose root is not rounded down, in doubles: within what the mean is rounded by."""
    if not isinstance(came, float) or not query.model.total:
        return False
    once, twice = query.model.moments()
    total = query.model.total
    root = math.isqrt(total * twice - once * once << 128) / (total << 64)
    return abs(came - root) <= 1e-12 * (root + once / total)


def is_single_zero(query, came):
    return query.name == "compress" and came == encode(query.model, 2, -1)


def has_wrapped(query, came):
    """The sum of the middles exceeds 63 bits and wraps: the mean, and the deviation from that mean, in doubles."""
    model = query.model
    once = model.moments()[0]
    if once < 1 << 63 or not isinstance(came, float):
        return False
    mean = float((once + (1 << 63)) % (1 << 64) - (1 << 63)) / float(model.total)
    if query.name == "mean":
        return came == mean
    middles = [(float(model.scale.middle(lowest)), float(model.counts[lowest])) for lowest in model.classes]
    root = math.sqrt(sum((middle - mean) ** 2 * count for middle, count in middles) / model.total)
    return abs(came - root) <= 1e-9 * root


def is_empty_nan(query, came):
    return query.model.total == 0 and isinstance(came, float) and math.isnan(came)


def is_empty_min(query, came):
    return query.model.total == 0 and came == NONE


def is_max_of_zeros(query, came):
    """Nothing but values of the class of 0: its greatest value, or the value."""
    return query.model.tops == [query.wanted] and query.model.classes == [0] and came == 0


def is_top_of_class_0(query, came):
    """No sample: the greatest value of the class of 0."""
    return query.model.total == 0 and came == query.model.scale.top(0)


def steps_in_c(model, levels):
    """The steps of HdrHistogram_c: a level belongs to the step that it ends."""
    found, at, value, before = [], -1, 0, 0
    for level in levels:
        lowest = model.scale.lowest(level)
        is_left = model.scale.length(model.high) > at and model.scale.lowest_at(at + 1) > lowest
        if not (model.up_to(at) < model.total or is_left):
            return found
        if value < lowest:
            at = min(model.scale.index(level), model.scale.length(model.high))
            value = model.scale.lowest_at(at)
        # Past the last class the level of the step before is kept.
        is_past = at >= model.scale.length(model.high)
        found.append(((found[-1][0] if found else 0) if is_past else level, model.up_to(at) - before))
        before = model.up_to(at)


def is_step_in_c(query, came):
    if query.name == "linear":
        levels = (i * query.of[0] for i in range(1, 1 << 62))
    else:
        levels = (query.of[0] * query.of[1] ** i for i in range(1 << 10))
    return came == steps_in_c(query.model, levels)


def ticks_in_doubles(model, ticks, next_tick):
    """Percentiles as HdrHistogram_c, Java and the Rust crate add them up; `next_tick` returns the next one."""
    found, tick, before = [], 0.0, 0
    for top, sum_ in zip(model.tops, model.sums):
        if sum_ == model.total:
            return [*found, (top, sum_ - before), (top, 0)]
        while tick <= next_tick.whole * sum_ / model.total:
            found.append((top, sum_ - before))
            before, tick = sum_, next_tick(tick, ticks)
    return found


def next_percentile(tick, ticks):
    return tick + 100.0 / (ticks * 2 ** (int(math.log(100 / (100.0 - tick)) / math.log(2)) + 1))


def next_quantile(tick, ticks):
    after = tick + 1.0 / (ticks << int(math.log2(1.0 / (1.0 - tick))) + 1)
    return 1.0 if after == tick else after


next_percentile.whole, next_quantile.whole = 100.0, 1.0


def is_tick_in_doubles(next_tick):
    def is_kind(query, came):
        return came == ticks_in_doubles(query.model, query.of[0], next_tick)
    return is_kind


def is_step_not_found(query, came):
    """The last step looks for 100 percent of the samples, and all of them are less in doubles."""
    total = query.model.total
    return str(came).startswith("error ArrayIndexOutOfBounds") and total > 0 and 100.0 * total / total < 100.0


def is_step_of_none(query, came):
    return query.model.total == 0 and came == [(0, 0)]


def is_log_step_more(query, came):
    """Further steps, up to the greatest value of the last class."""
    model, (start, base) = query.model, query.of
    levels = [start * base**i - 1 for i in range(len(came))]
    known = len(query.wanted)
    if len(came) <= known or came != [*query.wanted, *((level, 0) for level in levels[known:])]:
        return False
    return levels[-1] <= model.scale.top(model.scale.lowest_at(min(model.last(), model.scale.index(levels[-1]))))


def is_no_step(query, came):
    return query.model.total == 0 and came == []


def is_from_lowest(query, came):
    """Corrected from the lowest value of each class, and not from the greatest."""
    if query.group != "corrections":
        return False
    source = query.model.source.corrected(query.model.interval, lambda lowest: lowest)
    return came == (source.total if query.name == "total" else source.recorded())


def is_of_0_digits(query, came):
    return query.model.sigfig == 0 and str(came).startswith("error")


def is_short_version_0(query, came):
    """Counts of 2 or 4 bytes in version 0, whose cookies are 1c849328 and 1c849348, or end in 9 if compressed."""
    return str(came).startswith("error") and query.text[7:14] in ("1c84932", "1c84934") and query.text[14] in "89"


# Libraries, commands, text, and what a result of the kind is.
KINDS = [
    ((C,), ("new", "decode"), "0 digits are an error", is_of_0_digits),
    ((JAVA,), ("decode",), "version 0 of 2 or 4 bytes is an error", is_short_version_0),
    ((C,), ("q",), "rank rounded, in doubles", is_of_rank(rank_in_c)),
    ((JAVA,), ("q",), "rank of the next smaller double", is_of_rank(rank_in_java)),
    ((RUST,), ("q",), "rank in doubles", is_of_rank(rank_in_rust)),
    ((C,), ("q",), "no samples: top of the class of 0", is_top_of_class_0),
    ((C,), ("min",), "no samples: min is 2^63 - 1", is_empty_min),
    ((C, JAVA, RUST), ("max",), "zeros alone: max is 0", is_max_of_zeros),
    ((JAVA,), ("max",), "no samples: top of the class of 0, once decoded", is_top_of_class_0),
    ((C,), ("mean", "sd"), "no samples: NaN", is_empty_nan),
    ((C, JAVA, RUST), ("mean", "below"), "in doubles", is_rounded),
    ((C, JAVA, RUST), ("sd",), "root in doubles, not rounded down", is_double_root),
    ((C,), ("mean", "sd"), "sum past 63 bits", has_wrapped),
    ((C,), ("linear", "log"), "a step ends with the level", is_step_in_c),
    ((JAVA,), ("log",), "steps go on in the last class", is_log_step_more),
    ((JAVA,), ("log",), "no samples: no step", is_no_step),
    ((C,), ("ticks",), "no samples: one step", is_step_of_none),
    ((C, JAVA), ("ticks",), "percentiles summed in doubles", is_tick_in_doubles(next_percentile)),
    ((JAVA,), ("ticks",), "all samples are below 100 percent, in doubles: an error", is_step_not_found),
    ((RUST,), ("ticks",), "quantiles summed in doubles", is_tick_in_doubles(next_quantile)),
    ((C,), ("compress",), "a single count of 0 is -1", is_single_zero),
    ((C,), ("recorded", "total"), "corrected from the lowest value", is_from_lowest),
]


def kind_of(peer, query, came):
    """The kind of a difference, or None."""
    for peers, names, text, is_kind in KINDS:
        if peer in peers and query.name in names and is_kind(query, came):
            return text
    return None
