"""A model of interval logs: their grammar, the V2 bytes of histograms, sums by tag, and logs of many hosts as one."""
import base64
import binascii
import dataclasses
import re
import zlib

from model import LIMIT, MARK, SPACE, Failure, Samples, class_of

COOKIE, COMPRESSED, RATIO = bytes.fromhex("1c849313"), bytes.fromhex("1c849314"), bytes.fromhex("3ff0000000000000")
SECONDS = rb"(\+?)(\d+)\.(\d+)"
HEADER = re.compile(rb"#\[(StartTime|BaseTime): " + SECONDS + rb" .*\n")
DECIMALS = re.compile(rb"#\[Values have (\+?\d+) decimals\][ \t\n\f\r]*")
INTERVAL = re.compile(rb"(?:Tag=([^,\r\n ]*),)?" + SECONDS + b"," + SECONDS + rb",(\d+\.?\d*|\.\d+),(.*)\n")
CAUSES = {
    "base64": "not base64",
    "cookie": "The cookie (first 4 bytes) did not match that for any supported format",
    "feature": "The histogram uses features that this implementation doesn't support",
    "parameters": "The serialized parameters were invalid(e.g. lowest value, highest value, etc)",
    "long": "The encoded array is longer than it should be for the histogram's value range",
    "end": "the histogram is incomplete",
    "no histogram": "not a histogram",
    "version 0": "a histogram of version 0 with counters of an unknown width",
    "version 1": "a histogram of version 1 with counters of an unknown width",
    "double": "a double histogram",
    "scaled": "a histogram with shifted or scaled values",
    "bounds": "the bounds, the digits or a count of the histogram are invalid",
    "incomplete": "the histogram is incomplete",
    "not inside": "the compressed bytes are not a histogram",
}
# Cookies of versions 0 and 1, and of compressed ones; the width of a counter, in four of their bits, is left out
OLD, OLD_COMPRESSED = {0x1c849308: 0, 0x1c849301: 1}, (0x1c849309, 0x1c849302)
DOUBLE = (0x0c72124e, 0x0c72124f)


class Undecodable(Exception):
    """Why a field of a log is no histogram."""


def bits_of(sigfig):
    return (2 * 10**sigfig - 1).bit_length()


def bin_of(value, sigfig, low):
    """The index of a value's bin."""
    bits, unit = bits_of(sigfig), low.bit_length() - 1
    shift = max(value.bit_length() - bits, unit)
    half = 1 << bits - 1
    return (shift - unit) * half + (value >> shift) if shift > unit else value >> unit


def lowest_of(index, sigfig, low):
    """The lowest value of a bin."""
    bits, unit = bits_of(sigfig), low.bit_length() - 1
    half = 1 << bits - 1
    bucket = max(index // half - 1, 0)
    return (index - bucket * half) << (bucket + unit)


def bins_to(high, sigfig, low):
    """The number of bins of a histogram with this greatest value."""
    bits, unit = bits_of(sigfig), low.bit_length() - 1
    buckets, beyond = 1, 1 << bits + unit
    while beyond <= high and beyond < LIMIT:
        buckets, beyond = buckets + 1, beyond << 1
    return (buckets + 1) << bits - 1


def varint(number):
    out = bytearray()
    while number >= 128 and len(out) < 8:
        out.append(number & 127 | 128)
        number >>= 7
    return bytes(out + bytes([number]))


def v2(counts, sigfig, low, high):
    """The V2 bytes of the counts of bins."""
    payload, at = bytearray(), 0
    for index in sorted(counts):
        empty = index - at
        if empty:
            payload += varint(2 * empty - 1 if empty > 1 else 0)
        payload += varint(2 * counts[index])
        at = index + 1
    payload = bytes(payload) or b"\0"
    numbers = (len(payload), 0, sigfig)
    return COOKIE + b"".join(it.to_bytes(4, "big") for it in numbers) + low.to_bytes(8, "big") + high.to_bytes(8, "big") + RATIO + payload


def encode(samples, high):
    """The V2 bytes of samples."""
    counts = {bin_of(lowest, samples.sigfig, samples.low): count for lowest, count in samples.counts.items() if count}
    return v2(counts, samples.sigfig, samples.low, high)


def numbers_of(payload):
    """The signed numbers of a payload."""
    at = 0
    while at < len(payload):
        number = 0
        for place in range(9):
            if at >= len(payload):
                raise Undecodable("end")
            byte = payload[at]
            at += 1
            number |= (byte if place == 8 else byte & 127) << 7 * place
            if byte < 128:
                break
        yield number >> 1 if number % 2 == 0 else -(number >> 1) - 1


def has_other_form(field):
    """Whether the Base64 of a field begins with that of a cookie of another form than plain V2."""
    return len(field) >= 8 and (field.startswith(b"HIST") and not field.startswith(b"HISTEw") or field.startswith(b"DHIST"))


def are_bounds(low, high, sigfig):
    """Whether a histogram can have these bounds and digits."""
    return 1 <= low < LIMIT // 2 and high >= 2 * low and sigfig <= 5 and low.bit_length() - 1 + bits_of(sigfig) <= 63 + (sigfig == 0)


def is_old(data):
    """Whether bytes start as those of version 0 or 1."""
    cookie = int.from_bytes(data[:4], "big")
    return cookie & 0xffffff0f in OLD and cookie >> 4 & 15 in (2, 4, 8)


def of_old(data):
    """The V2 bytes of a histogram of version 0 or 1."""
    version, width = OLD[int.from_bytes(data[:4], "big") & 0xffffff0f], data[3] >> 4
    places, size = ((12, 16, 24), 40) if version else ((4, 8, 16), 32)
    if len(data) < size:
        raise Undecodable("incomplete")
    sigfig, low, high = (int.from_bytes(data[at : at + wide], "big") for at, wide in zip(places, (4, 8, 8)))
    length = int.from_bytes(data[4:8], "big") if version else len(data) - size
    if length > len(data) - size or length % width:
        raise Undecodable("incomplete")
    counters = [int.from_bytes(data[at : at + width], "big") for at in range(size, size + length, width)]
    if not version and sum(counters) < int.from_bytes(data[24:32], "big"):
        raise Undecodable("incomplete")
    if version and (any(data[8:12]) or data[32:40] != RATIO):
        raise Undecodable("scaled")
    if not are_bounds(low, high, sigfig):
        raise Undecodable("bounds")
    if any(counters[bins_to(high, sigfig, low) :]) or any(it >= 1 << 63 for it in counters):
        raise Undecodable("bounds")
    return v2({bin: count for bin, count in enumerate(counters) if count}, sigfig, low, high)


def inflated(data):
    """The bytes that a compressed histogram holds."""
    length = int.from_bytes(data[4:8], "big")
    if len(data) < 8 or length > len(data) - 8:
        raise Undecodable("incomplete")
    stream = zlib.decompressobj()
    try:
        found = stream.decompress(data[8 : 8 + length])
    except zlib.error as error:
        raise Undecodable("stream") from error
    if not stream.eof or stream.unused_data:
        raise Undecodable("stream")
    return found


def plain(data):
    """The V2 bytes of a histogram of another form."""
    cookie = int.from_bytes(data[:4], "big")
    if is_old(data):
        return of_old(data)
    if cookie & 0xffffff0f in OLD:
        raise Undecodable(f"version {OLD[cookie & 0xffffff0f]}")
    if cookie & 0xffffff0f in OLD_COMPRESSED:
        found = inflated(data)
        if not is_old(found):
            raise Undecodable("no histogram")
        return of_old(found)
    if data[:4] != COMPRESSED:
        raise Undecodable("double" if cookie in DOUBLE else "no histogram")
    found = inflated(data)
    if found[:4] != COOKIE:
        raise Undecodable("not inside")
    return found


def decode(data):
    """The samples of V2 bytes, each class at its lowest value."""
    def take(at, size):
        if len(data) < at + size:
            raise Undecodable("end")
        return int.from_bytes(data[at : at + size], "big")

    cookie = take(0, 4)
    if cookie == int.from_bytes(COMPRESSED, "big"):
        raise Undecodable("feature")
    if cookie != int.from_bytes(COOKIE, "big"):
        raise Undecodable("cookie")
    length = take(4, 4)
    if take(8, 4):
        raise Undecodable("feature")
    sigfig = take(12, 4)
    if sigfig > 255:
        raise Undecodable("parameters")
    low, high = take(16, 8), take(24, 8)
    if take(32, 8) != int.from_bytes(RATIO, "big"):
        raise Undecodable("feature")
    if not are_bounds(low, high, sigfig):
        raise Undecodable("parameters")
    take(40, length)
    samples, at, bins = Samples(sigfig, 1 << low.bit_length() - 1), 0, bins_to(high, sigfig, low)
    for number in numbers_of(data[40 : 40 + length]):
        if number < 0:
            at -= number
            continue
        if number and at >= bins:
            raise Undecodable("long")
        if number:
            samples.add(lowest_of(at, sigfig, low), number)
        at += 1
    return samples


def nanoseconds(plus, seconds, part):
    if int(seconds) >= LIMIT:
        raise ValueError
    return int(seconds) * 10**9 + int(part[:9].ljust(9, b"0"))


def decoded(field):
    """The bytes of a field."""
    try:
        data = base64.b64decode(field, validate=True)
    except binascii.Error as error:
        raise Undecodable("base64") from error
    if base64.b64encode(data) != field:
        raise Undecodable("base64")
    return data


NOTES = {
    "end": "the last line has no end and is left out",
    "StartTime": "the start time is invalid and is ignored",
    "BaseTime": "the base time is invalid and is ignored",
    "decimals": "the number of decimals is invalid and is ignored",
}
MOST_NOTES = 100


@dataclasses.dataclass
class Interval:
    line: int
    decimals: int
    tag: bytes
    start: int
    duration: int
    field: bytes
    # The samples in the decimals of others, if they are converted
    converted: object = None

    def found(self, name, read):
        """What is read from the bytes of its histogram, or the failure that names its line."""
        try:
            return read(decoded(self.field))
        except Undecodable as bad:
            raise Failure((name, f"line {self.line}", str(bad), "interval")) from bad

    def samples(self, name):
        """The samples of its histogram."""
        return self.converted or self.found(name, lambda data: decode(self.plain(data)))

    def plain(self, data):
        """The V2 bytes of its histogram, if its field begins as one of another form."""
        return plain(data) if has_other_form(self.field) and data[:4] != COOKIE else data

    def multiplied(self, name, factor):
        """The greatest value of each class times a factor."""
        samples = self.samples(name)
        made = Samples(samples.sigfig)
        for lowest, count in samples.counts.items():
            value = class_of(lowest, samples.sigfig, samples.low)[1] * factor
            if value >= LIMIT:
                raise Failure((name, f"line {self.line}", b"", "large"))
            made.add(value, count)
        return made

    def key(self):
        """The time in milliseconds, and the tag."""
        return (self.start + 500_000) // 1_000_000, self.tag is not None, self.tag or b""

    def length(self):
        """How long it is, in milliseconds."""
        return min((self.duration + 500_000) // 1_000_000, LIMIT - 1)


def is_whole(it):
    """Whether the histogram of an interval is complete."""
    try:
        it.samples("")
    except Failure:
        return False
    return True


def intervals(name, data, notes):
    """The intervals of a log, each with its start after the last base time before it. Appends the notes of its lines."""
    base = decimals = 0
    mine = notes.setdefault(name, [])

    def note(number, kind):
        if len(mine) < MOST_NOTES:
            mine.append((number, kind))

    for number, line in enumerate(re.findall(rb".*\n|.+$", data), 1):
        line = line.removeprefix(MARK) if number == 1 else line
        if not line.strip(SPACE):
            continue
        if line[-1:] != b"\n":
            if line.lstrip(SPACE)[:1] not in b"0123456789.T#\"":
                raise Failure((name, f"line {number}", line.strip(SPACE), "log"))
            it = unended(number, decimals, base, line)
            if it is None:
                note(number, "end")
            else:
                yield it
            continue
        try:
            header = HEADER.fullmatch(line)
            if header and int(header[3]) < LIMIT:
                base = nanoseconds(*header.groups()[1:]) if header[1] == b"BaseTime" else base
                continue
            if not INTERVAL.fullmatch(line) and (line[:1] == b"#" or line.startswith(b'"StartTimestamp"')):
                found = DECIMALS.fullmatch(line)
                if found and int(found[1]) <= 18:
                    decimals = int(found[1])
                else:
                    for start, kind in ((b"#[BaseTime: ", "BaseTime"), (b"#[StartTime: ", "StartTime"), (b"#[Values have ", "decimals")):
                        if line.startswith(start):
                            note(number, kind)
                continue
            yield interval(number, decimals, base, line)
        except ValueError as error:
            raise Failure((name, f"line {number}", line.strip(SPACE), "log")) from error


def interval(number, decimals, base, line):
    """The interval of a line with its LF; a ValueError if it is none. An empty tag is none."""
    found = INTERVAL.fullmatch(line)
    if not found:
        raise ValueError
    tag, field = found[1], found[9].rstrip(b"\r")
    (tag or b"").decode()
    found[9].decode()
    return Interval(number, decimals, tag or None, base + nanoseconds(*found.groups()[1:4]), nanoseconds(*found.groups()[4:7]), field)


def unended(number, decimals, base, line):
    """The interval of a last line without an LF, if it is whole, and otherwise None."""
    try:
        it = interval(number, decimals, base, line + b"\n")
    except ValueError:
        return None
    return it if is_whole(it) else None


def add(total, samples):
    """Adds samples to a total of other classes, each class at its lowest value."""
    for lowest, count in samples.counts.items():
        total.add(lowest, count)


def is_finer(one, other):
    """Whether each class of one lies in a class of the other."""
    return one.sigfig >= other.sigfig and one.low <= other.low


def closed(total):
    """A total whose extremes are those that its histogram has: the classes of the least and of the greatest sample."""
    if total.counts:
        total.least = min(total.counts)
        total.greatest = class_of(max(total.counts), total.sigfig, total.low)[1]
    return total


def is_chosen(it, tag=None, since=0, until=None):
    """Whether an interval is chosen. An empty `tag` chooses the intervals without one."""
    return (tag is None or it.tag == (tag or None)) and since <= it.start and (until is None or it.start < until)


def chosen_intervals(name, data, notes, choice):
    """The chosen intervals of a log. Each of another form is converted when its line is read."""
    for it in intervals(name, data, notes):
        if is_chosen(it, **choice):
            if has_other_form(it.field):
                it.found(name, it.plain)
            yield it


def sums(logs, sigfig, by_tag, notes, choice, parts=None):
    """By tag, the sums of the chosen intervals of logs, in the order of first tags, how many intervals are coarser than sums, decimals, and
    how many intervals are chosen. By tag, the samples of each interval are added to `parts`."""
    found, coarser, decimals, chosen = {}, 0, None, 0
    for name, data in logs.items():
        for it in chosen_intervals(name, data, notes, choice):
            decimals = it.decimals if decimals is None else decimals
            if it.decimals != decimals:
                raise Failure((name, f"line {it.line}", (it.decimals, decimals), "other decimals"))
            samples, chosen = it.samples(name), chosen + 1
            total = found.setdefault(it.tag if by_tag else None, Samples(sigfig))
            coarser += not is_finer(samples, total)
            if parts is not None:
                parts.setdefault(it.tag if by_tag else None, []).append(samples)
            add(total, samples)
    return {key: closed(total) for key, total in found.items()}, coarser, decimals or 0, chosen


def stored(name, data, notes, choice):
    """The chosen intervals of a log, each of which has to begin within 64 bits of milliseconds."""
    for it in chosen_intervals(name, data, notes, choice):
        if it.key()[0] >= LIMIT:
            raise Failure((name, f"line {it.line}", b"", "late"))
        yield it


def converted_sums(read, sigfig, by_tag):
    """The same of intervals of one scale."""
    found, coarser = {}, 0
    for name, it in read:
        samples, total = it.samples(name), found.setdefault(it.tag if by_tag else None, Samples(sigfig))
        coarser += not is_finer(samples, total)
        add(total, samples)
    return {key: closed(total) for key, total in found.items()}, coarser, max((it.decimals for _, it in read), default=0), len(read)


def read_first(logs, notes, choice):
    """The chosen intervals of logs, read one log after another, with the names of their logs."""
    return [(name, it) for name, data in logs.items() for it in stored(name, data, notes, choice)]


def in_one_scale(read):
    """Intervals in the decimals of the finest, and what standard error has of those that are converted."""
    decimals = max((it.decimals for _, it in read), default=0)
    out, converted = [], 0
    for name, it in read:
        more = decimals - it.decimals
        made = it.multiplied(name, 10**more) if more else None
        converted += more > 0
        out.append((name, dataclasses.replace(it, decimals=decimals, converted=made)))
    told = f"hdrstat: {converted} of {len(read)} intervals converted to {decimals} decimals, at the top of each class\n".encode()
    return out, told if converted else b""


def have_one_scale(logs, notes, choice):
    """Whether the first intervals of logs have the same decimals."""
    firsts = [next(stored(name, data, notes, choice), None) for name, data in logs.items()]
    return len({it.decimals for it in firsts if it}) <= 1


def check_decimals(intervals_of_logs, decimals):
    """Fails if the values of an interval have other decimals."""
    for name, it in intervals_of_logs:
        if it.decimals != decimals:
            raise Failure((name, f"line {it.line}", (it.decimals, decimals), "other decimals"))


def side_by_side(logs, notes, choice):
    """The chosen intervals of logs in order of time as one log, up to the first failure."""
    rests = [(name, stored(name, data, notes, choice)) for name, data in logs.items()]
    nexts = [next(rest, None) for _, rest in rests]
    decimals = max((it.decimals for it in nexts if it), default=0)
    out = []
    while any(nexts):
        start = min(it.key()[0] for it in nexts if it)
        taken = []
        for at, (name, rest) in enumerate(rests):
            while nexts[at] and nexts[at].key()[0] == start:
                taken.append((name, nexts[at]))
                nexts[at] = next(rest, None)
                if nexts[at] and nexts[at].key()[0] < start:
                    raise Failure((name, f"line {nexts[at].line}", b"", "order"))
        check_decimals(taken, decimals)
        out += sums_by_key(taken)
    return out


def sums_by_key(intervals_of_logs):
    """The sums of intervals of the same time and tag, in ascending order, each with the numbers of its intervals and of those that are
    finer than it."""
    found = {}
    for name, it in intervals_of_logs:
        found.setdefault(it.key(), []).append((name, it))
    out = []
    for (start, has_tag, tag), parts in sorted(found.items(), key=lambda it: it[0]):
        total, found_samples = None, []
        for name, it in parts:
            samples = it.samples(name)
            found_samples.append(samples)
            if total is None or is_finer(samples, total):
                one, other = total or samples, samples if total else None
            elif is_finer(total, samples):
                one, other = samples, total
            else:
                raise Failure((name, f"line {it.line}", b"", "nest"))
            if other:
                joined = Samples(one.sigfig, one.low, dict(one.counts))
                add(joined, other)
                one = joined
            total = one
        out.append((tag if has_tag else None, start, max(it.duration for _, it in parts), total, len(parts), sum(not is_finer(total, it) for it in found_samples)))
    return out


# The comments that end a base time and decimals
NO_BASE, NO_DECIMALS = b"#[BaseTime: 0.000 (seconds since epoch)]", b"#[Values have 0 decimals]"


def with_form(logs, is_compressed, notes, choice):
    """The lines of logs with the chosen histograms in a form, and the failure after them, if there is one. A line whose histogram becomes
    compressed is a pair: what is before the histogram, and its V2 bytes."""
    out, has_base, has_decimals = [], False, False
    for name, data in logs.items():
        # A log does not have the base time and the decimals of those before
        out += [NO_BASE + b"\n"] * has_base + [NO_DECIMALS + b"\n"] * has_decimals
        has_base = has_decimals = False
        found, failure = {}, None
        try:
            for it in intervals(name, data, notes):
                found[it.line] = it.found(name, lambda data: in_form(data, is_compressed)) if is_chosen(it, **choice) else None
        except Failure as bad:
            failure = bad
        for number, line in enumerate(re.findall(rb".*\n|.+$", data), 1):
            if failure and failure.text[1] == f"line {number}":
                break
            line = line.removeprefix(MARK) if number == 1 else line
            if number not in found:
                if line[-1:] == b"\n" or not line.strip(SPACE):
                    out.append(line)
                    text = line.rstrip(SPACE)
                    has_base = text != NO_BASE if text.startswith(b"#[BaseTime: ") else has_base
                    has_decimals = text != NO_DECIMALS if text.startswith(b"#[Values have ") else has_decimals
            elif found[number]:
                head, (bytes_of_field, becomes_compressed) = line.rpartition(b",")[0] + b",", found[number]
                out.append((head, bytes_of_field) if becomes_compressed else head + base64.b64encode(bytes_of_field) + b"\n")
        if is_compressed and name == next(iter(logs)):
            out = with_version(out, failure)
        if failure:
            return out, failure
    return out, None


def with_version(lines, failure):
    """The lines of a log with the comment of a version behind its first comments, unless these have one, or end at a failure."""
    texts = [it if isinstance(it, bytes) else b"," for it in lines]
    count = next((at for at, it in enumerate(texts) if not it.startswith(b"#")), len(lines))
    has_version = any(it.startswith(b"#[Histogram log format version ") for it in texts[:count])
    if has_version or (failure and count == len(lines)):
        return lines
    return [*lines[:count], b"#[Histogram log format version 1.3]\n", *lines[count:]]


def in_form(data, is_compressed):
    """The bytes of a histogram in a form, or its V2 bytes and True if they are to be compressed."""
    if is_compressed and data[:4] == COMPRESSED:
        return data, False
    return data if data[:4] == COOKIE else plain(data), is_compressed
