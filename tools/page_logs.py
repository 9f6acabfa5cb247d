"""Logs for tools/page_check: each is a text that hdrstat page reads, made here without another program.

A log is a list of intervals (start and length in milliseconds, tag, {value: count}). text_of writes it, with histograms of three
significant digits in the format V2.
"""
import base64
import random
import struct

COOKIE = 0x1C849313
HALF = 1024
GREATEST = 2 ** 64 - 1
CLOCK = 1_764_100_000_000
HOSTILE = {
    "script": "<script>document.title='read'</script>", "quotes": "\"'><b/onload='x'>", "entities": "a&b&amp;c&lt;d",
    "right to left": "\u202eabc\u05e9\u05dc\u05d5\u05dd\u200f", "one mark": "n\u0303o", "three marks": "a\u0301\u0302\u0308b\u0323\u0324\u0325",
    "forty marks": "z" + "\u0300\u0316" * 20, "controls": "a\tb\x07c\u2028d", "long": "x" * 60_000, "wide": "\u6f22\u5b57" * 30,
}


def number(value):
    """Returns a count in zigzag, as LEB128 of at most nine bytes."""
    value = (value << 1) ^ (value >> 63) if value >= 0 else ((-value) << 1) - 1
    found = bytearray()
    while value >= 128 and len(found) < 8:
        found.append(value % 128 + 128)
        value //= 128
    return bytes(found) + bytes([value])


def index_of(value):
    """Returns the index of the class of a value."""
    shift = max(0, value.bit_length() - 11)
    return shift * HALF + (value >> shift)


def field(counts):
    """Returns a histogram in Base64."""
    payload, at, bins = b"", 0, {}
    for value, count in counts.items():
        bins[index_of(value)] = bins.get(index_of(value), 0) + count
    for index, count in sorted(bins.items()):
        if index > at:
            payload += number(at - index)
        payload, at = payload + number(count), index + 1
    high = max([2, *counts])
    return base64.b64encode(struct.pack(">IiiiQQd", COOKIE, len(payload), 0, 3, 1, high, 1.0) + payload).decode()


def text_of(intervals):
    """Returns the lines of a log."""
    lines = []
    for start, length, tag, counts in intervals:
        name = f"Tag={tag}," if tag else ""
        lines.append(f"{name}{start // 1000}.{start % 1000:03},{length // 1000}.{length % 1000:03},{max([0, *counts])}.0,{field(counts)}\n")
    return "".join(lines)


def samples(chance, number_of, middle):
    """Returns log-normal values near a middle, with a few that are far above."""
    counts = {}
    for _ in range(number_of):
        value = int(middle * chance.lognormvariate(0, 0.4) * (40 if chance.random() < 0.004 else 1))
        counts[value] = counts.get(value, 0) + 1
    return counts


def usual(tags, points, number_of, length=1000, first=CLOCK):
    """Returns intervals of tags side by side; the first one is slow for a twelfth of the time."""
    chance = random.Random(len(tags) * 100_003 + points)
    for point in range(points):
        for place, tag in enumerate(tags):
            slow = 9 if place == 0 and points // 3 <= point < points // 3 + points // 12 else 1
            yield first + point * length, length, tag, samples(chance, number_of, 200 * (place % 7 + 1) * slow)


def names(count):
    """Returns names of services."""
    return [f"service-{index:05}" for index in range(count)]


def logs():
    """Returns the logs by name: of few and of many tags and intervals, of extreme values and times, and of hostile tags."""
    gaps = [one for one in usual(names(3), 300, 30) if not 60_000 <= one[0] - CLOCK < 120_000 and one[0] // 7000 % 5]
    backwards = list(usual(names(2), 60, 30))[::-1]
    greatest = [(CLOCK + i * 1000, 1000, tag, {GREATEST - i: 10 ** 15, 2 ** 40 + i: 10 ** 17, 7: 3}) for i in range(30) for tag in names(3)]
    return {
        "1 tag": usual(names(1), 60, 100), "3 tags": usual(names(3), 60, 100), "12 tags": usual(names(12), 60, 50),
        "8000 tags": usual(names(8000), 1, 3), "1 interval": usual(names(1), 1, 100), "2 intervals": usual(names(1), 2, 100),
        "600 intervals": usual(names(3), 600, 20), "20000 intervals": usual(names(1), 20_000, 4), "no tag": usual([""], 60, 50),
        "one value": [(CLOCK + i * 1000, 1000, "a", {777: 5}) for i in range(20)],
        "zeros": [(CLOCK + i * 1000, 1000, tag, {0: 9}) for i in range(20) for tag in "ab"],
        "greatest values": greatest, "gaps": gaps, "backwards": backwards, "since the start": usual(names(3), 60, 50, first=0),
        "days": usual(names(2), 90, 50, length=3_600_000), "no samples": [(CLOCK + i * 1000, 1000, tag, {}) for i in range(9) for tag in "ab"],
        "no interval": [], "hostile tags": usual(list(HOSTILE.values()), 40, 40),
    }
