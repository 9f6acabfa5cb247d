"""Random histograms: the commands that record and read them, with what the exact model has for each."""
from fractions import Fraction

import versions
from model import Model

PERCENTILES = [(num, 1) for num in (0, 1, 25, 50, 75, 90, 95, 99, 100, 101)]
PERCENTILES += [(1, 10), (999, 10), (9999, 100), (99999, 1000)]
SHAPES = ["uniform", "log-normal", "constant", "bimodal", "sparse", "dense", "edges", "corrected", "zeros", "empty"]
# Up to here the peers' numbers of samples are exact as doubles, and their products fit 64 bits.
EXACT = 1 << 50


class Query:
    """A command, the group in which it is counted, and what the model has for it."""

    def __init__(self, text, group, wanted, model):
        self.text, self.group, self.wanted, self.model = text, group, wanted, model
        self.name, *rest = text.split(" ")
        self.of = [int(it) for it in rest] if group not in ("recording", "decoding") else []


def answer(model, name, of):
    """What a command reads of the model."""
    scale = model.scale
    return {
        "total": lambda: model.total,
        "min": lambda: model.classes[0] if model.classes else 0,
        "max": lambda: model.tops[-1] if model.tops else 0,
        "q": lambda: model.percentile(*of),
        "mean": lambda: Fraction(*model.mean()),
        "sd": lambda: Fraction(*model.deviation()),
        "at": lambda: model.counts.get(scale.lowest(of[0]), 0),
        "between": lambda: model.between(*of),
        "below": lambda: Fraction(100 * model.up_to(scale.index(of[0])), model.total) if model.total else Fraction(100),
        "class": lambda: scale.class_of(of[0]),
        "recorded": model.recorded,
        "linear": lambda: model.linear(*of),
        "log": lambda: model.logarithmic(*of),
        "ticks": lambda: model.tick_steps(*of),
        "encode": lambda: versions.encode(model, 2),
        "compress": lambda: versions.encode(model, 2),
    }[name]()


def random_bits(rnd, bits):
    """A number of up to that many bits, of which the small ones are as frequent as the great ones."""
    return rnd.getrandbits(rnd.randint(1, max(1, bits)))


def random_bounds(rnd):
    """A lowest and a greatest value, and a number of digits: few with long arrays of counts."""
    sigfig = rnd.choices(range(6), [2, 6, 10, 12, 1, 0.5])[0]
    low = 1 if rnd.random() < 0.6 else rnd.randint(1, 10 ** rnd.randint(1, 6))
    bits = 62 if sigfig < 4 else 30
    high = min(1 << 62, 2 * low + random_bits(rnd, bits))
    return low, high, sigfig


def random_value(rnd, shape, high):
    if shape == "uniform":
        return rnd.randint(0, high)
    if shape == "log-normal":
        return min(high, int(rnd.lognormvariate(len(str(high)), 1.0)))
    if shape == "bimodal":
        return min(high, max(0, int(rnd.gauss(high / rnd.choice([3, 300]), high / 2000))))
    if shape == "dense":
        return rnd.randint(0, min(high, 3000))
    if shape == "edges":
        return max(0, min(high, (1 << rnd.randint(0, high.bit_length())) + rnd.randint(-2, 2)))
    return min(high, random_bits(rnd, high.bit_length()))


def random_samples(rnd, shape, high):
    """Pairs of a value and a count, whose sum is below 2^62."""
    if shape == "empty":
        return []
    if shape in ("constant", "zeros"):
        return [(0 if shape == "zeros" else rnd.randint(0, high), 1 + random_bits(rnd, 20))]
    length = rnd.choice([1, 2, 3, 10, 50, 200])
    bits = rnd.choices([1, 4, 10, 30, 61 - length.bit_length()], [6, 3, 3, 1, 1])[0]
    return [(random_value(rnd, shape, high), 1 + random_bits(rnd, bits) if bits > 1 else 1) for _ in range(length)]


class Case:
    """A histogram, the queries that make it, and those that read it."""

    def __init__(self, seed, rnd):
        self.seed, self.rnd = seed, rnd
        self.low, self.high, self.sigfig = random_bounds(rnd)
        self.shape = rnd.choices(SHAPES, [6, 8, 2, 4, 6, 4, 4, 4, 0.6, 0.6])[0]
        self.model = Model(self.low, self.high, self.sigfig)
        self.queries = [Query(f"new {self.low} {self.high} {self.sigfig}", "recording", "ok", self.model)]
        self.record()
        self.model.closed()
        self.greatest = self.model.tops[-1] if self.model.tops else 0
        self.read()
        self.correct()

    def ask(self, text, group, model=None):
        name, *of = text.split(" ")
        model = model or self.model
        self.queries.append(Query(text, group, answer(model, name, [int(it) for it in of]), model))

    def corrected_sample(self, value):
        """A value, its count, and an expected interval that is about a part of the value."""
        return value, self.rnd.randint(1, 3), value // self.rnd.randint(1, 50) + self.rnd.randint(0, 2)

    def record(self):
        samples = random_samples(self.rnd, self.shape, self.high)
        corrected = []
        if self.shape == "corrected":
            corrected = [self.corrected_sample(value) for value, _ in samples[:20]]
        for value, count in samples:
            self.model.record(value, count)
        for it in corrected:
            self.model.record_corrected(*it)
        for name, rows in (("fill", samples), ("omit", corrected)):
            text = " ".join([name, *(":".join(map(str, row)) for row in rows)])
            self.queries.append(Query(text, "recording", len(rows), self.model))

    def percentiles(self):
        rnd, total = self.rnd, self.model.total
        found = PERCENTILES + [(rnd.randint(1, 100000), 1000) for _ in range(8)]
        found += [(rnd.randint(1, 10**7), 10**5) for _ in range(6)]
        # Just at a rank, and in the middle of two
        for _ in range(6 if 0 < total < 1 << 55 else 0):
            found.append((50 * rnd.randint(1, 2 * total), total))
        return found

    def some_values(self):
        rnd, classes = self.rnd, self.model.classes
        found = [max(0, value + rnd.randint(-1, 1)) for value in rnd.sample(classes, min(4, len(classes)))]
        return [min(self.high, value) for value in [*found, rnd.randint(0, self.high), random_bits(rnd, 62)]]

    def read(self):
        rnd = self.rnd
        for name in ("total", "min", "max"):
            self.ask(name, "marks")
        for num, den in self.percentiles():
            self.ask(f"q {num} {den}", "quantiles")
        self.ask("mean", "statistics")
        self.ask("sd", "statistics")
        for value in self.some_values():
            self.ask(f"at {value}", "counts")
            self.ask(f"between {rnd.randint(0, value)} {value}", "counts")
            self.ask(f"below {value}", "statistics")
            self.ask(f"class {value}", "classes")
        for _ in range(4):
            self.ask(f"class {random_bits(rnd, 61)}", "classes")
        self.iterate()
        self.ask("encode", "V2 bytes")
        self.ask("compress", "V2 bytes")

    def iterate(self):
        rnd = self.rnd
        self.ask("recorded", "iterations")
        if self.greatest < 1 << 60:
            self.ask(f"linear {1 + max(self.greatest, self.model.scale.top(0)) // rnd.randint(1, 60)}", "iterations")
        start, base = 1 + random_bits(rnd, 20), rnd.randint(2, 10)
        if max(start, self.greatest) * base * base < EXACT:
            self.ask(f"log {start} {base}", "iterations")
        if self.model.total < EXACT:
            self.ask(f"ticks {rnd.randint(1, 10)}", "iterations")

    def correct(self):
        """Replaces the histogram by one in which each class is corrected, from its greatest value."""
        if self.model.total >= EXACT or self.greatest == 0:
            return
        interval = 1 + self.greatest // self.rnd.randint(1, 30)
        self.queries.append(Query(f"correct {interval}", "recording", "ok", self.model))
        corrected = self.model.corrected(interval, self.model.scale.top)
        corrected.interval, corrected.source = interval, self.model
        self.ask("recorded", "corrections", corrected)
        self.ask("total", "corrections", corrected)
