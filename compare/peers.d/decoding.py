"""Decodes the bytes of each library, and those of versions 0 and 1, in all libraries."""
import drivers
import versions
from cases import Query, answer
from kinds import is_same, kind_of, parsed

# Versions 0 and 1 have a count for each class: longer arrays are left out.
LONGEST = 5000
READS = ["total", "min", "max", "recorded", "q 99 1"]


class Form:
    """The bytes of a histogram, and how they are made."""

    def __init__(self, data, version, is_compressed):
        self.hex, self.version, self.is_compressed = data.hex(), version, is_compressed

    def is_taken_by(self, peer):
        if peer == "HdrHistogram_c":
            return self.is_compressed
        return peer != "Rust" or self.version == 2


def forms(case, encoded):
    """The forms of a histogram: `encoded` are those that the libraries have made."""
    found = [Form(versions.encode(case.model, 2), 2, False)]
    found += [Form(bytes.fromhex(it), 2, True) for it in sorted(encoded)]
    for version in (0, 1) if case.model.scale.length(case.high) < LONGEST else ():
        plain = versions.encode(case.model, version)
        found += [Form(plain, version, False), Form(versions.compress(plain, version), version, True)]
    return found


def encoded_of(case, number, results, offset):
    """The compressed bytes of a histogram from all libraries that take it."""
    found = set()
    for lines in results.values():
        if lines[offset] == "ok":
            found.add(lines[offset + number])
    return {it for it in found if it != "-" and not it.startswith("error")}


def queries_of(case, form):
    """The queries that decode a form and read it."""
    found = [Query(f"decode {form.hex}", "decoding", "ok", case.model)]
    for text in READS:
        name, *of = text.split(" ")
        found.append(Query(text, "decoded", answer(case.model, name, [int(it) for it in of]), case.model))
    return found


def compare(table, peer, case, queries, texts):
    for query, text in zip(queries, texts):
        came = parsed(query.name, text)
        if is_same(query, came):
            table.same(peer, query.group)
        else:
            table.differ(peer, query.group, case.seed, query, came, kind_of(peer, query, came))
        if query.name == "decode" and text != "ok":
            return


def decode(table, built, cases, results):
    """Decodes the forms of all cases in all libraries."""
    listed, offset = [], 0
    for case in cases:
        number = [query.name for query in case.queries].index("compress")
        encoded = encoded_of(case, number, results, offset)
        listed += [(case, form, queries_of(case, form)) for form in forms(case, encoded)]
        offset += len(case.queries)
    for peer, driver in built.items():
        taken = [it for it in listed if it[1].is_taken_by(peer)]
        lines = iter(drivers.run(driver, peer, [query.text for _, _, queries in taken for query in queries]))
        for case, _, queries in taken:
            compare(table, peer, case, queries, [next(lines) for _ in queries])
