"""Writes random logs to files, also by the library's own writer, and compares what each library reads of them."""
import os
import random
import tempfile

import drivers
from logs import READERS, Log, exact


class Reading:
    """A log in a file, and the command that reads it."""

    def __init__(self, seed, log, path):
        self.seed, self.log, self.path = seed, log, path
        self.text, self.wanted, self.name = f"read {path}", exact(log), "read"


def write_commands(log, path, is_compressed):
    """The commands by which this library writes the log."""
    yield f"begin {path}"
    for kind, it in log.parts:
        if kind == "comment":
            yield f"comment {it[1:]}"
        elif kind in ("start", "base"):
            yield f"{kind} {it}"
        elif kind == "interval":
            yield f"new {it.model.low} {it.model.high} {it.model.sigfig}"
            yield " ".join(["fill", *(f"{value}:{count}" for value, count in it.samples)])
            yield f"line {it.start} {it.duration} {int(is_compressed)} {it.tag}"
    yield "end"


def as_written(log, rnd):
    """Leaves only what this library writes, with lines of version 2."""
    is_compressed = rnd.random() < 0.85
    log.parts = [it for it in log.parts if it[0] not in ("blank", "legend")]
    for it in log.intervals():
        it.version, it.is_compressed = 2, is_compressed
    return is_compressed


def random_readings(seed, count, room):
    """Half of the logs are written here, and half by this library."""
    found, commands = [], []
    for number in range(count):
        rnd = random.Random(f"{seed}:log {number}")
        log, path = Log(rnd), os.path.join(room, f"{number}.log")
        if number % 2 == 0:
            with open(path, "w", encoding="utf-8") as file:
                file.write(log.text())
        else:
            commands += write_commands(log, path, as_written(log, rnd))
        found.append(Reading(f"{seed}:log {number}", log, path))
    return found, commands


def is_end(came, wanted):
    """Whether a result is as wanted; an error may have any text."""
    return came == wanted or wanted.endswith(" ;error") and came.startswith(wanted)


def compare(table, peer, reading, came):
    group = "logs read"
    table.start(peer, "logs")
    table.start(peer, "intervals", came.count(" ;") - 1)
    if came == reading.wanted:
        table.same(peer, group)
        return
    wanted, reasons = READERS[peer](reading.log) if peer in READERS else (reading.wanted, [])
    kind = "; ".join(reasons) if reasons and is_end(came, wanted) else None
    table.differ(peer, group, reading.seed, reading, came, kind)


def compare_logs(table, built, seed, count):
    with tempfile.TemporaryDirectory() as room:
        readings, commands = random_readings(seed, count, room)
        for command, text in zip(commands, drivers.run(built[drivers.OURS], drivers.OURS, commands)):
            if "error" in text or text == "-":
                raise SystemExit(f"compare/peers: a log was not written: {command[:100]}: {text}")
        for peer, driver in built.items():
            for reading, came in zip(readings, drivers.run(driver, peer, [it.text for it in readings])):
                compare(table, peer, reading, came)
