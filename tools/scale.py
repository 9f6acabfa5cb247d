#!/usr/bin/python3
"""Records lines by several workers with Dask's distributed, merges their logs in a tree, and holds the result against one process.

usage: tools/scale.py [LINES [WORKERS]]

LINES is the number of input lines (100000), and WORKERS how many worker processes run (4). Needs Debian's packages python3-dask and
python3-distributed, and two programs that make builds, target/hdr and target/hdrstat, or those that HDR and HDRSTAT name. The lines take 9 bytes each in a temporary folder. Prints times in seconds on standard error,
and then `equal`, or what differs with status 1.
"""
import difflib
import os
import subprocess
import sys
import tempfile
import time

from dask.distributed import Client, LocalCluster

TOP = os.path.dirname(os.path.dirname(os.path.abspath(__file__)))
HDR = os.environ.get("HDR", os.path.join(TOP, "target/hdr"))
HDRSTAT = os.environ.get("HDRSTAT", os.path.join(TOP, "target/hdrstat"))
QUANTILES = ["0/1", "1/2", "9/10", "99/100", "999/1000", "1/1"]
PIECE = 1 << 20
# Lines of which one in 100 is a correction, and one in 1,000 is 40 times greater.
LINES = """BEGIN {
    for (i = 1; i <= lines; i++) {
        v = 100 + i * 7919 % 1000003
        if (i % 1000 == 0) v *= 40
        if (i % 100 == 0) print "c " v " 100000"; else print "r " v
    }
}"""


def bounds(path, parts):
    """Where parts of a file begin and end: each after a line feed."""
    size = os.path.getsize(path)
    cuts = [0]
    with open(path, "rb") as file:
        for part in range(1, parts):
            file.seek(max(size * part // parts - 1, cuts[-1]))
            file.readline()
            cuts.append(file.tell())
    return list(zip(cuts, cuts[1:] + [size]))


def recorded(hdr, path, start, end):
    """The log of the lines from one place of a file to another, as one interval."""
    with open(path, "rb") as file, subprocess.Popen([hdr, "log", "3"], stdin=subprocess.PIPE, stdout=subprocess.PIPE) as program:
        file.seek(start)
        while start < end:
            piece = file.read(min(PIECE, end - start))
            program.stdin.write(piece)
            start += len(piece)
        program.stdin.write(b"end 0 1000\n")
        program.stdin.close()
        log = program.stdout.read()
    if program.returncode:
        raise RuntimeError(f"hdr log ended with status {program.returncode}")
    return log


def gathered(hdrstat, *logs):
    """The log that logs become."""
    return subprocess.run([hdrstat, "gather"], input=b"".join(logs), stdout=subprocess.PIPE, check=True).stdout


def by_many(client, path, workers):
    """A report of a tree of logs: four parts for each worker become a log each, and four logs at a time become one."""
    logs = [client.submit(recorded, HDR, path, *part, pure=False) for part in bounds(path, 4 * workers)]
    while len(logs) > 1:
        logs = [client.submit(gathered, HDRSTAT, *logs[at:at + 4], pure=False) for at in range(0, len(logs), 4)]
    log = logs[0].result()
    return subprocess.run([HDR, "merge", "3", *QUANTILES], input=log, stdout=subprocess.PIPE, check=True).stdout


def by_one(path):
    """A report of all lines by one process."""
    with open(path, "rb") as lines:
        return subprocess.run([HDR, "report", "3", *QUANTILES], stdin=lines, stdout=subprocess.PIPE, check=True).stdout


def without_high(report):
    """A report without the field high, digits 49 to 64 of the V2 bytes."""
    numbers, v2 = report.decode().split("v2 ")
    return f"{numbers}v2 {v2[:48]}{v2[64:]}"


def timed(what, run, *arguments):
    """Returns the result of a call, and prints how long it took."""
    began = time.monotonic()
    result = run(*arguments)
    print(f"{what}: {time.monotonic() - began:.3f}", file=sys.stderr)
    return result


def main(lines="100000", workers="4"):
    for program in (HDR, HDRSTAT):
        if not os.access(program, os.X_OK):
            sys.exit(f"tools/scale.py: no program {program}")
    with tempfile.TemporaryDirectory() as room:
        path = os.path.join(room, "lines")
        with open(path, "wb") as file:
            subprocess.run(["awk", "-v", f"lines={lines}", LINES], stdout=file, check=True)
        one = without_high(timed("one process", by_one, path))
        with LocalCluster(n_workers=int(workers), threads_per_worker=1, dashboard_address=None) as cluster, Client(cluster) as client:
            many = without_high(timed(f"{workers} workers", by_many, client, path, int(workers)))
    if one == many:
        print("equal")
        return 0
    sys.stdout.writelines(difflib.unified_diff(one.splitlines(True), many.splitlines(True), "one", "many"))
    return 1


if __name__ == "__main__":
    sys.exit(main(*sys.argv[1:]))
