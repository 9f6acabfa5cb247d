#!/usr/bin/env python3
"""Compares hdrstat with the model on random inputs.

usage: compare/hdrstat/cases.py PROGRAM SEED COUNT [KIND..]

KIND is numbers, tables, check, logs, log_check, gather, convert, page, verdict, groups, json, matches, times, mixed, runs, log_runs, ends or
levels.

Each case has a seed of its own, SEED:NUMBER, from which it is made. A case that differs is printed with its arguments, and its input
is left in a file of /tmp. Status 1 if any differs.
"""
import os
import random
import subprocess
import sys
import tempfile

sys.dont_write_bytecode = True
from form_inputs import group_case, json_case, match_case, mixed_case
from inputs import check_case, number_case, table_case
from level_inputs import levels_case
from log_inputs import convert_case, gather_case, log_case, log_check_case, page_case
from run_inputs import ends_case, log_run_case, run_case
from time_inputs import time_case
from verdict_inputs import verdict_case

KINDS = {
    "numbers": number_case, "tables": table_case, "check": check_case, "logs": log_case, "log_check": log_check_case, "gather": gather_case,
    "convert": convert_case, "page": page_case, "verdict": verdict_case,
    "groups": group_case, "json": json_case, "matches": match_case, "times": time_case, "mixed": mixed_case,
    "runs": run_case, "log_runs": log_run_case, "ends": ends_case, "levels": levels_case,
}


def run(program, case, room):
    """Runs the program on a case, and returns its standard output, standard error and status."""
    for name, data in case.files.items():
        with open(os.path.join(room, name), "wb") as file:
            file.write(data)
    ran = subprocess.run(["hdrstat", *case.arguments], executable=program, cwd=room, input=case.stdin, capture_output=True, timeout=600, check=False)
    return ran.stdout, ran.stderr, ran.returncode


def without_letters(output):
    """The rows of page --intervals without their last field, the letter of an incident, which the model does not have."""
    return b"".join(line.rpartition(b",")[0] + b"\n" for line in output.splitlines())


def show(seed, case, came, room):
    print(f"== {seed}: hdrstat {' '.join(case.arguments)}")
    kept = tempfile.mkdtemp(prefix="hdrstat-case-")
    for name, data in {"stdin": case.stdin, **case.files}.items():
        with open(os.path.join(kept, name), "wb") as file:
            file.write(data)
    print(f"   input in {kept}, it begins {case.stdin[:80]!r}")
    for what, wanted, it in zip(("stdout", "stderr", "status"), case.wanted, came):
        if wanted is not None and wanted != it:
            print(f"   {what}: wanted {wanted!r}\n   {what}: came   {it!r}")


def main():
    program, seed, count, *kinds = sys.argv[1:]
    program, differ, done = os.path.abspath(program), 0, {}
    with tempfile.TemporaryDirectory() as room:
        for number in range(int(count)):
            kind = kinds[number % len(kinds)] if kinds else list(KINDS)[number % len(KINDS)]
            case = KINDS[kind](random.Random(f"{seed}:{number}"))
            came = run(program, case, room)
            if kind == "page":
                came = (without_letters(came[0]), *came[1:])
            done[kind] = done.get(kind, 0) + 1
            if any(wanted is not None and wanted != it for wanted, it in zip(case.wanted, came)):
                differ += 1
                if differ <= 20:
                    show(f"{seed}:{number} {kind}", case, came, room)
    print(f"{', '.join(f'{number} {kind}' for kind, number in done.items())}: {differ} differ")
    return 1 if differ else 0


if __name__ == "__main__":
    sys.exit(main())
