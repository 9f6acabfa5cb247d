#!/usr/bin/env python3
"""The cases of programs, in the files tests/cases/PROGRAM/SUBJECT.cases.

usage: tools/case_files.py PROGRAM --in FOLDER     writes the input of each case to FOLDER/PROGRAM_NAME
       tools/case_files.py PROGRAM [ARGUMENT..]    prints what a case of help has for these arguments, with its status;
                                              the status is 100 if there is none

A case is a block of lines. Lines that are empty or begin with '#' are ignored between blocks.

    case NAME
    run ARGUMENT..      the arguments of the program, quoted as for sh; a line that ends with ' \\' goes on
    script              in place of run: a script of sh that gets the program as "$1"
    in                  standard input, if there is any
    out                 what has to come on standard output
    err                 what has to come on standard error
    status N            the status, if it is not 0
    proved WHY          why the case is left out where the program is unproved

The texts of script, in, out and err follow in lines with a mark: '|' and a line, '\\' and a line without its line feed, or '%' and
bytes with escapes, as '%12\\r\\n'. 'in as NAME' and 'out as NAME' are the same text of another case of the program.
"""
import dataclasses
import glob
import os
import re
import shlex
import sys

sys.dont_write_bytecode = True
TOP = os.path.dirname(os.path.dirname(os.path.abspath(__file__)))
TEXTS = ("script", "in", "out", "err")


class Invalid(Exception):
    """Why a file of cases is not valid."""


@dataclasses.dataclass
class Case:
    """A case of a program."""

    program: str
    name: str
    place: str
    arguments: list | None = None
    texts: dict = dataclasses.field(default_factory=dict)
    same: dict = dataclasses.field(default_factory=dict)
    status: int = 0
    proved: str = ""

    @property
    def path(self):
        return f"{self.program}/{self.name}"

    def text(self, kind):
        return self.texts.get(kind, b"")

    def command(self, program):
        """The command that runs the case."""
        if self.arguments is None:
            return ["sh", "-c", self.text("script").decode(), "sh", program]
        return [program, *self.arguments]


def escaped(text):
    """The bytes of a line with escapes."""
    return text.encode("latin-1", "backslashreplace").decode("unicode_escape").encode("latin-1")


def line_of_text(line):
    """The bytes of a marked line."""
    mark, rest = line[:1], line[1:]
    if mark == "%":
        return escaped(rest)
    return rest.encode() + (b"\n" if mark == "|" else b"")


def joined_lines(text):
    """The lines of a file with their numbers, where those that go on are one."""
    number, lines = 0, text.split("\n")
    while number < len(lines):
        line, first = lines[number], number + 1
        while re.match(r"(run|proved)\b", line) and line.endswith(" \\") and number + 1 < len(lines):
            number += 1
            line = line[:-1] + lines[number].lstrip()
        yield first, line
        number += 1


def add_line(case, kind, line):
    """Adds a line of a case, and returns the kind of text that may follow."""
    word, _, rest = line.partition(" ")
    if word == "run":
        case.arguments = shlex.split(rest)
    elif word in ("status", "proved"):
        setattr(case, word, int(rest) if word == "status" else rest)
    elif word in TEXTS and rest.startswith("as "):
        case.same[word] = rest[3:]
    elif word in TEXTS and not rest:
        case.texts[word] = b""
        return word
    elif line[:1] in "|\\%" and kind:
        case.texts[kind] += line_of_text(line)
        return kind
    else:
        raise Invalid(f"not a line of a case: {line}")
    return None


def cases_in(path, program):
    """The cases of a file."""
    found, kind = [], None
    with open(os.path.join(TOP, path), encoding="utf-8", newline="\n") as file:
        text = file.read()
    for number, line in joined_lines(text):
        if line.startswith("case "):
            found.append(Case(program, line[5:], f"{path}:{number}"))
            kind = None
        elif line and not line.startswith("#"):
            try:
                if not found:
                    raise Invalid("a line before the first case")
                kind = add_line(found[-1], kind, line)
            except (Invalid, ValueError) as error:
                raise Invalid(f"{path}:{number}: {error}") from error
    return found


def faults_of(cases):
    """What is wrong with the cases of a program."""
    names = [case.name for case in cases]
    for case in cases:
        if names.count(case.name) > 1:
            yield f"{case.place}: another case has the name {case.name}"
        if (case.arguments is None) == ("script" not in case.texts):
            yield f"{case.place}: a case has either run or script"
        if not set(case.same.values()) <= set(names):
            yield f"{case.place}: no case {', '.join(sorted(set(case.same.values()) - set(names)))}"


def cases_of(program):
    """The cases of a program, and what is wrong with its files."""
    cases, faults = [], []
    for path in sorted(glob.glob(f"tests/cases/{program}/*", root_dir=TOP)):
        try:
            if not path.endswith(".cases"):
                raise Invalid(f"{path}: a stray file")
            cases += cases_in(path, program)
        except Invalid as error:
            faults.append(str(error))
    faults += faults_of(cases)
    named = {case.name: case for case in cases}
    for case in cases if not faults else []:
        case.texts.update({kind: named[name].text(kind) for kind, name in case.same.items()})
    return cases, faults


def show_help(program, arguments):
    """Prints what a case of help has for these arguments, and returns its status."""
    for case in cases_of(program)[0]:
        is_help = case.name == "no_arguments" or case.name.startswith("help")
        if is_help and case.arguments == arguments and "in" not in case.texts:
            sys.stdout.buffer.write(case.text("out"))
            sys.stdout.flush()
            sys.stderr.buffer.write(case.text("err"))
            return case.status
    return 100


def write_inputs(program, folder):
    """Writes the input of each case to a file."""
    for case in cases_of(program)[0]:
        if case.text("in") and "in" not in case.same:
            with open(os.path.join(folder, f"{program}_{case.name}"), "wb") as file:
                file.write(case.text("in"))


def main():
    program, *arguments = sys.argv[1:]
    if arguments[:1] == ["--in"] and len(arguments) == 2:
        return write_inputs(program, arguments[1]) or 0
    return show_help(program, arguments)


if __name__ == "__main__":
    sys.exit(main())
