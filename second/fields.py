#!/usr/bin/env python3
"""Station lists (document 02 §5) read by Python's csv in strict mode: a reader of comma-separated files that nobody here wrote.

fields.py < LIST                   prints the fields of each record as `second fields` does
fields.py SECOND SEEDS PROGRAM     takes so many lists that keep to the grammar (`SECOND well-formed SEED`) and asks that SECOND finds the fields that
                                   Python's csv finds, and that PROGRAM writes on both streams what these fields imply; the exit status is 1 if not

Where csv departs from the grammar on other lists is told in docs/DECISIONS.md.
"""

import csv
import io
import re
import subprocess
import sys

# 01's form of a number, as a pattern.
NUMBER = re.compile(r"0|-?[1-9][0-9]{0,6}", re.ASCII)


def records(file):
    """The fields of each record. Latin-1 makes one letter of each byte, and newline='' leaves every line end as it stands."""
    return csv.reader(io.StringIO(file.decode("latin-1"), newline=""), strict=True)


def shown(fields):
    return "".join(f.encode("latin-1").hex() + ";" for f in fields)


def refusal(fields):
    """The number that 02 §5 refuses a record with, or 0."""
    if len(fields) != 4 or not all(NUMBER.fullmatch(f) for f in fields[:3]):
        return 11
    number, x, y = map(int, fields[:3])
    if not 1 <= number <= 9999:
        return 3
    return 0 if abs(x) <= 1_000_000 and abs(y) <= 1_000_000 else 4


def streams(rows):
    """What the rows imply: the lines on the output, the reports on the error stream. The first is the header."""
    judged = [(i, fields, refusal(fields)) for i, fields in enumerate(rows) if i > 0]
    lines = ["\t".join(["E", *fields[:3]]) + "\n" for _, fields, given in judged if given == 0]
    reports = [f"{i}\t{given}\n" for i, _, given in judged if given != 0]
    return "".join(lines).encode("latin-1"), "".join(reports).encode()


def said(command, file):
    done = subprocess.run(command, input=file, capture_output=True)
    if done.returncode != 0:
        sys.exit(f"fields: {command}: exit status {done.returncode}, {done.stderr!r}")
    return done.stdout, done.stderr


def same(what, ours, pythons):
    if ours != pythons:
        sys.exit(f"fields: {what} differs from what Python's csv finds:\n  {ours!r}\n  {pythons!r}")


def compare(second, seeds, program):
    count, stations, refused = [0, 0, 0], 0, 0
    for seed in range(seeds):
        file, _ = said([second, "well-formed", str(seed)], b"")
        rows = list(records(file))
        found = said([second, "fields"], file)[0].decode().splitlines()
        same(f"list {seed}: how many records there are", len(found), len(rows))
        for i, fields in enumerate(rows):
            same(f"list {seed}, record {i}", found[i], shown(fields))
        lines, reports = streams(rows)
        output, errors = said([program], file)
        same(f"list {seed}: the output of {program}", output, lines)
        same(f"list {seed}: the error stream of {program}", errors, reports)
        count = [count[0] + 1, count[1] + len(rows), count[2] + sum(map(len, rows))]
        stations += lines.count(b"\n")
        refused += reports.count(b"\n")
    print("fields: {} lists, {} records, {} fields are the same by Python's csv".format(*count), end="; ")
    print(f"so are the {stations} stations and the {refused} reports of the program")


def show(file):
    try:
        for fields in records(file):
            print(shown(fields))
    except csv.Error as e:
        print(f"? {e}")


if __name__ == "__main__":
    if len(sys.argv) == 4:
        compare(sys.argv[1], int(sys.argv[2]), sys.argv[3])
    elif len(sys.argv) == 1:
        show(sys.stdin.buffer.read())
    else:
        sys.exit("usage: fields.py < LIST, or fields.py SECOND SEEDS PROGRAM")
