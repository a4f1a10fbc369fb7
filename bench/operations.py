#!/usr/bin/env python3
"""Measures how the time of operations on files grows, on a built `sis_ops`.

A volume over a disk in memory is filled step by step. At 1, 100 and 10,000 runs of a file, where
every second block was written in turn, it measures a write of one of these blocks. At 10, 1,000 and
10,000 files of one block it measures a put, a write and a removal of such a file.

The program shows the time between its lines `clock`. Each batch of operations is followed by one of
writes of no bytes, as many; what these take is taken off, so that reading a line and printing its
answer don't count. Of many rounds the median counts. A ratio is a time divided by the first one of
its column. Nothing is committed.
"""

import argparse
import random
import statistics
import subprocess
import sys
import tempfile

from run import count_of, machine, micros, program_at, ratio

BLOCK_LEN = 4096
RUNS = (1, 100, 10000)
FILES = (10, 1000, 10000)
# 16,384 blocks, with room for the tables of both volumes.
VOLUME = "volume 16384 256"


class Script:
    """Lines for the program, and the batches among them whose times are wanted."""

    def __init__(self):
        self.lines = [VOLUME]
        self.batches = []

    def measure(self, key, lines):
        """Adds lines whose time counts under this key."""
        self.lines += ["clock", *lines, "clock"]
        self.batches += [None, key]

    def run(self, program):
        """Runs the program, sees that each line was done, and returns the seconds of each batch."""
        with tempfile.TemporaryFile() as output:
            text = "\n".join(self.lines).encode()
            subprocess.run([program], input=text, stdout=output, check=True)
            output.seek(0)
            answers = [line[2:] for line in output.read().decode().splitlines() if line[:2] == "> "]
        clocks = [answer for answer in answers if answer.endswith(" ns")]
        for answer in answers:
            if not answer.startswith(("done", "opened")) and not answer.endswith(" ns"):
                sys.exit("operations.py: an operation was not done: " + answer)
        taken = {}
        for key, answer in zip(self.batches, clocks, strict=True):
            if key:
                taken.setdefault(key, []).append(int(answer.split()[0]) / 1e9)
        return taken


def write(file, at, length):
    """The line that writes bytes of a file."""
    return f"write {file} {at} {length} 62"


def nothing(batch):
    """Lines that are read and answered as others, and do nothing else."""
    return [write(1, 0, 0)] * batch


def runs_script(batch, rounds):
    """Batches of writes at each number of runs."""
    draw = random.Random(1)
    script = Script()
    script.lines += ["put a 0 00", f"size 1 {2 * RUNS[-1] * BLOCK_LEN}"]
    there = 0
    for runs in RUNS:
        places = [2 * block * BLOCK_LEN for block in range(runs)]
        script.lines += [write(1, at, BLOCK_LEN) for at in places[there:]]
        there = runs
        for _ in range(rounds):
            ats = draw.choices(places, k=batch)
            script.measure(("write", runs), [write(1, at, BLOCK_LEN) for at in ats])
            script.measure(("nothing", runs), nothing(batch))
    return script


def files_script(batch, rounds):
    """Batches of puts, writes and removals at each number of files."""
    draw = random.Random(1)
    count = FILES[-1] + len(FILES) * rounds * batch
    names = (f"f{number:07}" for number in draw.sample(range(10**7), count))
    script = Script()
    there = []
    last = 0
    for files in FILES:
        more = range(last + 1, last + 1 + files - len(there))
        script.lines += [f"put {next(names)} 1 61" for _ in more]
        there += more
        last += len(more)
        for _ in range(rounds):
            made = range(last + 1, last + 1 + batch)
            last += batch
            script.measure(("put", files), [f"put {next(names)} 1 61" for _ in made])
            written = draw.choices(there, k=batch)
            script.measure(("write", files), [write(file, 0, 1) for file in written])
            script.measure(("remove", files), [f"remove {file}" for file in made])
            script.measure(("nothing", files), nothing(batch))
    return script


def table(what, sizes, operations, taken, batch):
    """A row for each number of runs or files, with times and ratios, as text."""

    def each(operation, size):
        median = statistics.median(taken[operation, size])
        return (median - statistics.median(taken["nothing", size])) / batch

    heads = "".join(f" `{operation}`, µs | ratio |" for operation in operations)
    lines = [f"| {what} |{heads}", "|---|" + "---|---|" * len(operations)]
    for size in sizes:
        row = f"| {size:,} |"
        for operation in operations:
            seconds = each(operation, size)
            row += f" {micros(seconds)} | {ratio(seconds, each(operation, sizes[0]))} |"
        lines.append(row)
    return lines


def main():
    parser = argparse.ArgumentParser(
        description=__doc__, formatter_class=argparse.RawDescriptionHelpFormatter
    )
    add = parser.add_argument
    add("program", nargs="?", help="a built one; else SIS_OPS, else crates/sis_ops/out/sis_ops")
    add("--batch", type=count_of(1, 100), default=5, help="operations in a batch (5)")
    add("--rounds", type=count_of(1, 1000), default=200, help="batches of each kind (200)")
    args = parser.parse_args()

    program = program_at(args.program, "SIS_OPS", "crates/sis_ops/out/sis_ops")
    runs = runs_script(args.batch, args.rounds).run(program)
    files = files_script(args.batch, args.rounds).run(program)
    lines = [
        *table("Runs", RUNS, ["write"], runs, args.batch),
        "",
        *table("Files", FILES, ["put", "write", "remove"], files, args.batch),
        "",
        f"Operations in a batch: {args.batch}. Batches of each kind: {args.rounds}.",
        machine(),
    ]
    print("\n".join(lines))


if __name__ == "__main__":
    main()
