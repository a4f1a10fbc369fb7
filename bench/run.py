#!/usr/bin/env python3
"""Measures a built `sis` at several numbers of files: times, and what a durable `put` costs.

The image has 65,536 blocks and areas of 1,024. The time of one `put` or `stat` is the difference of
two runs on the same image, one with many commands and one with one, divided by the commands more.
So starting, opening and committing are taken out. Each run is repeated, and the least time of each
is taken.

A durable `put` is a `put` and a `sync`. Its disk calls and the bytes that they write are the
difference of two runs too, one with both lines and one with a line that only tells. They are
counted by `strace`, and where that can't be run, computed from the length of the committed table.
"""

import argparse
import datetime
import os
import platform
import random
import re
import subprocess
import sys
import tempfile
import time
from pathlib import Path

TOP = Path(__file__).resolve().parent.parent
BLOCK_LEN = 4096
TOTAL_BLOCKS = 65536
AREA_BLOCKS = 1024
# The superblock, the selector and both areas: all of an image but its data blocks.
FRONT_LEN = BLOCK_LEN * (2 + 2 * AREA_BLOCKS)
MOST_LINES = 4096
SIZES = (100, 1000, 10000)
# The numbers of files before a durable `put`.
DURABLE_SIZES = (10, 1000, 10000)
# The system calls that read, write and sync an image file.
TRACED = "trace=/^pread,/^pwrite,/^f(data)?sync$"


def put(name):
    """The line that makes a file of one byte, which takes one data block."""
    return f'1 put "{name}" 61\n'


def stat(name):
    """The line that asks for a file's size."""
    return f'1 stat "{name}"\n'


SPACE = "1 space\n"
SYNC = "1 sync\n"


class Volume:
    """An image file, and the program that is run on it."""

    def __init__(self, program, image):
        self.program = program
        self.image = image
        words = [program, "format", image, str(TOTAL_BLOCKS), str(AREA_BLOCKS), "C"]
        subprocess.run(words, check=True, stdin=subprocess.DEVNULL)

    def run(self, verb, lines, tracer=()):
        """Runs a script, sees that its commands were done, and returns seconds and replies."""
        script = "".join(lines).encode()
        words = [*tracer, self.program, verb, self.image]
        start = time.perf_counter()
        ran = subprocess.run(words, input=script, stdout=subprocess.PIPE, check=True)
        seconds = time.perf_counter() - start
        replies = [line.split(b" ") for line in ran.stdout.splitlines()]
        if any(reply[2] != b"00000000" for reply in replies):
            sys.exit("bench: a command was not done: " + ran.stdout[:400].decode(errors="replace"))
        return seconds, replies

    def exec(self, lines, tracer=()):
        """Runs a script of one client, and returns the seconds that it took."""
        seconds, replies = self.run("exec", lines, tracer)
        if len(replies) != len(lines) + 1:
            sys.exit(f"bench: {len(lines)} commands and an end have {len(replies)} replies")
        return seconds

    def front(self):
        """The bytes before the data blocks."""
        with open(self.image, "rb") as file:
            return file.read(FRONT_LEN)

    def put_back(self, front):
        """Takes back what runs since then made: their data blocks are free once more."""
        with open(self.image, "r+b") as file:
            file.write(front)
            file.flush()
            os.fsync(file.fileno())

    def fill(self, names, there, size):
        """Makes the next files until there are so many."""
        while there < size:
            count = min(MOST_LINES, size - there)
            self.exec([put(name) for name in names[there : there + count]])
            there += count

    def table_len(self):
        """The length of the table that is committed."""
        with open(self.image, "rb") as file:
            file.seek(BLOCK_LEN)
            second = file.read(1) == b"\x01"
            file.seek(BLOCK_LEN * (2 + (AREA_BLOCKS if second else 0)))
            return int.from_bytes(file.read(8), "little")

    def traced(self, lines):
        """The disk calls of a script and the bytes that they write; none without `strace`."""
        trace = self.image + ".trace"
        try:
            self.exec(lines, ["strace", "-f", "-y", "-e", TRACED, "-o", trace])
            return disk_calls(Path(trace).read_text(), os.path.realpath(self.image))
        except (OSError, subprocess.CalledProcessError):
            return None

    def seconds_each(self, lines, repeats):
        """The seconds of one of these commands on the image as it stands, which is kept."""
        front = self.front()
        least = {}
        for _ in range(repeats):
            for count in (1, len(lines)):
                taken = self.exec(lines[:count])
                self.put_back(front)
                least[count] = min(taken, least.get(count, taken))
        return (least[len(lines)] - least[1]) / (len(lines) - 1)


def disk_calls(trace, image):
    """How often a trace has each call on the image, and how many bytes were written."""
    done = re.findall(r"(\w+)\(\d+<" + re.escape(image) + r">.*\) += (\d+)", trace)
    writes = [int(count) for name, count in done if name.startswith("pwrite")]
    return {
        "reads": sum(name.startswith("pread") for name, _ in done),
        "writes": len(writes),
        "syncs": sum(name.endswith("sync") for name, _ in done),
        "bytes": sum(writes),
    }


def draw_names(draw, count):
    """Names in no order of their own, the same ones in each run of the bench."""
    return [f"f{number:07}" for number in draw.sample(range(10**7), count)]


def measure(volume, puts, stats, repeats):
    """A row for each number of files: the number, the seconds of a `put`, those of a `stat`."""
    draw = random.Random(1)
    names = draw_names(draw, SIZES[-1] + puts)
    rows = []
    there = 0
    for size in SIZES:
        volume.fill(names, there, size)
        there = size
        asked = draw.choices(names[:there], k=stats)
        each_put = volume.seconds_each([put(name) for name in names[there : there + puts]], repeats)
        each_stat = volume.seconds_each([stat(name) for name in asked], repeats)
        rows.append((size, each_put, each_stat))
    return rows


def computed(table_len):
    """The calls of a durable `put` by the rule: block, area, sync, selector, sync."""
    written = BLOCK_LEN + 8 + table_len + 1
    return {"reads": 0, "writes": 3, "syncs": 2, "bytes": written}


def durable_put(volume, name):
    """The calls of one `put` and its `sync`, and whether they were counted."""
    opened = volume.traced([SPACE])
    whole = volume.traced([put(name), SYNC])
    if opened is None or whole is None or not opened["reads"]:
        volume.exec([put(name), SYNC])
        return computed(volume.table_len()), False
    return {key: whole[key] - opened[key] for key in whole}, True


def measure_durable(volume):
    """A row for each number of files: the number, the table's length after it, calls, counted."""
    names = draw_names(random.Random(1), DURABLE_SIZES[-1] + 1)
    rows = []
    there = 0
    for size in DURABLE_SIZES:
        volume.fill(names, there, size)
        calls, counted = durable_put(volume, names[size])
        there = size + 1
        rows.append((size, volume.table_len(), calls, counted))
    return rows


def micros(seconds):
    """A time in microseconds, where it is more than runs differ by themselves."""
    return f"{seconds * 1e6:.2f}" if seconds > 0 else "-"


def ratio(part, whole):
    """How many times the other this one is, where both could be measured."""
    return f"{part / whole:.2f}" if part > 0 and whole > 0 else "-"


def processor():
    """The processor's name, as the system tells it."""
    try:
        for line in Path("/proc/cpuinfo").read_text().splitlines():
            if line.startswith("model name"):
                return line.split(":", 1)[1].strip()
    except OSError:
        pass
    return platform.processor() or platform.machine()


def machine():
    """The processor, and how many of it are seen, as a line."""
    return f"Processor: {processor()}, {os.cpu_count()} of them seen."


def program_at(word, variable, built):
    """The program that is measured: this word, else what the variable names, else the built one."""
    path = Path(word or os.environ.get(variable) or TOP / built).resolve()
    if not os.access(path, os.X_OK):
        sys.exit(f"{Path(sys.argv[0]).name}: {path} is no program: build it, or give another's path")
    return str(path)


def durable_report(rows):
    """The table of durable puts, as text."""
    lines = [
        "| Files | Table, bytes | Reads | Writes | Syncs | Bytes written |",
        "|---|---|---|---|---|---|",
    ]
    for size, table_len, calls, _ in rows:
        lines.append(
            f"| {size:,} | {table_len:,} | {calls['reads']} | {calls['writes']} "
            f"| {calls['syncs']} | {calls['bytes']:,} |"
        )
    how = "counted by strace" if all(row[3] for row in rows) else "computed"
    return [f"One `put` of one byte and a `sync`, {how}:", "", *lines, ""]


def report(rows, durable, args):
    """The tables and the machine, as text."""
    _, least_put, least_stat = rows[0]
    lines = [
        f"# {datetime.date.today()}",
        "",
        f"An image of {TOTAL_BLOCKS:,} blocks with areas of {AREA_BLOCKS:,}. Puts in a run: "
        f"{args.puts:,}.",
        f"Stats in a run: {args.stats:,}. Runs of each kind: {args.repeats}.",
        "",
        "| Files | `put`, µs | ratio | `stat`, µs | ratio |",
        "|---|---|---|---|---|",
    ]
    for size, each_put, each_stat in rows:
        lines.append(
            f"| {size:,} | {micros(each_put)} | {ratio(each_put, least_put)} "
            f"| {micros(each_stat)} | {ratio(each_stat, least_stat)} |"
        )
    lines += ["", *durable_report(durable)]
    lines += [
        machine(),
        f"System: {platform.system()} {platform.release()}. Python {platform.python_version()}.",
    ]
    return "\n".join(lines) + "\n"


def count_of(least, most):
    """A reader of a number within these limits."""

    def read(text):
        number = int(text)
        if not least <= number <= most:
            raise argparse.ArgumentTypeError(f"{number} is not from {least} to {most}")
        return number

    return read


def main():
    parser = argparse.ArgumentParser(description=__doc__.splitlines()[0])
    add = parser.add_argument
    lines = count_of(2, MOST_LINES)
    add("sis", nargs="?", help="a built program; else SIS, else crates/sis/out/sis")
    add("--puts", type=lines, default=100, help="puts in a run (100)")
    add("--stats", type=lines, default=4000, help="stats in a run (4000)")
    add("--repeats", type=count_of(1, 1000), default=5, help="runs of each kind (5)")
    add("--folder", help="where the image of 256 MiB is kept meanwhile")
    add("--write", action="store_true", help="write bench/results/DATE.md too")
    args = parser.parse_args()

    program = program_at(args.sis, "SIS", "crates/sis/out/sis")
    with tempfile.TemporaryDirectory(dir=args.folder) as folder:
        durable = measure_durable(Volume(program, os.path.join(folder, "durable.img")))
        os.remove(os.path.join(folder, "durable.img"))
        volume = Volume(program, os.path.join(folder, "bench.img"))
        text = report(measure(volume, args.puts, args.stats, args.repeats), durable, args)
    print(text, end="")
    if args.write:
        path = TOP / "bench/results" / f"{datetime.date.today()}.md"
        path.parent.mkdir(exist_ok=True)
        path.write_text(text)


if __name__ == "__main__":
    main()
