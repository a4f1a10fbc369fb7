#!/usr/bin/env python3
"""Measures how the time of a line grows with the script that a built `sis` replays.

Scripts of 256, 1,024 and 4,096 lines are run by the verb `replay` on one image with 100 files:
stats of 16 clients, and one line with the schedule, a turn for each stat in an order drawn at
random. At 4,096 lines one client alone is measured too.

The time of a line is the difference of two runs, the script and one with a single stat of each
client, divided by the stats more. So starting, opening and the ends of sessions are taken out. Each
run is repeated, and the least time of each is taken. Nothing is committed.
"""

import argparse
import os
import random
import sys
import tempfile

from run import Volume, count_of, draw_names, machine, micros, program_at, put, ratio

LINES = (256, 1024, 4096)
MOST_CLIENTS = 16
FILES = 100


class Replay:
    """A script of stats by some clients in turn, and a schedule with a turn for each."""

    def __init__(self, draw, names, clients, stats):
        owners = [1 + number % clients for number in range(stats)]
        self.turns = draw.sample(owners, stats)
        # The ends come in rounds, behind the schedule.
        self.order = self.turns + list(range(1, clients + 1))
        self.lines = [f"@ {' '.join(map(str, self.turns))}\n"]
        self.lines += [f'{owner} stat "{draw.choice(names)}"\n' for owner in owners]

    def run(self, volume):
        """Runs it, sees that each stat had its turn, and returns the seconds that it took."""
        seconds, replies = volume.run("replay", self.lines)
        if [int(reply[0]) for reply in replies] != self.order:
            sys.exit("replay.py: the replies don't stand in the order of the turns")
        return seconds


def measure(volume, draw, names, kinds, repeats):
    """The seconds of a line for each kind of script, which is its clients and its lines."""
    scripts = {}
    for clients, lines in kinds:
        scripts[clients, lines] = Replay(draw, names, clients, lines - 1)
        scripts[clients, None] = Replay(draw, names, clients, clients)
    least = dict.fromkeys(scripts, float("inf"))
    for _ in range(repeats):
        for kind, script in scripts.items():
            least[kind] = min(least[kind], script.run(volume))
    return {
        (clients, lines): (least[clients, lines] - least[clients, None]) / (lines - 1 - clients)
        for clients, lines in kinds
    }


def table(head, rows):
    """Numbers and seconds as a table with ratios to the first one, as text."""
    lines = [f"| {head} | a line, µs | ratio |", "|---|---|---|"]
    for number, seconds in rows:
        lines.append(f"| {number:,} | {micros(seconds)} | {ratio(seconds, rows[0][1])} |")
    return lines


def main():
    parser = argparse.ArgumentParser(
        description=__doc__, formatter_class=argparse.RawDescriptionHelpFormatter
    )
    add = parser.add_argument
    add("sis", nargs="?", help="a built program; else SIS, else crates/sis/out/sis")
    add("--repeats", type=count_of(1, 1000), default=400, help="runs of each kind (400)")
    add("--folder", help="where the image of 256 MiB is kept meanwhile")
    args = parser.parse_args()

    program = program_at(args.sis, "SIS", "crates/sis/out/sis")
    draw = random.Random(1)
    names = draw_names(draw, FILES)
    kinds = [*((MOST_CLIENTS, lines) for lines in LINES), (1, LINES[-1])]
    with tempfile.TemporaryDirectory(dir=args.folder) as folder:
        volume = Volume(program, os.path.join(folder, "bench.img"))
        volume.exec([put(name) for name in names])
        taken = measure(volume, draw, names, kinds, args.repeats)
    lines = [
        *table("Lines", [(lines, taken[MOST_CLIENTS, lines]) for lines in LINES]),
        "",
        *table("Clients", [(clients, taken[clients, LINES[-1]]) for clients in (1, MOST_CLIENTS)]),
        "",
        f"Runs of each kind: {args.repeats}.",
        machine(),
    ]
    print("\n".join(lines))


if __name__ == "__main__":
    main()
