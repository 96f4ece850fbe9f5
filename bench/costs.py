"""Measures what costly inputs take compared with harmless ones, and how costs grow with each thing.

It measures processor time and peak memory, which hardly depend on what else the machine does. The lowest of
several runs counts.
"""

import json
import os
import subprocess
import sys
import tempfile
from dataclasses import dataclass
from pathlib import Path

from growth import THINGS
from measuring import measure
from shapes import SHAPES

MAKER = Path(__file__).resolve().parent / "make_shape.py"
BOUND = 2.0
# Values below those of the program with almost no input, and below those of this script, are not distinguished.
LEAST_SECONDS, LEAST_BYTES = 0.02, 40_000_000


@dataclass
class Cost:
    """The lowest values of several runs."""

    processor: float
    peak: int
    bytes: int


def costs_of(gate, row, times):
    """The costs of the inputs of a row, which is a table, a name and a count. They run in turn."""
    with tempfile.TemporaryDirectory(prefix="sarif_gate-costs-") as folder:
        words = [sys.executable, str(MAKER), *map(str, row), folder]
        subprocess.run(words, check=True)
        plan = json.loads(Path(folder, "plan.json").read_text())
        runs = [[] for _ in plan]
        for _ in range(times):
            for found, given in zip(runs, plan):
                words = [gate, *given["words"]]
                found.append(measure(words, None, os.devnull, given["statuses"]))
    return [
        Cost(min(it.processor for it in found), min(it.peak for it in found), given["bytes"])
        for found, given in zip(runs, plan)
    ]


def quotients(cost, other):
    """The ratios of time and memory to those of the other input."""
    time = max(cost.processor, LEAST_SECONDS) / max(other.processor, LEAST_SECONDS)
    memory = max(cost.peak, LEAST_BYTES) / max(other.peak, LEAST_BYTES)
    return time, memory


def heading(title, *columns):
    print(f"\n{title:<22}" + "".join(f"{it:>{width}}" for it, width in columns))


def show_costs(gate, scale, times):
    """Prints one line per shape, with a mark if it takes more than twice as much as the harmless input."""
    columns = ("many", 9), ("bytes", 12), ("ms", 8), ("beside", 8), ("MB", 7), ("beside", 8)
    heading("costs", *columns, ("time", 8), ("memory", 8))
    for name, (_, count) in SHAPES.items():
        count = max(100, int(count * scale))
        costly, harmless = costs_of(gate, ("costs", name, count), times)
        time, memory = quotients(costly, harmless)
        sides = f"{costly.processor * 1e3:>8.0f}{harmless.processor * 1e3:>8.0f}"
        sides += f"{costly.peak / 1e6:>7.0f}{harmless.peak / 1e6:>8.0f}"
        mark = "   over" if max(time, memory) > BOUND else ""
        print(f"{name:<22}{count:>9,}{costly.bytes:>12,}{sides}", end="")
        print(f"{time:>8.2f}{memory:>8.2f}{mark}", flush=True)


def show_growth(gate, scale, times):
    """Prints how much more twice as many of each thing take."""
    columns = ("many", 9), ("bytes", 12), ("ms", 8), ("MB", 7)
    heading("growth", *columns, ("bytes", 8), ("time", 8), ("memory", 8))
    for name, (_, count) in THINGS.items():
        count = max(2, int(count * scale))
        half, whole = costs_of(gate, ("growth", name, count), times)
        ratios = (whole.bytes / half.bytes, *quotients(whole, half))
        print(f"{name:<22}{count:>9,}{whole.bytes:>12,}{whole.processor * 1e3:>8.0f}", end="")
        print(f"{whole.peak / 1e6:>7.0f}" + "".join(f"{it:>8.2f}" for it in ratios), flush=True)
