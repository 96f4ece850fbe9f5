#!/usr/bin/env python3
"""Makes the inputs of a row in the tables of bench/run: files, and arguments that merge them.

make_shape.py costs|growth NAME COUNT FOLDER

For costs, the inputs are the costly one and its twin. For growth, they are half the number of a thing and the
full number. FOLDER gets the files and plan.json, which has the arguments, the size and the allowed exit statuses
of each input. This is a separate program, so that the memory for making the inputs isn't measured.
"""

import json
import sys
from pathlib import Path

sys.dont_write_bytecode = True
sys.path.insert(0, str(Path(__file__).resolve().parent))

import growth
import shapes


def inputs_of(table, name, count):
    if table == "costs":
        return shapes.SHAPES[name][0](count)
    make = growth.THINGS[name][0]
    return [make(count // 2), make(count)]


def main(table, name, count, folder):
    plan = []
    for number, given in enumerate(inputs_of(table, name, int(count))):
        room = Path(folder, str(number))
        room.mkdir()
        words = [*given.files(room), "--out", str(room / "merged")]
        plan.append({"words": words, "bytes": given.bytes(), "statuses": given.statuses()})
    Path(folder, "plan.json").write_text(json.dumps(plan))


if __name__ == "__main__":
    main(*sys.argv[1:])
