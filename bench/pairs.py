"""Pairs of older and newer logs, and what a merge of logs with baselines says about each result.

A result is a Record of tests/reference/reference.py with region and snippet, and with its state.
"""

import json
import subprocess
import sys
import tempfile
from dataclasses import dataclass
from pathlib import Path

sys.path.insert(0, str(Path(__file__).resolve().parents[1] / "tests/reference"))

from reference import Checks, Head, Record, fields
from reference_json import Fault
from reference_matching import partners, state


@dataclass
class Pair:
    """The files of an older and of a newer version of some code."""

    name: str
    older: list
    newer: list


def pairs_in(folder):
    """The pairs of a folder: NAME-VERSION.sarif and NAME.sarif, or all logs of its folders old and new."""
    found = []
    for newer in sorted(folder.glob("*.sarif")):
        olders = sorted(folder.glob(f"{newer.stem}-[0-9]*.sarif"))
        found += [Pair(it.stem if len(olders) > 1 else newer.stem, [it], [newer]) for it in olders]
    sides = [sorted((folder / side).glob("*.sarif")) for side in ("old", "new")]
    return found + [Pair(folder.name, *sides)] * all(sides)


def logs_in(folder):
    """All logs of a folder and of its folders old and new."""
    return sorted(it for part in (".", "old", "new") for it in (folder / part).glob("*.sarif"))


def records_of(source, once=False):
    """The results of a log with their states, which are None in a log that no merge wrote. Those of a merge with `--once`
    are without its copies."""
    log, found = json.loads(source.removeprefix(b"\xef\xbb\xbf")), []
    copies = {tuple(it) for it in log["properties"]["gate"]["copies"]} if once else ()
    for number, run in enumerate(log["runs"] or []):
        head = Head(run)
        for at, value in enumerate(run.get("results") or []):
            was = value.pop("baselineState", None)
            if (number, at) not in copies:
                found.append((was, Record(head, value, Checks(version=3))))
    return found


def records_in(path):
    """The results of a file that are not already absent."""
    try:
        return [it for was, it in records_of(path.read_bytes()) if was != "absent"]
    except Fault as fault:
        raise SystemExit(f"{path} is rejected: {fault.cause}") from None


def by_program(gate):
    """A merge by the program. It returns the results of the merged log with their states."""

    def merge(newer, older, version, once=False):
        with tempfile.TemporaryDirectory(prefix="sarif_gate-matching-") as folder:
            out = Path(folder, "merged")
            words = [gate, "--matching", str(version), "--allow-external-properties", "--out", str(out)]
            words += ["--once"] * once
            words += [word for it in older for word in ("--baseline", str(it))]
            ran = subprocess.run([*words, *map(str, newer)], capture_output=True, text=True)
            if ran.returncode not in (0, 1):
                raise SystemExit(f"{newer[0]} is rejected: {ran.stderr[-300:].strip()}")
            return records_of(out.read_bytes(), once)

    return merge


def findings(records):
    """The results that are no copies: the first of those that are alike."""
    firsts = {}
    return [it for it in records if (alike := fields(it)) is None or firsts.setdefault(alike, it) is it]


def by_reference(newer, older, version, once=False):
    """The same by the matching of the second merger."""
    current, before = ([it for path in paths for it in records_in(path)] for paths in (newer, older))
    if once:
        current, before = findings(current), findings(before)
    found = partners(current, before, version)
    merged = [(state(it, None if j is None else before[j], version), it) for it, j in zip(current, found)]
    taken = set(found)
    return merged + [("absent", it) for j, it in enumerate(before) if j not in taken]
