"""Merges of small random logs, and checks of laws: what tests/program/upkeep and tests/program/laws share."""

import argparse
import json
import random
import shlex
import subprocess
import tempfile
from pathlib import Path

import reference_diff
from inputs import Inputs
from reference_change import Change
from running import program

LEVELS = ["none", "note", "warning", "error"]
STATES = ["new", "updated", "unchanged", "absent"]
TODAY = 20250131
# The chance that a random case is rejected, as an external file or an entry without a condition is, is below this.
MOST_REJECTED = 0.6


class Wrong(Exception):
    """What a merge got wrong."""


class Diff:
    """A diff in the file `name` of a folder, and which results are inside of its change, by the second reader."""

    def __init__(self, folder, data, name="d", scope="lines"):
        self.data, self.name, self.scope = data, name, scope
        (folder / name).write_bytes(data)
        self.change = Change(data, scope)

    def words(self):
        return ["--diff", self.name, "--diff-scope", self.scope]


class Merged:
    """The log that a merge wrote. Results are listed run by run. Copies are no findings. With a change, hits are inside
    of it."""

    def __init__(self, text, policy, change=None):
        log = json.loads(text)
        self.policy, self.gate = policy, log["properties"]["gate"]
        self.runs = log["runs"]
        results = [run.get("results") or [] for run in self.runs]
        self.current = [[it for it in run if it["baselineState"] != "absent"] for run in results]
        self.absent = [[it for it in run if it["baselineState"] == "absent"] for run in results]
        every = {(r, s): it for r, run in enumerate(results) for s, it in enumerate(run)}
        self.copies = set(map(tuple, self.gate.get("copies", [])))
        self.findings = {place: it for place, it in every.items() if place not in self.copies}
        every = {place for place, it in self.findings.items() if self.is_hit(it)}
        self.hits = {place for place in every if change is None or self.is_inside(change, *place)}
        self.outside = every - self.hits

    def is_hit(self, result):
        floor, states = self.policy
        counts = result["baselineState"] in states and LEVELS.index(result["level"]) >= LEVELS.index(floor)
        return counts and not is_suppressed(result)

    def is_inside(self, change, run, number):
        result = self.runs[run]["results"][number]
        return change.is_inside(self.runs[run], result, result["baselineState"])

    def states(self):
        """The states of the findings that are not absent."""
        found = [it["baselineState"] for it in self.findings.values()]
        return [it for it in found if it != "absent"]

    def number_absent(self):
        return len(self.findings) - len(self.states())


def suppressions(result):
    return result.get("suppressions") or []


def is_suppressed(result):
    """Whether it has suppressions, and all of them are accepted."""
    found = [it.get("status") or "accepted" for it in suppressions(result)]
    return bool(found) and all(it == "accepted" for it in found)


def same(wanted, found, what):
    if wanted != found:
        raise Wrong(f"{what}: {found!r}, and not {wanted!r}"[:600])


class Case:
    """A folder with random inputs."""

    # The options that all merges of a case may have.
    HOW = ([], ["--matching", "3"])

    def __init__(self, command, folder, rng):
        self.command, self.folder, self.rng = command, Path(folder), rng
        self.inputs = Inputs(rng)
        self.values, self.values_before = self.made()
        self.logs = self.write("log", self.values)
        self.before = self.write("before", self.values_before)
        self.suppress = self.write("rules", [self.inputs.rules()] if rng.random() < 0.6 else [])
        self.floor = rng.choice(LEVELS)
        self.listed = rng.choice([STATES[:2], STATES[:1], STATES, rng.sample(STATES, rng.randint(1, 4))])
        self.workers = ["--workers", str(rng.choice([1, 2, 4]))]
        self.how = rng.choice(self.HOW)

    def made(self):
        """The logs and the baselines."""
        rng = self.rng
        logs = [self.inputs.log() for _ in range(rng.choice([1, 1, 2, 3]))]
        before = [self.inputs.log(True) for _ in range(rng.choice([0, 1, 1, 2]))]
        if before and rng.random() < 0.6:
            before[0] = self.inputs.aged(logs[0])
        if rng.random() < 0.6:
            self.inputs.copied([*logs, *before])
        return logs, before

    def write(self, name, values):
        names = [f"{name}{number}" for number in range(len(values))]
        for it, value in zip(names, values):
            (self.folder / it).write_text(self.inputs.spoken(value, False))
        return names

    def read(self, name):
        """The bytes of a file, or None if it isn't there."""
        path = self.folder / name
        return path.read_bytes() if path.is_file() else None

    def drawn_diff(self, part=1.0):
        """A diff that is accepted; None if the states don't allow one, and otherwise with that chance."""
        if "absent" in self.listed or self.rng.random() >= part:
            return None
        while True:
            try:
                return Diff(self.folder, self.inputs.diff(), scope=self.rng.choice(["lines", "files"]))
            except reference_diff.Fault:
                pass

    def merge(self, *words, logs=None, before=(), suppress=None, floor=None, states=None, how=None, diff=None):
        """The merged log of these inputs, or None if they are rejected."""
        floor, states = floor or self.floor, states or self.listed
        words = [*self.workers, *(self.how if how is None else how), *words]
        words += ["--allow-external-properties", "--today", str(TODAY)]
        words += ["--fail-on", floor, "--states", ",".join(states)]
        words += [word for it in before for word in ("--baseline", it)]
        words += ["--suppress", suppress] if suppress else []
        words += diff.words() if diff else []
        words += ["--out", "o", *(logs or self.logs)]
        ran = subprocess.run([*self.command, *words], cwd=self.folder, capture_output=True, text=True)
        self.words, self.said = words, ran.stderr.splitlines()
        if ran.returncode == 2:
            return None
        if ran.returncode not in (0, 1):
            raise Wrong(f"status {ran.returncode}: {ran.stderr[:300]}")
        merged = Merged((self.folder / "o").read_bytes(), (floor, states), diff and diff.change)
        same(len(merged.hits), merged.gate["hits"], "the hits of the merged log")
        same(len(merged.outside), merged.gate.get("diff", {}).get("outside", 0), "the results outside of the change")
        numbers = [sum(map(sum, it.values())) for it in merged.gate["counts"].values()]
        same(len(merged.findings), sum(numbers), "the counted results of the merged log")
        return merged

    def numbers(self, line=0):
        """The numbers in a line that the last merge wrote to standard error."""
        return [int(it) for it in self.said[line].split() if it.isdigit()]


def kept(folder, at, case, law, number):
    to = Path(at or tempfile.mkdtemp(prefix="sarif_gate-law-"), f"{law.__name__}-{number}")
    to.mkdir(parents=True, exist_ok=True)
    for it in Path(folder).iterdir():
        (to / it.name).write_bytes(it.read_bytes())
    (to / "words").write_text(shlex.join(getattr(case, "words", [])) + "\n")
    return to


def holds(command, law, kind, seed, number, keep):
    """Whether a law is true for a random case, or None if the case has nothing to check."""
    with tempfile.TemporaryDirectory() as folder:
        case = kind(command, folder, random.Random(f"{law.__name__} {seed} {number}"))
        try:
            return True if law(case) else None
        except (Wrong, KeyError, ValueError) as wrong:
            at = kept(folder, keep, case, law, number)
            print(f"FAILED {law.__name__}, seed {seed}, number {number}: {wrong!r}; see {at}", flush=True)
            return False


def checked(words, about, laws, kind=Case):
    """Checks laws, which are functions of a case, on random cases of a kind. Returns the exit status."""
    about = argparse.ArgumentParser(description=about, formatter_class=argparse.RawTextHelpFormatter)
    about.add_argument("--seed", type=int, default=1)
    about.add_argument("--cases", type=int, default=100, help="how many of each law, checked or not")
    about.add_argument("--keep", type=Path, default=None)
    about.add_argument("--program")
    given = about.parse_args(words)
    command, passed, failed = program(given.program), 0, 0
    for law in laws:
        found = [holds(command, law, kind, given.seed, number, given.keep) for number in range(given.cases)]
        number = len([it for it in found if it is not None])
        print(f"{law.__name__}: {number} of {given.cases} cases have something to check", flush=True)
        passed, failed = passed + found.count(True), failed + found.count(False)
        if number < given.cases * (1 - MOST_REJECTED) / 2:
            print(f"FAILED {law.__name__}: too few cases have something to check")
            failed += 1
    print(f"{passed} passed, {failed} failed")
    return 1 if failed else 0
