"""The cases of tests/program/run and tests/program/compare: what the program gets and what it must do.

A case is a command with its files. Its expected output is in the same place: bytes if they are known
completely, otherwise a check of the output. The groups `first` and `rules` have one log on standard
input; those of `rules` have rules, overrides and artifacts. `usage` has arguments that don't lead to a
merge, and all other groups have arguments that do.
"""

import json
from dataclasses import dataclass, field, replace
from pathlib import Path
from typing import Callable, Optional

EXAMPLES = Path(__file__).resolve().parents[2] / "examples"
MARK = b"\xef\xbb\xbf"
FULL = "/dev/full"


@dataclass
class Answer:
    """The result of a program: its exit status, its two streams, the file that it had to write, and what
    was wrong in its folder."""

    status: int
    stdout: bytes
    stderr: bytes
    out: Optional[bytes]
    looked: list = field(default_factory=list)


@dataclass
class Case:
    """A command and its expected result. None means that a part isn't checked.

    `prepare` creates other files in the folder. Its return value is passed to `look`, which checks the folder
    afterwards. `beside` has the arguments of programs that run at the same time. If root runs a case with
    `is_nobody`, the program runs as the user nobody, so that file modes apply.
    """

    group: str
    name: str
    words: list = field(default_factory=list)
    stdin: bytes = b""
    files: dict = field(default_factory=dict)
    status: int = 0
    stdout: Optional[bytes] = None
    stderr: Optional[bytes] = None
    out: Optional[bytes] = None
    out_name: str = "o"
    streams: dict = field(default_factory=dict)
    open_files: Optional[int] = None
    file_size: Optional[int] = None
    seconds: int = 60
    is_nobody: bool = False
    beside: list = field(default_factory=list)
    prepare: Optional[Callable] = None
    check: Optional[Callable] = None
    look: Optional[Callable] = None

    def into(self, group):
        """The same case in this group."""
        return replace(self, group=group)

    def faults(self, answer):
        """What is wrong in a result, one line per error."""
        wrong = []
        if answer.status != self.status:
            said = answer.stderr.decode(errors="replace").strip()
            wrong.append(f"status {answer.status}, and not {self.status}; it said: {said[:300]}")
        for name in ("stdout", "stderr", "out"):
            wanted, found = getattr(self, name), getattr(answer, name)
            if wanted is not None and wanted != found:
                wrong.append(f"{name}: {difference(wanted, found)}")
        if self.check and not wrong:
            wrong += self.check(answer)
        return wrong + answer.looked


def difference(wanted, found):
    if found is None:
        return "nothing was written"
    pairs = enumerate(zip(wanted, found))
    at = next((i for i, (a, b) in pairs if a != b), min(len(wanted), len(found)))
    near = slice(max(0, at - 30), at + 50)
    return f"at byte {at} {found[near]!r}, and not {wanted[near]!r}"


# ---- Logs


def text(value):
    return json.dumps(value, ensure_ascii=False, separators=(",", ":")).encode()


def log(*runs):
    return text({"version": "2.1.0", "runs": list(runs)})


def run(name, *results, **members):
    return {"tool": {"driver": {"name": name}}, "results": list(results), **members}


def bare(count):
    """A log with this number of results without members."""
    return log(run("b", 0)).replace(b"[0]", b"[" + b",".join([b"{}"] * count) + b"]")


def plain(**members):
    """A result that has a message and nothing else."""
    return {"message": {"text": "m"}, **members}


def ruled(**members):
    """A result of the rule R1."""
    return plain(ruleId="R1", **members)


def at(uri, **members):
    """The members of a result at a URI."""
    place = {"physicalLocation": {"artifactLocation": {"uri": uri}}}
    return {"locations": [place], **members}


def rules(*entries, version=1):
    return text({"version": version, "suppressions": list(entries)})


NOTHING = {
    state: {"active": [0] * 4, "suppressed": [0] * 4}
    for state in ("absent", "new", "unchanged", "updated")
}


def gate(
    verdict="pass",
    hits=0,
    fail_on="error",
    most=0,
    without=0,
    unused=0,
    suppressed=None,
    states=("new", "updated"),
    **active,
):
    """The gate object with these counts, in the order error, warning, note, none."""
    counts = json.loads(json.dumps(NOTHING))
    for side, given in (("active", active), ("suppressed", suppressed or {})):
        for state, numbers in given.items():
            counts[state][side] = numbers
    return {
        "counts": counts,
        "failOn": fail_on,
        "hits": hits,
        "max": most,
        "runsWithoutResults": without,
        "states": list(states),
        "unusedSuppressions": unused,
        "verdict": verdict,
    }


def merged(gate, *runs):
    """A merged log with these runs, as a string. Members are in the order of their names."""
    return text({"properties": {"gate": gate}, "runs": list(runs), "version": "2.1.0"})


def in_order(value):
    """The value with the members of each object in the order of their names."""
    return json.loads(json.dumps(value, sort_keys=True))


def written(name, *results):
    return {"results": list(results), "tool": {"driver": {"name": name}}}


def marked(state, level="warning", suppressions=(), **members):
    """A result as it is written, its members in the order of their names."""
    marks = {"baselineState": state, "level": level, "suppressions": list(suppressions)}
    return dict(sorted({**members, **marks}.items()))


ONE = log(run("lint", plain()))
ONE_MERGED = merged(gate(new=[0, 1, 0, 0]), written("lint", marked("new", **plain())))
HEADING = b"state           error    warning       note       none suppressed\n"
ZERO = b"          0          0          0          0          0\n"
ONE_COUNTED = b"          0          1          0          0          0\n"
ONE_TABLE = (
    HEADING
    + b"new       "
    + ONE_COUNTED
    + b"unchanged "
    + ZERO
    + b"updated   "
    + ZERO
    + b"absent    "
    + ZERO
)
ONE_SUMMARY = ONE_TABLE + b"gate: pass, hits 0, max 0\n"


def line(fault):
    return f"sarif_gate: {fault}\n".encode()


def refused(fault):
    """The members of a case that is rejected with this cause, and its exit status."""
    status = 3 if fault.endswith(("ReadFailed", "WriteFailed")) else 2
    return {"stdout": b"", "stderr": line(fault), "status": status}


def says_what_is_wrong(answer):
    """Checks that standard error says something, and not that memory ran out."""
    wrong = ["nothing is on standard error"] * (not answer.stderr)
    return wrong + ["it says that memory ran out"] * (b"OutOfMemory" in answer.stderr)


# ---- Checks of a merged log


def tells(gate, states=None, levels=None):
    """The gate object, the last line of the summary, and the states or the levels of all results in order."""
    last = f"gate: {gate['verdict']}, hits {gate['hits']}, max {gate['max']}"

    def check(answer):
        whole = answer.stdout if answer.out is None else answer.out
        try:
            log = json.loads(whole)
        except ValueError:
            return [f"the merged log isn't JSON: {whole[:60]!r}"]
        wrong = [f"the gate is {log['properties']['gate']}"] * (log["properties"]["gate"] != gate)
        summary = (answer.stderr if answer.out is None else answer.stdout).decode(errors="replace").splitlines()
        wrong += [f"the summary ends with {summary[-1:]}, and not {last!r}"] * (summary[-1:] != [last])
        results = [it for run in log["runs"] for it in run.get("results", [])]
        for name, wanted in (("baselineState", states), ("level", levels)):
            found = [it[name] for it in results]
            if wanted is not None and found != wanted:
                wrong.append(f"{name} {found}, and not {wanted}")
        return wrong

    return check


def example(name):
    return (EXAMPLES / name).read_bytes()


def expected(name):
    return example(f"expected/{name}")
