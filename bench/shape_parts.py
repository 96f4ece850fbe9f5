"""What the costly inputs of bench/shapes.py are made of."""

import json
from dataclasses import dataclass, field
from typing import Optional

LONG = "n" * 100_000
MEGABYTE = "n" * 1_000_000
# Names that begin like this, with eight digits and this ending, have the same hash in the kit's tables
# if the tables have their default seed.
SAME_HASH = "p9zdi529cnqp5de7tP_z'E{$", "/v1/v1/v1/v1/v1/"
OTHER_HASH = "another-beginning-of-it_", "/v1/v1/v1/v1/v1/"
REPORTS = "text", "github", "markdown", "gitlab", "html", "junit", "azure"


@dataclass
class Input:
    """The inputs of a merge."""

    logs: list
    baselines: list = field(default_factory=list)
    suppress: Optional[str] = None
    workers: int = 1
    are_reported: bool = False
    # Which files for later merges are requested: `accept`, `known` or none.
    kept: str = ""
    # The places whose hits are accepted; without any, all are.
    places: tuple = ()
    # Whether the merge is rejected, since a file for later merges would be too long.
    is_too_long: bool = False
    # The version of matching. Without the option it is 2.
    matching: int = 2
    # Whether copies are counted once.
    once: bool = False
    # The diff of a change.
    diff: Optional[str] = None
    # The policy.
    policy: Optional[str] = None

    def files(self, folder):
        """Writes the files. Returns the arguments that merge them."""
        words = ["--workers", str(self.workers), "--today", "20250131"]
        for number, text in enumerate(self.baselines):
            words += ["--baseline", put(folder / f"baseline{number}", text)]
        if self.suppress is not None:
            words += ["--suppress", put(folder / "suppressions", self.suppress)]
        if self.are_reported:
            words += [word for it in REPORTS for word in (f"--{it}", str(folder / it))]
        if self.kept == "accept":
            words += ["--suppress-out", str(folder / "new"), "--accept", *(f"--at={it}" for it in self.places)]
        if self.kept == "known":
            words += ["--known", str(folder / "known"), "--adopt"]
        if self.matching != 2:
            words += ["--matching", str(self.matching)]
        words += ["--once"] * self.once
        if self.diff is not None:
            words += ["--diff", put(folder / "diff", self.diff)]
        if self.policy is not None:
            words += ["--policy", put(folder / "policy", self.policy)]
        return [*words, *(put(folder / f"log{n}", text) for n, text in enumerate(self.logs))]

    def statuses(self):
        """How the merge may end."""
        return [2] if self.is_too_long else [0, 1]

    def bytes(self):
        return sum(map(len, [*self.logs, *self.baselines, self.suppress or "", self.diff or "", self.policy or ""]))


def put(path, text):
    path.write_text(text, encoding="utf-8")
    return str(path)


def compact(value):
    return json.dumps(value, ensure_ascii=False, separators=(",", ":"))


def log(*runs):
    return compact({"version": "2.1.0", "runs": list(runs)})


def run(results, driver=None, **members):
    return {"tool": {"driver": {"name": "t", **(driver or {})}}, "results": results, **members}


def entries(found, version=2):
    return compact({"version": version, "suppressions": found})


def message(text="m", **members):
    return {"message": {"text": text}, **members}


def at(uri):
    return {"locations": [{"physicalLocation": {"artifactLocation": {"uri": uri}}}]}


def placed(**location):
    return {"locations": [{"physicalLocation": {"artifactLocation": location}}]}


def logs_of(results, most):
    """Logs with at most `most` results each."""
    return [log(run(results[it : it + most])) for it in range(0, len(results), most)]


def in_region(context=None, **region):
    """The first location of a result, with a region."""
    physical = {"artifactLocation": {"uri": "a.c"}, "region": region, **(context or {})}
    return {"locations": [{"physicalLocation": physical}]}


def hashed(number, parts):
    return f"{parts[0]}{number:08}{parts[1]}"
