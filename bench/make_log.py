#!/usr/bin/env python3
"""Makes the inputs of bench/run: SARIF logs and suppression files, the same for one seed.

make_log.py SHAPE FOLDER [--scale S] [--seed N]

It writes the files and plan.json into FOLDER. plan.json names the files and says what they contain.
"""

import argparse
import json
import random
from pathlib import Path

LOG_BYTES = 50_000_000
RUNS = 20
TAGS = (
    "security",
    "correctness",
    "maintainability",
    "external/cwe/cwe-079",
    "external/cwe/cwe-476",
)
WORDS = "call of value pointer buffer index without check before use after free may be null".split()


class Maker:
    """Makes random results of about 1 KB from a seed."""

    def __init__(self, seed):
        self.rng = random.Random(seed)

    def text(self, words):
        return " ".join(self.rng.choices(WORDS, k=words))

    def digest(self):
        return f"{self.rng.getrandbits(128):032x}"

    def place(self, uri=None):
        uri = uri or f"src/part{self.rng.randrange(40)}/file{self.rng.randrange(2_000)}.c"
        line, column = self.rng.randrange(1, 5_000), self.rng.randrange(1, 100)
        region = {"startLine": line, "startColumn": column, "endColumn": column + 12}
        artifact = {"uri": uri, "uriBaseId": "SRCROOT"}
        return {"physicalLocation": {"artifactLocation": artifact, "region": region}}

    def flow(self):
        location = {**self.place(), "message": {"text": self.text(8)}}
        step = {"location": location, "importance": "essential", "nestingLevel": 1}
        return [{"threadFlows": [{"locations": [step]}]}]

    def result(self, number):
        """A third have fingerprints, a third have partial fingerprints, and a third have only a place."""
        rule, location = self.rng.randrange(200), self.place()
        location["physicalLocation"]["region"]["snippet"] = {"text": f"    {self.text(12)}\n"}
        prints = [
            {"fingerprints": {"contextHash/v1": self.digest(), "contextHash/v2": self.digest()}},
            {"partialFingerprints": {"primaryLocationLineHash": f"{self.digest()[:16]}:1"}},
            {},
        ]
        return {
            "ruleId": f"RULE{rule:04}",
            "ruleIndex": rule,
            "message": {"text": f"{self.text(20)} {number}", "arguments": [self.digest()[:8]]},
            "locations": [location],
            **prints[number % 3],
            "rank": self.rng.randrange(1_000) / 10 + 0.05,
            "properties": {
                "confidence": self.rng.random(),
                "tags": self.rng.sample(TAGS, 2),
                "score": [1, self.rng.randrange(9), self.rng.random()],
                "seen": self.rng.randrange(10**6),
            },
            "codeFlows": self.flow(),
        }

    def rules(self, count, levels=("note", "warning", "error")):
        return [
            {
                "id": f"RULE{number:04}",
                "shortDescription": {"text": self.text(6)},
                "defaultConfiguration": {"level": levels[number % len(levels)]},
            }
            for number in range(count)
        ]

    def results(self, size):
        """Results as strings, with about this number of bytes in all."""
        found, length = [], 0
        while length < size:
            found.append(compact(self.result(len(found))))
            length += len(found[-1]) + 1
        return found


def compact(value):
    return json.dumps(value, separators=(",", ":"))


def log_of(results, rules, runs=RUNS):
    """A log as a string, with these results distributed to its runs in order."""
    tool = compact({"driver": {"name": "bench", "version": "1.0.5", "rules": rules}})
    share = -(-len(results) // runs)
    parts = [results[at : at + share] for at in range(0, len(results), share)]
    texts = [
        f'{{"tool":{tool},"columnKind":"utf16CodeUnits","results":[{",".join(it)}]}}'
        for it in parts
    ]
    return f'{{"version":"2.1.0","runs":[{",".join(texts)}]}}'


class Plan:
    """The files of a shape."""

    def __init__(self, folder, shape):
        self.folder = Path(folder)
        self.folder.mkdir(parents=True, exist_ok=True)
        self.shape, self.logs, self.baselines, self.suppress = shape, [], [], None
        self.results = 0

    def file(self, name, text):
        path = self.folder / name
        path.write_text(text, encoding="utf-8")
        return str(path)

    def log(self, text, results):
        self.logs.append(self.file(f"log{len(self.logs)}.sarif", text))
        self.results += results

    def baseline(self, text, results):
        self.baselines.append(self.file(f"baseline{len(self.baselines)}.sarif", text))
        self.results += results

    def write(self):
        sources = [*self.logs, *self.baselines, *[self.suppress] * bool(self.suppress)]
        self.bytes = sum(Path(it).stat().st_size for it in sources)
        plan = {name: it for name, it in vars(self).items() if name != "folder"}
        self.file("plan.json", json.dumps(plan))


def first(plan, maker, scale):
    """One log with 20 runs."""
    results = maker.results(LOG_BYTES * scale)
    plan.log(log_of(results, maker.rules(200)), len(results))


def rules(plan, maker, scale):
    """One run with equal numbers of rules, of overrides in another order, and of results."""
    count = int(100_000 * scale)
    order = list(range(count))
    maker.rng.shuffle(order)
    overrides = [
        {
            "descriptor": {"index": rule} if rule % 2 else {"id": f"RULE{rule:04}"},
            "configuration": {"level": ("note", "none", "warning")[rule % 3]},
        }
        for rule in order
    ]
    results = [
        {
            "message": {"text": maker.text(4)},
            "provenance": {"invocationIndex": 0},
            **({"ruleIndex": rule} if rule % 3 else {"ruleId": f"RULE{rule:04}"}),
        }
        for rule in maker.rng.choices(order, k=count)
    ]
    driver = {"name": "bench", "rules": maker.rules(count)}
    invocations = [{"executionSuccessful": True, "ruleConfigurationOverrides": overrides}]
    run = {"tool": {"driver": driver}, "invocations": invocations, "results": results}
    plan.log(compact({"version": "2.1.0", "runs": [run]}), count)


def aged(maker, results):
    """The results some days later: one in ten is moved, dropped or followed by a new one."""
    found = []
    for number, text in enumerate(results):
        change = maker.rng.randrange(30)
        if change == 0:
            moved = json.loads(text)
            moved["locations"] = [maker.place()]
            text = compact(moved)
        if change != 1:
            found.append(text)
        if change == 2:
            found.append(compact(maker.result(len(results) + number)))
    return found


def pair(plan, maker, scale):
    """A log with 20 runs, and the same log some days earlier as its baseline."""
    before = maker.results(LOG_BYTES * scale)
    tables, current = maker.rules(200), aged(maker, before)
    plan.baseline(log_of(before, tables), len(before))
    plan.log(log_of(current, tables), len(current))


def many(plan, maker, scale):
    """A thousand logs of 20 KB with one run each."""
    tables = maker.rules(5)
    for _ in range(max(1, int(1_000 * scale))):
        results = [text.replace('"ruleIndex"', '"index"') for text in maker.results(19_000)]
        plan.log(log_of(results, tables, 1), len(results))


def names(plan, maker, scale):
    """Results that each have their own fingerprint name, on both sides, in opposite orders."""
    count = int(20_000 * scale)
    results = [
        compact(
            {
                "message": {"text": maker.text(4)},
                "locations": [maker.place()],
                "fingerprints": {f"name{number:05}/v1": maker.digest()},
            }
        )
        for number in range(count)
    ]
    plan.baseline(log_of(results, []), count)
    plan.log(log_of(results[::-1], []), count)


def entry(maker, number, result):
    """An entry that names this result by its members. Two in ten match nothing."""
    uri = result["locations"][0]["physicalLocation"]["artifactLocation"]["uri"]
    if number % 10 == 0:
        found = {"guid": f"{maker.rng.getrandbits(128):032x}"}
    elif number % 10 == 1:
        found = {"ruleId": "NONE", "uri": uri}
    elif "fingerprints" in result:
        found = {"ruleId": result["ruleId"], "fingerprints": result["fingerprints"]}
    elif "partialFingerprints" in result:
        found = {"ruleId": result["ruleId"], "uri": uri}
        found["partialFingerprints"] = result["partialFingerprints"]
    else:
        found = {"ruleId": result["ruleId"], "uri": uri}
    return {**found, "status": "accepted", "justification": maker.text(5)}


def entries(plan, maker, scale):
    """A suppression file with 10,000 entries, and a log with 20,000 results."""
    results = maker.results(20_000_000 * scale)
    plan.log(log_of(results, maker.rules(200)), len(results))
    chosen = maker.rng.choices(results, k=max(1, int(10_000 * scale)))
    found = [entry(maker, number, json.loads(text)) for number, text in enumerate(chosen)]
    plan.suppress = plan.file("rules.json", compact({"version": 1, "suppressions": found}))


def prefixes(plan, maker, scale):
    """A suppression file with 10,000 entries that name only a prefix, and a log with 20,000 results."""
    results = maker.results(20_000_000 * scale)
    plan.log(log_of(results, maker.rules(200)), len(results))
    count = max(1, int(10_000 * scale))
    found = [{"uriPrefix": f"src/part{number % 80}/file{number}."} for number in range(count)]
    plan.suppress = plan.file("rules.json", compact({"version": 2, "suppressions": found}))


def short(maker, number):
    """A result of about 140 bytes as a string."""
    uri = f"src/{maker.rng.randrange(2_000)}.c"
    location = {
        "physicalLocation": {
            "artifactLocation": {"uri": uri},
            "region": {"startLine": number % 5_000 + 1},
        }
    }
    return compact({"ruleId": f"R{number % 200}", "message": {"text": "m"}, "locations": [location]})


def small(plan, maker, scale):
    """200,000 short results, and the same without one in ten as a baseline."""
    results = [short(maker, number) for number in range(int(200_000 * scale))]
    before = [text for number, text in enumerate(results) if number % 10]
    plan.baseline(log_of(before, []), len(before))
    plan.log(log_of(results, []), len(results))


def million(plan, maker, scale):
    """Nearly 1,000,000 results of about 550 bytes in nine logs of 60 MB."""
    for _ in range(9):
        results = []
        for number in range(int(109_000 * scale)):
            result = json.loads(short(maker, number))
            result["message"]["text"] = f"{maker.text(8)} {number}"
            result["locations"][0]["physicalLocation"]["region"] |= {"startColumn": 5, "endColumn": 17}
            result["partialFingerprints"] = {"primaryLocationLineHash": f"{maker.digest()[:16]}:1"}
            result["properties"] = {"tags": list(TAGS[:2]), "seen": maker.text(15)}
            results.append(compact(result))
        plan.log(log_of(results, maker.rules(200)), len(results))


def reports(plan, maker, scale):
    """One log of 50 MB, whose results are all reported."""
    first(plan, maker, scale)


MAKERS = (first, rules, pair, many, names, entries, prefixes, small, million, reports)
SHAPES = {it.__name__: it for it in MAKERS}


def main():
    about = argparse.ArgumentParser(
        description=__doc__, formatter_class=argparse.RawTextHelpFormatter
    )
    about.add_argument("shape", choices=SHAPES)
    about.add_argument("folder")
    about.add_argument("--scale", type=float, default=1.0)
    about.add_argument("--seed", type=int, default=1)
    given = about.parse_args()
    plan = Plan(given.folder, given.shape)
    SHAPES[given.shape](plan, Maker(f"{given.shape} {given.seed}"), given.scale)
    plan.write()


if __name__ == "__main__":
    main()
