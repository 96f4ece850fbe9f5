"""Costly inputs with a policy, each with its twin, whose policy and log are as long."""

from shape_parts import MEGABYTE, Input, compact, log, message, run

DIGITS = MEGABYTE.replace("n", "9")


def policy(*conditions):
    """A policy file whose conditions allow everything."""
    named = [{"name": f"c{n}", "max": 1_000_000, **it} for n, it in enumerate(conditions)]
    return compact({"version": 1, "conditions": named})


def many_filters(count):
    """100 conditions with 1,000 filters each, all of one tool. Each result meets one of each condition. In the twin they
    are of another tool, and of rules that no result has."""
    results = [message(ruleId=f"R{n % 1_000:03}") for n in range(count)]
    for tool, rule in (("t", "R"), ("u", "S")):
        filters = [{"tool": tool, "ruleId": f"{rule}{n:03}"} for n in range(1_000)]
        yield Input([log(run(results))], policy=policy(*[{"only": filters}] * 100))


def long_rating(count):
    """Results of a rule with a security severity of a megabyte of digits. In the twin it has another name."""
    for name in ("security-severity", "security-severitx"):
        rule = {"id": "R", "properties": {name: DIGITS}}
        results = [message(ruleId="R", ruleIndex=0)] * count
        yield Input([log(run(results, {"rules": [rule]}))], policy=policy({"minSecuritySeverity": "7.0"}))


def long_ratings(count):
    """The same for results that have it themselves."""
    for name in ("security-severity", "security-severitx"):
        results = [message(properties={name: DIGITS})] * count
        yield Input([log(run(results))], policy=policy({"minSecuritySeverity": "7.0"}))


SHAPES = {
    "policy_filters": (many_filters, 200_000),
    "policy_long_rating": (long_rating, 100_000),
    "policy_long_ratings": (long_ratings, 60),
}
