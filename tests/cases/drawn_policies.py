"""Random policies of a gate, valid and invalid."""

NAMES = ["a", "B-1", "c d", "x.y_z", "0", "n" * 50]
NO_NAMES = ["", " a", "a ", "a:b", "\u00e9", "n" * 51, 5, None]
STATES = ["new", "unchanged", "updated", "absent"]
DECIMALS = ["7.0", "7", "5.5", "0.0", "10", "6.9999999999999999999999"]
NO_DECIMALS = ["", "7.", ".5", "high", 7, True]


class Policies:
    """Makes policies with the maker of inputs `inputs`, whose chance of a wrong member it shares. `has_diff` says whether
    the gate has a diff."""

    def __init__(self, inputs, has_diff):
        self.inputs, self.has_diff = inputs, has_diff

    def is_wrong(self):
        return self.inputs.chance(self.inputs.wrong)

    def policy(self):
        inputs = self.inputs
        names = inputs.rng.sample(NAMES, inputs.any([1, 1, 2, 3]))
        names += names[:1] * self.is_wrong()
        found = {"version": inputs.any([2, 0, "1", True, None]) if self.is_wrong() else 1}
        found["conditions"] = inputs.value(lambda: [inputs.value(lambda name=name: self.condition(name)) for name in names])
        return {**found, "max": 1} if self.is_wrong() else found

    def condition(self, name):
        inputs = self.inputs
        kind = inputs.any(["plain", "plain", "ratchet", "absent"] + ["diff"] * 3 * (self.has_diff or self.is_wrong()))
        states = inputs.rng.sample(STATES[: 4 if kind == "absent" or self.is_wrong() else 3], inputs.any([1, 2, 3]))
        found = inputs.members(
            ("level", 0.8, inputs.one(["none", "note", "warning", "error"])),
            ("states", 0.5, lambda: states),
            ("max", 0.3, inputs.one([0, 1, 2, 5, 4294967295])),
            ("only", 0.4, self.filters),
            ("except", 0.3, self.filters),
            ("minSecuritySeverity", 0.25, inputs.one(NO_DECIMALS if self.is_wrong() else DECIMALS)),
        )
        if found.get("minSecuritySeverity") is not None and inputs.chance(0.5) or self.is_wrong():
            found["unrated"] = inputs.any(["count", "skip"])
        if kind == "ratchet":
            found["ratchet"] = True
        if kind == "diff" or self.is_wrong():
            found["diff"] = inputs.any(["lines", "files"])
        return {"name": inputs.any(NO_NAMES) if self.is_wrong() else name, **found}

    def filters(self):
        inputs = self.inputs
        return [inputs.value(self.filter) for _ in range(0 if self.is_wrong() else inputs.any([1, 1, 2, 3]))]

    def filter(self):
        """The conditions of an entry."""
        found = self.inputs.entry(5)
        for name in ("max", "expires", "status", "justification"):
            if not self.is_wrong():
                found.pop(name, None)
        return found
