"""Which results are the same, in both versions of matching, for tests/reference/reference.py and tests/reference/matching.

A result has tool, rule, kind, level, message, place, guid, full and partial (its fingerprints), region (none, or its
four numbers) and snippet (none or a text).
"""

MOST = 4_294_967_295
WHITE = " \t\n\f\r"


# ---- What is read of a region and its snippet: a member of another type is treated as missing


def within(holder, *names):
    """The member at the end of these names, or None."""
    for name in names:
        holder = holder.get(name) if isinstance(holder, dict) else None
    return holder


def number(holder, name):
    found = within(holder, name)
    is_number = isinstance(found, int) and not isinstance(found, bool) and 1 <= found <= MOST
    return found if is_number else None


def numbers(region):
    """The four numbers of a region, or None where it has no first line."""
    found = tuple(number(region, name) for name in ("startLine", "startColumn", "endLine", "endColumn"))
    return None if found[0] is None else found


def snippet_in(region):
    text = within(region, "snippet", "text")
    return text if isinstance(text, str) and packed(text) else None


def lines(region):
    """The first and the last line of a region that has numbers."""
    found = numbers(region)
    return found and (found[0], found[0] if found[2] is None else found[2])


def region_and_snippet(result, place):
    """What is read of the first location, for a result that has a place."""
    locations = within(result, "locations")
    physical = within(locations[0] if isinstance(locations, list) and locations else None, "physicalLocation")
    if place == (None, None):
        return None, None
    region, context = within(physical, "region"), within(physical, "contextRegion")
    snippet = snippet_in(region)
    if snippet is None and lines(region) is not None and lines(region) == lines(context):
        snippet = snippet_in(context)
    return numbers(region), snippet


# ---- Keys


def packed(text):
    """A snippet without white space; one of white space alone is none."""
    return None if text is None else "".join(it for it in text if it not in WHITE) or None


def telling(members, version):
    """The members that a version looks at: in version 3 those whose value isn't empty."""
    return {name: value for name, value in members.items() if value or version == 2}


def tiers(current, baseline, version, missing=()):
    """The tiers of a version in their order, without those that are missing. The tiers of a name are pairs."""
    names = {name for it in [*current, *baseline] for name in telling(it.full, version)}
    names = sorted(names, key=lambda name: name.encode(), reverse=True)
    everywhere = [("fingerprint", name) for name in names]
    if version == 2:
        return ["guid", *everywhere, "partial here", "partial moved", "place"]
    here = [("fingerprint here", name) for name in names]
    last = ["partial moved", "place text", "place", "place left"]
    every = ["guid", "same", "same text", *here, "partial here", *everywhere, *last]
    return [it for it in every if it not in missing]


def key(record, tier, version):
    """The key of a result at a tier, or None."""
    full, partial = telling(record.full, version), telling(record.partial, version)
    both = tuple(sorted(full.items())), tuple(sorted(partial.items()))
    rule = record.tool, record.rule
    group = (*rule, record.place, record.message)
    text = packed(record.snippet)
    kind, name = tier if isinstance(tier, tuple) else (tier, None)
    if kind == "guid":
        return None if record.guid is None else (record.tool, record.guid)
    if kind == "fingerprint":
        return (record.tool, name, full[name]) if name in full else None
    if kind == "fingerprint here":
        return (*group, name, full[name]) if name in full else None
    if kind == "partial here":
        return (*rule, record.place, both[1]) if partial else None
    if kind == "partial moved":
        return (*rule, both[1]) if partial else None
    if record.guid is not None:
        return None
    if kind == "same":
        return None if record.region is None else (*group, *both, text, record.region)
    if kind == "same text":
        return None if text is None else (*group, *both, text)
    if kind == "place text":
        return None if text is None else (*group, text)
    if kind == "place":
        return None if full or partial else group
    assert kind == "place left"
    return group


# ---- Partners and states


def by_key(records, numbers, tier, version):
    """The numbers of the results that have a key, by their keys."""
    found = {}
    for it in numbers:
        own = key(records[it], tier, version)
        if own is not None:
            found.setdefault(own, []).append(it)
    return found


def partners(current, baseline, version=2, missing=()):
    """For each current result, the number of its baseline result or None. Laws leave out tiers."""
    found = [None] * len(current)
    for tier in tiers(current, baseline, version, missing):
        left = [i for i in range(len(current)) if found[i] is None]
        taken = set(found)
        free = [j for j in range(len(baseline)) if j not in taken]
        waiting = by_key(baseline, free, tier, version)
        for own, mine in by_key(current, left, tier, version).items():
            theirs = waiting.get(own, [])
            if version == 3:
                mine, theirs = mine[::-1], theirs[::-1]
            for i, j in zip(mine, theirs):
                found[i] = j
    return found


def fields(record):
    """Each field of a result with a URI and a region, or None. Results with equal fields are alike."""
    if record.place[0] is None or record.region is None:
        return None
    members = tuple(sorted(record.full.items())), tuple(sorted(record.partial.items()))
    said = record.tool, record.rule, record.kind, record.level, record.message, record.place, record.guid
    return (*said, *members, tuple(record.held), tuple(record.region), record.snippet)


def is_same(record, other):
    """Whether kind, level, message and place are equal."""
    parts = lambda it: (it.kind, it.level, it.message, it.place)
    return parts(record) == parts(other)


def has_evidence(record, other):
    """Whether anything tells that the two are the same, in version 3."""
    if packed(record.snippet) is not None and packed(other.snippet) is not None:
        return packed(record.snippet) == packed(other.snippet)
    full, others = telling(record.full, 3), telling(other.full, 3)
    partial, others_partial = telling(record.partial, 3), telling(other.partial, 3)
    return (
        (record.guid is not None and record.guid == other.guid)
        or any(others.get(name) == value for name, value in full.items())
        or bool(partial and partial == others_partial)
        or not (full or partial or others or others_partial)
    )


def state(record, partner, version=2):
    """The state of a current result beside its partner, which may be None."""
    if partner is None:
        return "new"
    unchanged = is_same(record, partner) and (version == 2 or has_evidence(record, partner))
    return "unchanged" if unchanged else "updated"
