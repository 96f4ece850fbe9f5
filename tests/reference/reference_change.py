"""Which results are outside of the change of a diff, for the reference merger. It follows the rules sentence by sentence
and shares no code with the program."""

import re

import reference_diff

LAST = 4294967295


def parts(path):
    """The parts of a path: none if it is a folder."""
    path = path.replace(b"\\", b"/").replace(b":", b"/").lower()
    found = path.split(b"/")
    if found[-1] in (b"", b".", b".."):
        return []
    after = len(found) - 1 - found[::-1].index(b"..") if b".." in found else -1
    return [it for it in found[after + 1 :] if it not in (b"", b".")]


def decoded(uri):
    return re.sub(rb"%([0-9a-fA-F]{2})", lambda found: bytes([int(found[1], 16)]), uri)


def readings(uri):
    """The readings of a URI, each with whether it is absolute."""
    cut = re.split(rb"[?#]", uri)[0]
    return [(it, is_absolute(it)) for it in (uri, cut, decoded(uri), decoded(cut))]


def is_absolute(reading):
    return re.match(rb"[/\\]|[A-Za-z][A-Za-z0-9+.-]*:", reading) is not None


def without_roots(found, roots):
    """The readings without the first root that fits, or all of them if none fits."""
    bare = []
    for reading, _ in found:
        fit = [root for root in roots if reading.startswith(root)]
        bare += [(reading[len(root) :], False) for root in fit[:1]]
    return bare or found


def end_alike(one, other):
    shared = min(len(one), len(other))
    return one[len(one) - shared :] == other[len(other) - shared :]


class Place:
    """A place of a result: the bytes of its URI, or None, and its lines, or None."""

    def __init__(self, run, location):
        physical = member(location, "physicalLocation")
        self.uri = self.read_uri(run, member(physical, "artifactLocation"))
        self.lines = self.read_lines(member(physical, "region"))

    def read_uri(self, run, artifact):
        uri = member(artifact, "uri")
        if uri is None and (index := whole(member(artifact, "index"))) is not None:
            artifacts = listed(run, "artifacts")
            uri = member(member(artifacts[index], "location"), "uri") if index < len(artifacts) else None
        return uri.encode() if isinstance(uri, str) else None

    def read_lines(self, region):
        start, end = whole(member(region, "startLine")), member(region, "endLine")
        last = start if end is None else whole(end)
        return (start, last) if start and last is not None and start <= last <= LAST else None


def member(value, name):
    """The member of that name, if the value is an object."""
    return value.get(name) if isinstance(value, dict) else None


def listed(value, name):
    """The elements of the array of that name."""
    found = member(value, name)
    return found if isinstance(found, list) else []


def whole(value):
    """An integer from 0."""
    return value if isinstance(value, int) and not isinstance(value, bool) and value >= 0 else None


class Change:
    """What a diff changes. Raises reference_diff.Fault."""

    def __init__(self, diff, scope="lines", roots=()):
        files, self.lines = reference_diff.read(diff)
        self.scope, self.roots = scope, [it.encode() for it in roots]
        self.files = [(parts(name), *rest) for name, rest in files.items()]

    def may_be(self, file, link, path, absolute):
        if not path or not file:
            return True
        if absolute and path[-1] == file[-1] or not absolute and end_alike(path, file):
            return True
        return link and file[-1] in path

    def meets(self, place, scope):
        """Returns whether a place that has a path meets the change in this scope."""
        paths = [(parts(it), absolute) for it, absolute in without_roots(readings(place.uri), self.roots)]
        for file, is_whole, link, lines in self.files:
            if any(self.may_be(file, link, *path) for path in paths):
                if scope == "files" or place.lines is None or is_whole:
                    return True
                if any(place.lines[0] <= line <= place.lines[1] for line in lines):
                    return True
        return False

    def is_inside(self, run, result, state, scope=None):
        """Returns whether a result of this run is inside, in this scope or in that of the change."""
        return state != "absent" and not self.is_outside(run, result, scope or self.scope)

    def is_outside(self, run, result, scope):
        locations = [Place(run, it) for it in listed(result, "locations")]
        if not locations or not all(it.uri is not None and not self.meets(it, scope) for it in locations):
            return False
        flows = [flow for it in listed(result, "codeFlows") for flow in listed(it, "threadFlows")]
        steps = [step for flow in flows for step in listed(flow, "locations")]
        kept = [step for step in steps if not isinstance(member(step, "location"), dict)]
        if any(whole(member(step, "index")) is not None for step in kept):
            return False
        others = [*listed(result, "relatedLocations"), *[member(step, "location") for step in steps]]
        places = [Place(run, it) for it in others]
        return not any(it.uri is not None and self.meets(it, scope) for it in places)
