"""What the page of a merged log has to show, in plain Python.

It follows crates/sarif_page/README.md sentence by sentence, and takes the reported results from
`reference_reports.Reports`. It shares no code with the program.
"""

from dataclasses import dataclass

from reference_reports import LEVELS, MOST_PAGE_ROWS, STATES, accept_line, unshown_line

FALLING = tuple(reversed(LEVELS))
MOST_GROUPED, MOST_GROUPS, MOST_OPEN, MOST_RULES = 50, 100, 20, 100
LEVELS_FROM = {
    "error": "of level error",
    "warning": "of level warning or error",
    "note": "of level note, warning or error",
    "none": "of any level",
}


def counted(number, one, more):
    return f"{number} {one if number == 1 else more}"


def hits_text(number):
    return counted(number, "hit", "hits")


def others_text(number):
    return counted(number, "other result", "other results")


def joined(names):
    """As `new, updated or absent`."""
    *others, last = names
    return f"{', '.join(others)} or {last}" if others else last


def by_file(results):
    """The results of one path together, paths in the order of first appearance; no path is one path."""
    groups = {}
    for it in results:
        groups.setdefault(it.path, []).append(it)
    return [it for group in groups.values() for it in group]


def groups_of(rows, number, room):
    """The groups of a list: at most 50 rows of one file each, numbered from this number on."""
    files, groups = {}, []
    for it in rows:
        files.setdefault(it.path, []).append(it)
    for path, of_file in files.items():
        for start in range(0, len(of_file), MOST_GROUPED):
            part = of_file[start : start + MOST_GROUPED]
            heading = (path or "No path") + part_text(start, len(part), len(of_file))
            name = f"f{number + len(groups)}"
            groups.append(GroupOf(name, room > 0, heading, numbers_text(part), [row_of(it) for it in part]))
            room -= len(part)
    return groups


def part_text(start, count, whole):
    """Which rows of its file a group has, if it doesn't have all."""
    if whole <= MOST_GROUPED:
        return ""
    span = f"{start + 1}" if count == 1 else f"{start + 1} to {start + count}"
    return f", {span} of {whole}"


def numbers_text(rows):
    """As `1 error, 2 notes`."""
    numbers = [(level, sum(it.level == level for it in rows)) for level in FALLING]
    named = lambda level, n: f"{n} of level none" if level == "none" else counted(n, level, f"{level}s")
    return ", ".join(named(level, n) for level, n in numbers if n)


def index_of(results, rows, groups):
    """The texts of the index of rules of a list: its heading, its rows, and what follows them."""
    rules, firsts = {}, {}
    for it in results:
        rules.setdefault((it.rule, it.tool), []).append(it)
    in_order = iter(rows)
    for group in groups:
        for _ in group.rows:
            it = next(in_order)
            firsts.setdefault((it.rule, it.tool), (f"#{group.name}", it.path or "No path"))
    named = sorted(((key, it) for key, it in rules.items() if key[0]), key=lambda it: -len(it[1]))
    told = []
    for (rule, tool), some in named[:MOST_RULES]:
        link, path = firsts.get((rule, tool), (None, ""))
        told.append(([str(len(some)), rule, some[0].name or "", tool, path], some[0].link, link))
    more = len(named) - len(told)
    ends = [counted(more, "more rule", "more rules")] * (more > 0)
    return [counted(len(named), "rule", "rules"), told, ends] if named else []


def pairs_in(rows):
    """The levels and states of rows, as the page notes them for its filters."""
    return sorted({f"{it.level}-{it.state}" for it in rows})


def more_text(number, hits):
    """How many results have no row, and how many of them are hits."""
    if hits == number:
        return counted(number, "more hit is", "more hits are") + " in the merged log."
    if hits == 0:
        return counted(number, "more result is", "more results are") + " in the merged log."
    of_them = "1 of them a hit" if hits == 1 else f"{hits} of them hits"
    return f"{number} more results are in the merged log, {of_them}."


@dataclass
class GroupOf:
    """A group of rows: its name, whether it is open, its heading, its numbers by level, and its rows."""

    name: str
    is_open: bool
    heading: str
    numbers: str
    rows: list


@dataclass
class ListOf:
    """A list of results: its name, its heading, its groups, and what says how many results the last ones have."""

    name: str
    heading: str
    pairs: list
    index: list
    groups: list
    more: list


class PageOf:
    """The texts of the page of a merged log under a policy."""

    def __init__(self, reports):
        self.reports, self.policy = reports, reports.policy
        self.hits = [it for it in reports.listed() if it.is_hit]
        self.others = [it for it in reports.listed() if not it.is_hit]
        self.hit_rows = by_file(self.hits)[:MOST_PAGE_ROWS]
        self.other_rows = by_file(self.others)[: MOST_PAGE_ROWS - len(self.hit_rows)]
        self.rows = self.hit_rows + self.other_rows

    def heading(self):
        return self.reports.gate()

    def has_policy_file(self):
        return self.reports.conditions() is not None

    def reason(self):
        if self.has_policy_file():
            return "A hit is a result that meets a condition of the policy and is not suppressed."
        states = [it for it in STATES if it in self.policy.states]
        if not states:
            return "No state counts, so no result is a hit."
        levels = LEVELS_FROM[self.policy.fail_on]
        scope = self.reports.log["properties"]["gate"].get("diff", {}).get("scope")
        within = {None: "", "lines": ", on a line of the change", "files": ", in a file of the change"}[scope]
        return f"A hit is a result that is {joined(states)}, {levels}{within}, and not suppressed."

    def links(self):
        """The links to the two lists, if there are both."""
        both = self.hit_rows and self.other_rows
        texts = (hits_text(len(self.hits)), others_text(len(self.others)))
        return list(zip(("#hits", "#others"), texts)) if both else []

    def marked(self):
        """The states and levels whose active results are hits. A condition asks for more than these."""
        if self.has_policy_file():
            return set()
        least = LEVELS.index(self.policy.fail_on)
        return {(state, level) for state in self.policy.states for level in LEVELS[least:]}

    def sentences(self):
        """What wasn't checked, as in Markdown."""
        return self.reports.notes()

    def conditions(self):
        """The texts of the table of the conditions, each row with its cells."""
        return self.reports.condition_cells()

    def boxes(self):
        """The boxes of each group that there is."""
        levels = [it for it in FALLING if any(it == row.level for row in self.rows)]
        states = [it for it in STATES if any(it == row.state for row in self.rows)]
        return {name: it for name, it in (("Level", levels), ("State", states)) if len(it) > 1}

    def lists(self):
        """Each list that there is."""
        found, number, room = [], 1, MOST_OPEN
        named = [("hits", self.hits_heading(), self.hit_rows)]
        named.append(("others", others_text(len(self.others)), self.other_rows))
        for name, heading, rows in named:
            if not rows:
                continue
            groups = groups_of(rows, number, room)
            later = rows[sum(len(it.rows) for it in groups[:MOST_GROUPS]) :]
            more = [counted(len(later), "more result", "more results") + " " + numbers_text(later)] * bool(later)
            index = index_of(self.hits or self.others, rows, groups) if room else []
            found.append(ListOf(name, heading, pairs_in(rows), index, groups, more))
            number, room = number + len(groups), 0
        return found

    def hits_heading(self):
        """How many hits there are, and how many of them stop the change."""
        hits, stop = len(self.hits), sum(it.stops for it in self.hits)
        if not stop:
            limits = "limits" if self.has_policy_file() else f"{self.policy.max} allowed"
            return f"{hits_text(hits)}, within the {limits}"
        if stop == hits:
            return counted(hits, "hit stops", "hits stop") + " this change"
        return f"{hits_text(hits)}, {counted(stop, 'of them stops', 'of them stop')} this change"

    def rest(self):
        """The lines after the lists, as many as there are."""
        unshown = [unshown_line(self.reports.unshown)] * (self.reports.unshown > 0)
        if not self.reports.results:
            return unshown or ["No results are reported."]
        number = len(self.reports.results) - len(self.rows)
        hits = len(self.hits) - len(self.hit_rows)
        accept = [accept_line(self.reports.hits(), "{}")] * (self.reports.hits() > 0)
        return [more_text(number, hits)] * (number > 0) + unshown + accept


@dataclass
class RowOf:
    """A row of the page: its cells, whether it is a hit, the links of its place and its rule, the title of the second,
    and its code with the rows of it that are marked."""

    cells: list
    is_hit: str
    address: str
    link: str
    title: str
    code: list
    marked: list


def row_of(it):
    cells = [it.place(), it.level, it.message, it.rule, it.state, it.tool]
    code = [row for row, _ in it.code_rows]
    marked = [row for row, is_marked in it.code_rows if is_marked]
    title = it.name if it.link else None
    return RowOf(cells, "yes" if it.is_hit else "no", it.address, it.link, title, code, marked)
