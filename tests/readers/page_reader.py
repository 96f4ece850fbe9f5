"""Reads the page of a merge strictly, and checks it without other files."""

import re
from html.parser import HTMLParser

from reference_page import FALLING, GroupOf, ListOf, PageOf, RowOf

COLUMNS = ["Number", "Rule", "Name", "Tool", "First in"]
GONE = "The filters hide all of these."
POLICY = "default-src 'none'; style-src 'unsafe-inline'; base-uri 'none'; form-action 'none'"
VOID = {"meta", "input", "br", "hr", "col", "wbr"}
ELEMENTS = VOID | set("html head title style body header main footer section div span p".split())
ELEMENTS |= set("h1 h2 h3 table caption colgroup thead tbody tfoot tr th td code a".split())
ELEMENTS |= set("fieldset legend label nav b i details summary ul li pre mark".split())
LOADING = ("src", "srcset", "data", "action", "formaction", "poster", "ping", "background", "cite")
ENTITIES = {"amp": "&", "lt": "<", "gt": ">", "quot": '"', "apos": "'"}
REFERENCES = {"#39": "'", "#x27": "'", "#34": '"', "#x22": '"', "#38": "&", "#60": "<", "#62": ">", "#35": "#"}
# The links of the page to its own parts.
INNER = re.compile(r"#(hits|others|f[1-9][0-9]*)")
# Where a path or a rule may be broken.
BREAK = re.compile(r"(?<=[-._/:])<wbr>|(?<=[a-z])<wbr>(?=[A-Z])")
# The one sentence of the page itself that has an apostrophe.
NOT_SHOWN = re.compile(r"1 other result isn't shown\.|\d+ other results aren't shown\.")


class Element:
    """An element that was begun, with its text."""

    def __init__(self, name, given):
        self.name, self.given = name, given
        self.parts, self.within = [], []

    @property
    def text(self):
        return "".join(self.parts)

    def all(self, *names):
        """The elements with these names in it, in order, at every depth."""
        for it in self.within:
            if it.name in names:
                yield it
            yield from it.all(*names)

    def first(self, name):
        return next(self.all(name), None)


class PageReader(HTMLParser):
    """The elements of a page as a tree, and what is wrong with it."""

    def __init__(self, source):
        super().__init__(convert_charrefs=False)
        self.wrong, self.told = [], []
        self.top = Element("page", {})
        self.open = [self.top]
        try:
            self.source = source.decode()
        except UnicodeDecodeError:
            self.source = ""
            self.wrong.append("the page isn't UTF-8")
        self.feed(self.source)
        self.close()
        self.wrong += [f"<{it.name}> isn't ended" for it in self.open[1:]]

    # ---- Reading

    def handle_starttag(self, name, attributes):
        given = dict(attributes)
        if len(given) != len(attributes):
            self.wrong.append(f"<{name}> has an attribute twice")
        element = Element(name, given)
        element.raw = self.get_starttag_text()
        self.open[-1].within.append(element)
        if name not in VOID:
            self.open.append(element)

    def handle_startendtag(self, name, attributes):
        self.wrong.append(f"<{name}/> ends itself")

    def handle_endtag(self, name):
        if self.open[-1].name == name:
            self.open.pop()
        else:
            self.wrong.append(f"</{name}> stands where <{self.open[-1].name}> is open")

    def say(self, text):
        for element in self.open:
            element.parts.append(text)

    def handle_data(self, text):
        is_ours = self.open[-1].name == "style" or NOT_SHOWN.fullmatch(text)
        if not is_ours and any(it in text for it in "&<>\"'"):
            self.wrong.append(f"{text[:60]!r} stands as it is")
        if "#" in text and any(it.name == "pre" for it in self.open):
            self.wrong.append(f"{text[:60]!r} has a # as it is")
        self.say(text)

    def handle_entityref(self, name):
        self.wrong += [f"the entity {name}"] * (name not in ENTITIES)
        self.say(ENTITIES.get(name, ""))

    def handle_charref(self, name):
        found = REFERENCES.get(f"#{name.lower()}")
        self.wrong += [f"the entity #{name}"] * (found is None)
        self.say(found or "")

    def handle_comment(self, text):
        self.wrong.append(f"the comment {text[:60]!r}")

    def handle_decl(self, text):
        self.told.append(text)

    def unknown_decl(self, text):
        self.wrong.append(f"the declaration {text[:60]!r}")

    def handle_pi(self, text):
        self.wrong.append(f"the instruction {text[:60]!r}")

    # ---- What every page must have, and must not have

    def faults(self):
        wrong = list(self.wrong)
        wrong += ["it doesn't begin with its type"] * (self.told != ["DOCTYPE html"])
        wrong += ["a break within a part"] * (len(BREAK.findall(self.source)) != self.source.count("<wbr>"))
        wrong += self.of_head() + self.of_elements() + self.of_tables()
        return wrong or self.outline()

    def of_head(self):
        root = self.top.first("html")
        if root is None or root.first("head") is None or root.first("body") is None:
            return ["there is no html with head and body"]
        wrong = ["there is no language"] * (not root.given.get("lang"))
        head = root.first("head")
        title = head.first("title")
        wrong += ["there is no title"] * (title is None or not title.text.strip())
        metas = [it.given for it in head.all("meta")]
        wrong += ["UTF-8 isn't told first"] * (metas[:1] != [{"charset": "utf-8"}])
        wanted = {"http-equiv": "Content-Security-Policy", "content": POLICY}
        wrong += ["the policy isn't told second"] * (metas[1:2] != [wanted])
        views = [it.get("content", "") for it in metas if it.get("name") == "viewport"]
        wrong += ["there is no viewport"] * (views != ["width=device-width, initial-scale=1"])
        return wrong

    def of_elements(self):
        wrong, seen = [], set()
        for it in walked(self.top):
            wrong += [f"there is <{it.name}>"] * (it.name not in ELEMENTS)
            for name, value in it.given.items():
                if name.startswith("on") or name in LOADING or name == "style":
                    wrong.append(f"<{it.name}> has {name}")
                if name == "href" and it.name != "a":
                    wrong.append(f"<{it.name}> has an address")
            if "id" in it.given:
                wrong += [f"{it.given['id']} names two"] * (it.given["id"] in seen)
                seen.add(it.given["id"])
        for style in self.top.all("style"):
            loads = [it for it in ("url(", "@import", "image(", "src(") if it in style.text]
            wrong += [f"the style has {it}" for it in loads]
        for link in self.top.all("a"):
            if INNER.fullmatch(link.given.get("href", "")):
                wrong += ["a link to nothing"] * (link.given["href"][1:] not in seen)
                continue
            wrong += ["a link without rel"] * (link.given.get("rel") != "noopener noreferrer")
            inner = link.raw.split('href="', 1)[-1].split('"', 1)[0]
            wrong += [f"the address {inner[:60]!r}"] * any(it in inner for it in "<>'")
            wrong += ["an address that is another"] * (not is_escaped(inner))
            title = link.raw.split('title="', 1)[-1].split('"', 1)[0] if "title" in link.given else ""
            wrong += [f"the title {title[:60]!r}"] * (any(it in title for it in "<>'") or not is_escaped(title))
        return wrong

    def of_tables(self):
        wrong = []
        for table in self.top.all("table"):
            first = [it.name for it in table.within[:1]]
            wrong += ["a table without caption"] * (first != ["caption"])
            cells = [it.given.get("scope") for it in table.all("th")]
            wrong += ["a heading without scope"] * (not cells or not set(cells) <= {"col", "row"})
        return wrong

    # ---- Its contents

    def of(self, name):
        """The texts of the elements with this name."""
        return [it.text for it in self.top.all(name)]

    def outline(self):
        """What is wrong with the order and the nesting of the parts."""
        body = self.top.first("body")
        wrong = ["body has more than header and main"] * (
            [it.name for it in body.within] != ["header", "main"]
        )
        header, main = body.first("header"), body.first("main")
        parts = [it.name for it in walked(header) if it.name in ("h1", "p", "nav", "table")]
        orders = [[*start, *["table"] * count] for start in (["h1"], ["h1", "nav"]) for count in (1, 2)]
        in_order = [it for it in parts if it != "p"] in orders
        wrong += [f"the header has {parts}"] * (not in_order)
        wrong += ["there are several h1"] * (len(list(self.top.all("h1"))) != 1)
        for section in main.all("section"):
            heading = section.first("h2")
            named = heading is not None and section.given.get("aria-labelledby")
            wrong += ["a section without its heading"] * (
                not named or heading.given.get("id") != named
            )
        return wrong

    def lists(self):
        """Each list of results, and what is wrong with it."""
        found, wrong = [], []
        for section in self.top.all("section"):
            heading, gone, *rest = section.within
            is_told = gone.name == "p" and gone.text == GONE and "hidden" in gone.given
            wrong += ["a list without the sentence on filters"] * (heading.name != "h2" or not is_told)
            index = []
            if rest and rest[0].given.get("class") == "rules":
                index = self.index(rest.pop(0), wrong)
            groups = [it for it in rest if "id" in it.given]
            later = rest[len(groups) :]
            wrong += [f"{len(later)} ends"] * (len(later) > 1 or rest[: len(groups)] != groups)
            told = [self.group(it, wrong) for it in groups]
            more = []
            for it in later:
                summary, *after = it.within
                more.append(summary.text)
                told += [self.group(one, wrong) for one in after]
                wrong += ["the end of a list is open or a group"] * ("open" in it.given or "id" in it.given)
                wrong += ["the end of a list is not told by pairs"] * (not told_pairs(it))
            found.append(ListOf(heading.given["id"], heading.text, told_pairs(section), index, told, more))
        return found, wrong

    def index(self, it, wrong):
        """The texts of the index of rules."""
        summary, table, *ends = it.within
        wrong += ["the index is open"] * ("open" in it.given)
        columns = [one.text for one in table.first("thead").all("th")]
        wrong += [f"the index has {columns}"] * (columns != COLUMNS)
        rows = []
        for row in table.first("tbody").within:
            number, rule, name, tool, place = row.within
            links = [one.first("a") for one in (rule, place)]
            texts = [one.text for one in (number, rule, name, tool, place)]
            rows.append((texts, *(link and link.given["href"] for link in links)))
        return [summary.text, rows, [one.text for one in ends]]

    def group(self, it, wrong):
        """A group of rows."""
        summary, rows = it.within
        heading, numbers = summary.within
        wrong += [f"a group of {summary.name}, {rows.name}"] * ((summary.name, rows.name) != ("summary", "ul"))
        wrong += [f"the heading {heading.name}"] * (heading.name != "h3")
        found = [self.row(row, wrong) for row in rows.within]
        pairs = sorted({f"{row.cells[1]}-{row.cells[4]}" for row in found})
        wrong += [f"the group {it.given['id']} has {told_pairs(it)}"] * (pairs != told_pairs(it))
        return GroupOf(it.given["id"], "open" in it.given, heading.text, numbers.text, found)

    def row(self, row, wrong):
        """What a row tells."""
        place, level, message, *code, last = row.within
        names = [it.name for it in (level, message, *code, last)]
        wrong += [f"a row of {names}"] * (names not in (["b", "p", "div"], ["b", "p", "pre", "div"]))
        wrong += [f"a place of {place.name}"] * (place.name not in ("a", "code"))
        *rule, source = last.within
        state = source.first("b")
        link = last.first("a")
        tool = source.text[len(state.text) + 1 :]
        texts = [place.text, level.text, message.text, "".join(it.text for it in rule), state.text, tool]
        given = [row.given.get(f"data-{name}") for name in ("level", "state")]
        wrong += [f"the data {given} beside {texts}"] * (given != [texts[1], texts[4]])
        rule = link.given if link else {}
        links = place.given.get("href"), rule.get("href"), rule.get("title")
        wrong += [f"the attributes of {links}"] * (set(place.given) - {"href", "rel", "class"} != set())
        return RowOf(texts, row.given.get("data-hit"), *links, *self.code(code, wrong))

    def code(self, found, wrong):
        """The lines of the code of a row, and those that are marked."""
        lines, marked = [], []
        for it in found:
            inner = it.first("code")
            is_code = [one.name for one in it.within] == ["code"] and it.text == inner.text
            wrong += ["code with other elements"] * (not is_code or any(one.name != "mark" for one in walked(inner)))
            lines, marked = inner.text.split("\n"), [one.text for one in inner.within]
        return lines, marked

    def counts(self):
        """The numbers of the first table by state, and the states and levels whose numbers are marked."""
        table = self.top.first("table")
        rows = [it for it in table.all("tr") if it.first("td")]
        numbers, marked = {}, set()
        for row in rows:
            state, cells = row.first("th").text, list(row.all("td"))
            numbers[state] = [int(it.text) for it in cells]
            for level, cell in zip(FALLING, cells):
                is_bold = cell.first("b") is not None
                if cell.given.get("class") == "on" and is_bold == (cell.text != "0"):
                    marked.add((state, level))
                elif is_bold or cell.given:
                    marked.add((state, level, "badly"))
        return numbers, marked

    def conditions(self):
        """The texts of the second table of the header, each row with its cells; none without one."""
        _, *others = self.top.first("header").all("table")
        rows = [row for table in others for row in table.all("tr") if row.first("td")]
        return [[row.first("th").text, *(it.text for it in row.all("td"))] for row in rows]

    def boxes(self):
        """The names of the boxes by group. Each group is within an element that only a style displays."""
        found = {}
        for block in self.top.all("div"):
            if "hidden" not in block.given:
                continue
            for group in block.all("fieldset"):
                labels = [it.text for it in group.all("label")]
                boxes = [(it.given.get("id"), "checked" in it.given) for it in group.all("input")]
                same = boxes == [(it, True) for it in labels]
                found[group.first("legend").text] = labels if same else boxes
        return found

    def links(self):
        nav = self.top.first("nav")
        return [(it.given["href"], it.text) for it in nav.all("a")] if nav else []

    def paragraphs(self, name):
        """The paragraphs of the header or of the main part."""
        part = self.top.first(name)
        return [it.text for it in (part.all("p") if name == "header" else part.within) if it.name == "p"]


def told_pairs(element):
    """The levels and states by which the filters show a part."""
    return sorted(element.given.get("data-has", "").split())


def walked(element):
    for it in element.within:
        yield it
        yield from walked(it)


def is_escaped(text):
    """Returns whether each `&` begins one of the entities."""
    names = [f"{it};" for it in (*ENTITIES, *REFERENCES)]
    return all(part.startswith(tuple(names)) for part in text.split("&")[1:])


def page_faults(source, reports):
    """What is wrong with a page, by itself and compared with the reference."""
    page, wanted = PageReader(source), PageOf(reports)
    wrong = page.faults()
    if wrong:
        return wrong[:5]
    lists, wrong = page.lists()
    pairs = {
        "title": (page.of("title"), [wanted.heading()]),
        "heading": (page.of("h1"), [wanted.heading()]),
        "header": (page.paragraphs("header"), [wanted.reason(), *wanted.sentences()]),
        "links": (page.links(), wanted.links()),
        "counts": (page.counts(), (reports.counts(), wanted.marked())),
        "conditions": (page.conditions(), wanted.conditions()),
        "boxes": (page.boxes(), wanted.boxes()),
        "rest": (page.paragraphs("main"), wanted.rest()),
    }
    wrong += [f"{name}: {one}, and not {it}" for name, (one, it) in pairs.items() if one != it]
    for one, other in zip(lists, wanted.lists()):
        wrong += list_faults(one, other)
    names = [[it.name for it in lists], [it.name for it in wanted.lists()]]
    wrong += [f"the lists are {names[0]}, and not {names[1]}"] * (names[0] != names[1])
    return wrong[:5]


def list_faults(one, other):
    """What is wrong with a list of results."""
    of = lambda it: (it.name, it.heading, it.pairs, it.index, it.more, len(it.groups))
    wrong = [f"the list {of(one)}, and not {of(other)}"] * (of(one) != of(other))
    for group, known in zip(one.groups, other.groups):
        of = lambda it: (it.name, it.is_open, it.heading, it.numbers, len(it.rows))
        wrong += [f"the group {of(group)}, and not {of(known)}"] * (of(group) != of(known))
        for number, (row, wanted) in enumerate(zip(group.rows, known.rows)):
            if row != wanted:
                return [*wrong, f"row {number} of {group.name} is {row}, and not {wanted}"]
    return wrong
