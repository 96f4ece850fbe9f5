"""What a browser shows for the page of a merge: width, colours, boxes, and what is read aloud."""

import base64
import json
import re
import struct
import subprocess
import tempfile

STATES = ("new", "updated")
LEVELS = ("error", "warning", "note", "none")

# Whether a row is displayed, with its data. A row of a closed group counts as displayed.
SEEN = """[...document.querySelectorAll('li[data-level]')].map(it => [
  it.dataset.level, it.dataset.state, it.dataset.hit, getComputedStyle(it).display !== 'none'])"""

# How many rows are seen, so not those of closed groups.
VISIBLE = "[...document.querySelectorAll('li[data-level]')].filter(it => it.checkVisibility()).length"

# What is wrong with the sentences on filters, and with the groups and lists whose rows are all filtered out.
TOLD = """(() => {
  const off = [...document.querySelectorAll('.filters input')].some(it => !it.checked);
  const seen = it => getComputedStyle(it).display !== 'none', wrong = [];
  const told = document.querySelector('.filters p');
  if (told && seen(told) !== off) wrong.push('the sentence on filters');
  for (const part of document.querySelectorAll('details[data-has], section')) {
    const some = [...part.querySelectorAll('li')].some(seen);
    if (part.localName === 'details' && seen(part) !== some) wrong.push('the group ' + part.id);
    const gone = part.querySelector(':scope > .gone');
    if (gone && seen(gone) === some) wrong.push('the sentence below ' + part.getAttribute('aria-labelledby'));
  }
  return wrong;
})()"""

# The current position of the middle of the box of each label.
BOXES = """[...document.querySelectorAll('label')].map(it => {
  const box = it.querySelector('input').getBoundingClientRect();
  return [it.textContent.trim(), box.x + box.width / 2, box.y + box.height / 2];
})"""

TICKED = """[...document.querySelectorAll('label')].map(it => [
  it.textContent.trim(), it.querySelector('input').checked])"""

# The rightmost position of anything that the page shows, without paths for screen readers alone and code, which
# scrolls. The counts are left out if they are in a box that scrolls.
REACH = """Math.max(...[...document.querySelectorAll('body *')].filter(
  it => it.checkVisibility() && !it.closest('li i, pre *') && !(it.closest('.counts') &&
    getComputedStyle(it.closest('.counts').parentElement).overflowX === 'auto')).map(
  it => it.getBoundingClientRect().right))"""

# Each part that is displayed, in the order of the file: its name, and the positions of its top and its left side.
PARTS = """[...document.querySelectorAll(
  'h1, header p, nav, .counts, .filters, h2, summary, li[data-level], main > p')].filter(
  it => it.checkVisibility()).map(it => {
    const box = it.getBoundingClientRect();
    return [it.className || it.localName, Math.round(box.top), Math.round(box.left)];
  })"""

# How far down the place of the first hit ends.
FIRST_PLACE = """Math.max(...[...document.querySelector(
  'li[data-hit="yes"] > :first-child').getClientRects()].map(it => it.bottom)) + window.scrollY"""

# The first row of the first open group: its level, the texts of its place, its rule and its code, and how far down the
# lowest of them ends.
WORST = """(() => {
  const row = document.querySelector('details[id][open] li');
  const parts = [':scope > :first-child', ':scope > div :is(a, code)', ':scope > pre'].map(it => row.querySelector(it));
  const lowest = Math.max(...parts.map(it => it.getBoundingClientRect().bottom)) + window.scrollY;
  return [[row.dataset.level, ...parts.map(it => it.textContent)], lowest];
})()"""

# What has the focus, and how it is shown.
FOCUS = """(() => {
  const it = document.activeElement, style = getComputedStyle(it);
  if (it === document.body) return null;
  let under = it.parentElement;
  const ground = it => getComputedStyle(it).backgroundColor;
  while (under && ground(under) === 'rgba(0, 0, 0, 0)') under = under.parentElement;
  return [it.localName + (it.id ? '#' + it.id : '') + (it.href || it.textContent), style.outlineStyle,
    parseFloat(style.outlineWidth), style.outlineColor + ' on ' + ground(under)];
})()"""

BREAKS = """[...document.querySelectorAll('tr, li')].filter(
  it => getComputedStyle(it).breakInside !== 'avoid').length"""

# Whether the style of the page is in use, and what the boxes and the links take of the page.
STYLED = "getComputedStyle(document.querySelector('h1')).borderLeftStyle !== 'none'"

INPUTS = """[...document.querySelectorAll('input, nav')].filter(
  it => it.getClientRects().length > 0).length"""

# Two parts of one row whose contents overlap, as far as they are seen: long parts and code scroll, and paths are hidden.
OVERLAPS = """(() => {
  const found = [];
  const spans = cell => {
    const box = cell.getBoundingClientRect();
    const walker = document.createTreeWalker(cell, NodeFilter.SHOW_TEXT);
    const found = [];
    while (walker.nextNode()) {
      const range = document.createRange();
      range.selectNodeContents(walker.currentNode);
      if (!walker.currentNode.parentElement.closest('li i')) found.push(...range.getClientRects());
    }
    return found.filter(
      it => it.width > 1 && it.height > 1 && it.top < box.bottom && it.bottom > box.top).map(it => ({
      left: it.left, right: cell.localName === 'pre' ? Math.min(it.right, box.right) : it.right, top: Math.max(it.top, box.top), bottom: Math.min(it.bottom, box.bottom)}));
  };
  const rows = [...document.querySelectorAll('tr, li')].filter(it => it.checkVisibility());
  for (const row of rows.slice(0, 60)) {
    const cells = [...row.children].map(it => [it.textContent, spans(it)]);
    for (const [i, [text, some]] of cells.entries())
      for (const [other, others] of cells.slice(i + 1))
        for (const a of some) for (const b of others)
          if (Math.min(a.right, b.right) - Math.max(a.left, b.left) > 1
              && Math.min(a.bottom, b.bottom) - Math.max(a.top, b.top) > 4)
            found.push(text.slice(0, 30) + ' / ' + other.slice(0, 30));
  }
  return found;
})()"""

# Each pair of colours of a text and of its background, and a text that has them.
COLOURS = """(() => {
  const found = {};
  const walker = document.createTreeWalker(document.body, NodeFilter.SHOW_TEXT);
  for (let text; (text = walker.nextNode());) {
    if (!text.data.trim() || !text.parentElement.checkVisibility()) continue;
    let under = text.parentElement;
    const colour = getComputedStyle(under).color;
    const ground = it => getComputedStyle(it).backgroundColor;
    while (under && ground(under) === 'rgba(0, 0, 0, 0)') under = under.parentElement;
    const pair = colour + ' on ' + (under ? ground(under) : 'rgb(255, 255, 255)');
    found[pair] = text.data.trim();
  }
  return found;
})()"""

GROUND = "getComputedStyle(document.body).backgroundColor"
LEAST_CONTRAST = 4.5
LEAST_FOCUS = 3
LOWEST_PLACE = 700
# How many seconds of a processor a filter may take: on the page as it opens, and with all groups of 10,000 results
# open. Processors with a third of the usual speed took 0.15 and 4.7, however much other work they did.
MOST_SECONDS, MOST_SECONDS_OPEN = 1, 12
MOST_HEIGHT = 40_000


# ---- Colours


def parts(colour):
    return [float(it) for it in colour.partition("(")[2].rstrip(")").split(",")[:3]]


def light(colour):
    """The relative luminance of a colour, from 0 to 1."""
    linear = [it / 255 for it in parts(colour)]
    linear = [it / 12.92 if it <= 0.04045 else ((it + 0.055) / 1.055) ** 2.4 for it in linear]
    return 0.2126 * linear[0] + 0.7152 * linear[1] + 0.0722 * linear[2]


def contrast(pair):
    one, _, other = pair.partition(" on ")
    least, most = sorted((light(one), light(other)))
    return (most + 0.05) / (least + 0.05)


# ---- Checks of a page: each returns what is wrong


def called(name, look):
    look.__name__ = name
    return look


def is_alone(page, file):
    """Checks that only the page was requested, and that the browser reports no error."""
    named, said = page.asked_for()
    wrong = [f"it asks for {it}" for it in named if it != file.resolve().as_uri()]
    return wrong + [f"the browser says {it}" for it in said]


def fits(page, file):
    most = page.tells("document.documentElement.scrollWidth")
    wrong = [f"it is {most} wide, and not {page.width}"] * (most > page.width)
    reach = page.tells(REACH)
    return wrong + [f"something reaches to {reach}"] * (reach > page.width + 0.5)


def is_short(page, file):
    """Checks that the page isn't too high as it opens."""
    most = page.tells("document.documentElement.scrollHeight")
    return [f"it is {most} high"] * (most > MOST_HEIGHT)


def in_order(page, file):
    """Checks that the parts are seen in the order of the file: downwards, or to the right."""
    parts = page.tells(PARTS)
    return [
        f"{after} is seen before {before}"
        for before, after in zip(parts, parts[1:])
        if after[1] < before[1] and after[2] <= before[2]
    ][:3]


def first_hit_is_near(page, file):
    lowest = page.tells(FIRST_PLACE)
    return [f"the first hit's place ends at {lowest}"] * (lowest > LOWEST_PLACE)


def worst_is_seen(wanted, height):
    """Checks that the first row that is seen has this level, place and rule, and code with this line, and that all of it
    is in the first screen of this height."""

    def look(page, file):
        (*texts, code), lowest = page.tells(WORST)
        wrong = [f"the first row is {texts}"] * (texts != wanted[:-1])
        wrong += [f"its code is {code!r}"] * (wanted[-1] not in code)
        return wrong + [f"it ends at {lowest:.0f}"] * (lowest > height)

    return called("worst_is_seen", look)


def focus_is_seen(page, file):
    """Goes through the page with the keyboard, and checks that what has the focus is outlined."""
    seen, wrong = [], []
    for _ in range(30):
        page.press("Tab", "Tab")
        focus = page.tells(FOCUS)
        if focus is None or focus[0] in seen:
            break
        seen.append(focus[0])
        is_shown = focus[1] == "solid" and focus[2] >= 2 and contrast(focus[3]) >= LEAST_FOCUS
        wrong += [f"the focus on {focus} isn't seen"] * (not is_shown)
    boxes = page.tells("document.querySelectorAll('a, input, summary').length")
    return wrong + ["nothing has the focus"] * (boxes > 0 and not seen)


def has_scheme(scheme):
    def look(page, file):
        found = light(page.tells(GROUND))
        is_so = found > 0.8 if scheme == "light" else found < 0.1
        return [f"the ground's light is {found:.2f}"] * (not is_so)

    return called("has_scheme", look)


def is_readable(page, file):
    pairs = page.tells(COLOURS)
    return [
        f"{text[:30]!r} is {pair}, a contrast of {contrast(pair):.2f}"
        for pair, text in pairs.items()
        if contrast(pair) < LEAST_CONTRAST
    ]


def is_apart(page, file):
    """Checks that no text overlaps another."""
    return [f"upon each other: {it}" for it in page.tells(OVERLAPS)[:5]]


def pictured(page, folder, name):
    """Takes a picture, and checks that it is as wide as the page."""
    taken = page.picture()
    if folder is not None:
        (folder / f"{name}.png").write_bytes(taken)
    wide = struct.unpack(">I", taken[16:20])[0] // page.scale
    return [f"the picture is {wide} wide"] * (wide != page.width)


def is_spoken(lists, groups, rows, boxes):
    """Checks that a screen reader gets the lists with their groups, the rows of open groups, and the boxes."""

    def look(page, file):
        named = page.named()
        of = lambda role: [name for it, name in named if it == role]
        found = of("table")
        wrong = [f"the tables are {found}"] * (len(found) != 1 or "" in found)
        wanted = ["state", "error", "warning", "note", "none", "suppressed"]
        wrong += [f"the headings are {of('columnheader')}"] * (of("columnheader") != wanted)
        wrong += [f"{len(of('rowheader'))} rows are named"] * (len(of("rowheader")) != 4)
        cells = len(of("cell")) + len(of("gridcell"))
        wrong += [f"there are {cells} cells"] * (cells != 20)
        wrong += [f"{len(of('listitem'))} rows are read"] * (len(of("listitem")) != rows)
        opening = of("DisclosureTriangle")
        wrong += [f"the groups are {opening}"] * (len(opening) != groups or "" in opening)
        wrong += [f"the lists are {of('region')}"] * (len(of("region")) != lists or "" in of("region"))
        return wrong + [f"the boxes are {of('checkbox')}"] * (of("checkbox") != boxes)

    return called("is_spoken", look)


# ---- Boxes


def ticked(page):
    return dict(page.tells(TICKED))


def tick(page, name):
    """Clicks on a box, with the mouse. Returns the seconds of a processor until the page is laid out again."""
    page.tells("window.scrollTo(0, 0)")
    x, y = next((x, y) for it, x, y in page.tells(BOXES) if it == name)
    began = page.worked()
    page.click(x, y)
    page.tells("document.documentElement.scrollHeight")
    return page.worked() - began


def filters_all_open(page, file):
    """Opens all groups, and ticks a box of levels and one of states."""
    page.tells("document.querySelectorAll('details').forEach(it => it.open = true)")
    longest = max(tick(page, name) for name in ("error", "error", "new", "new"))
    return [f"a filter took {longest:.1f} seconds"] * (longest > MOST_SECONDS_OPEN)


def displayed(row, boxes):
    """Returns whether a row must be visible with these boxes ticked."""
    level, state, _, _ = row
    return boxes.get(level, True) and boxes.get(state, True)


def filters(page, file):
    """Ticks each box, and some together, by mouse, and one by keyboard. No script of the page runs."""
    wrong, longest = judged(page, "at first"), 0
    names = list(ticked(page))
    for name in names:
        longest = max(longest, tick(page, name))
        wrong += judged(page, f"after {name}")
        longest = max(longest, tick(page, name))
    wrong += judged(page, "after all again")
    wrong += [f"a filter took {longest:.1f} seconds"] * (longest > MOST_SECONDS)
    for name in ("updated", "error"):
        if name in names:
            tick(page, name)
            wrong += judged(page, f"with {name} too")
    before = ticked(page)
    page.press("Tab", "Tab")
    page.press(" ", "Space")
    wrong += ["the keyboard changes nothing"] * (ticked(page) == before)
    return wrong + judged(page, "by keyboard")


def judged(page, when):
    boxes, rows = ticked(page), page.tells(SEEN)
    off = [row for row in rows if row[3] != displayed(row, boxes)]
    wrong = [f"{when} {json.dumps(row)} with {boxes}" for row in off[:2]]
    return wrong + [f"{when} {it} with {boxes}" for it in page.tells(TOLD)[:2]]


# ---- On paper


def filters_on_paper(page, file):
    """Checks that the rows which a filter hides are not printed."""
    wrong = []
    for name in ticked(page):
        tick(page, name)
        page.show_as("print")
        boxes, seen = ticked(page), page.tells(VISIBLE)
        left = sum(displayed(row, boxes) for row in page.tells(SEEN))
        wrong += [f"{seen} rows are printed without {name}, and not {left}"] * (seen != left)
        page.show_as("screen")
        tick(page, name)
    return wrong


def is_printed(rows):
    """Checks that on paper all rows are on white, without boxes and links, even if the screen is dark."""

    def look(page, file):
        wrong = ["the ground isn't white"] * (light(page.tells(GROUND)) < 0.99)
        seen = page.tells(VISIBLE)
        wrong += [f"{seen} rows are printed"] * (seen != rows)
        boxes = page.tells(INPUTS)
        wrong += [f"{boxes} boxes or lists of links are printed"] * bool(boxes)
        cut = page.tells(BREAKS)
        return wrong + is_readable(page, file) + [f"{cut} rows may be cut in two"] * bool(cut)

    return called("is_printed", look)


def rows_are_whole(pdfgrep):
    """Checks that on paper each row whose message begins with `beginN` and ends with `endN` is on one page."""

    def look(page, file):
        told = page.ask("Page.printToPDF", paperWidth=8.27, paperHeight=11.69)["data"]
        with tempfile.NamedTemporaryFile(suffix=".pdf") as paper:
            paper.write(base64.b64decode(told))
            paper.flush()
            words = [pdfgrep, "-n", "-o", "(begin|end)[0-9]+x", "-P", paper.name]
            found = subprocess.run(words, capture_output=True, text=True, timeout=120).stdout
        ends = re.findall(r"^(\d+):(begin|end)(\d+)x$", found, re.MULTILINE)
        pages = {(end, number): on for on, end, number in ends}
        numbers = {number for _, number in pages}
        wrong = [f"{len(numbers)} rows on {len(set(pages.values()))} pages"] * (len(numbers) < 100)
        cut = [it for it in numbers if pages.get(("begin", it)) != pages.get(("end", it))]
        return wrong + [f"row {it} is cut in two" for it in sorted(cut)[:3]]

    return called("rows_are_whole", look)


# ---- Without styles


def is_plain(rows):
    """Checks that a policy without styles and scripts leaves a page with all rows and no box."""

    def look(page, file):
        wrong = ["the style is in use"] * bool(page.tells(STYLED))
        seen = sum(row[3] for row in page.tells(SEEN))
        wrong += [f"{seen} rows are displayed"] * (seen != rows)
        boxes = page.tells("document.querySelectorAll('.filters').length")
        shown = page.tells("[...document.querySelectorAll('input')].filter(it => it.getClientRects().length).length")
        return wrong + [f"{shown} boxes do nothing"] * bool(boxes and shown)

    return called("is_plain", look)
