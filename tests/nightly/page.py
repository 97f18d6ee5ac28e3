#!/usr/bin/env python3
"""Looks at pages of the program with a real browser, Debian's `chromium`, and at what it prints
with `pdftotext` of `poppler-utils`.

    tests/nightly/page.py [PROGRAM [FOLDER]]

The program is the one that ./office runs, where none is named. It makes an office whose names and
texts look like markup or run from right to left, and the page of each intersection; checks in the
browser's own document that each name and text is text, that nothing but a table's or a picture's
own box is wider than the screen, that each element is displayed as the browser computes its style,
and has letters of 11 pixels or more, each section, broken rule, warning and change among them, on
both screens and on paper; that rules and warnings contrast with their ground by 4.5 or more, light
and dark; that what differs between the two rows of a change is marked, and nothing else, by bold
and underlined letters; and puts pictures at 1280 and at 390 pixels of width, light
and dark, into FOLDER, or into a folder of its own. So it looks at a folder of pages, and follows
each of its links; at 390 pixels its index shows due days, open orders and their work without
scrolling sideways. It prints a page of eight phases and the index of 60 intersections: each printed
page has the title, each but the last is at least half full, no word lies outside of the paper,
headings repeat, and all words of the page are there. It prints `ok` at the end.
"""
import html
import html.parser
import json
import pathlib
import re
import shutil
import subprocess
import sys
import tempfile

TOP = pathlib.Path(__file__).resolve().parents[2]
SCREENS = 1280, 390
LEAST_LETTERS = 11  # pixels
# What the index shows on a narrow screen without scrolling sideways.
IN_SIGHT = {"Next inspection due", "Open orders", "Opened", "Work"}
MANY = 60  # intersections of the index that is printed
DARK = "--blink-settings=preferredColorScheme=0"
# What each element of the body is shown as. The link past the head stands outside the page until
# somebody goes to it by the keyboard.
LOOKED_AT = """
const lost = [], small = [];
const ground = it => {
  const color = getComputedStyle(it).backgroundColor;
  return color !== 'rgba(0, 0, 0, 0)' || !it.parentElement ? color : ground(it.parentElement);
};
for (const it of document.body.querySelectorAll('*')) {
  const style = getComputedStyle(it), box = it.getBoundingClientRect();
  if (it.closest('.skip') || it.tagName === 'SCRIPT') continue;
  const own = [...it.childNodes].some(x => x.nodeType === 3 && x.data.trim());
  const name = it.tagName + '.' + it.getAttribute('class') + ': ' + it.textContent.slice(0, 40);
  if (style.display === 'none' || style.visibility !== 'visible' || Number(style.opacity) < 1
      || style.clipPath !== 'none' || own && (box.width < 1 || box.height < 1 || box.left < 0)
      || style.overflowY === 'hidden' && it.scrollHeight > it.clientHeight + 1
      || own && !it.closest('svg') && [ground(it), 'rgba(0, 0, 0, 0)'].includes(style.color))
    lost.push(name);
  const svg = it.closest('svg');
  const scale = svg ? svg.getBoundingClientRect().width / svg.viewBox.baseVal.width : 1;
  if (own && parseFloat(style.fontSize) * scale < LEAST) small.push(name);
}
const part = x => x <= 0.04045 ? x / 12.92 : ((x + 0.055) / 1.055) ** 2.4;
const light = color => {
  const [r, g, b] = color.match(/[0-9.]+/g).map(x => part(x / 255));
  return 0.2126 * r + 0.7152 * g + 0.0722 * b + 0.05;
};
const contrast = it => {
  const [own, below] = [light(getComputedStyle(it).color), light(ground(it))];
  return Math.max(own / below, below / own);
};
const past = [...document.querySelectorAll('thead th')].filter(it =>
  it.getBoundingClientRect().right > it.closest('.scroll').getBoundingClientRect().right + 1);
const count = x => document.querySelectorAll(x).length;
document.title = JSON.stringify({
  past: past.map(it => it.textContent),
  width: document.body.scrollWidth, lost, small, sections: count('section'), rules: count('tr.why'),
  warnings: count('tr.warned, p.warned'), dark: matchMedia('(prefers-color-scheme: dark)').matches,
  pale: [...document.querySelectorAll('.why p, .warned p, p.warned, .broken, .sound')].filter(x =>
    contrast(x) < 4.5).map(x => x.textContent.slice(0, 40)),
  changes: count('.changes tbody tr'), bare: count('tbody:empty'), marks: count('mark'),
  faint: [...document.querySelectorAll('mark')].map(x => getComputedStyle(x)).filter(x =>
    Number(x.fontWeight) < 700 || !x.textDecorationLine.includes('underline')).length,
});
"""
NAME = "<script>alert(1)</script>&\""
CLERK = "\u202eO'Neil <b>"
FOUND = "\u05e9\u05dc\u05d5\u05dd </bdi><img src=x onerror=alert(2)> &amp; \"x\""
PLAN = """phase,1,1,5,20,15,30,10,5 6
phase,2,1,10,30,45,40,15,5 6,7,14,490,60,0,3
phase,3,1,5,20,15,30,10,7 8
phase,4,1,8,25,30,40,15,7 8,7,16,540,60,0,0
phase,5,2,5,20,15,30,10,1 2
phase,6,2,10,30,45,40,15,1 2,7,14,490,60,0,3
phase,7,2,5,20,15,30,10,3 4
phase,8,2,8,25,30,40,15,3 4,4,19,640,20,1,0
seq,1,1,1 2 3 4
seq,1,2,5 6 7 8
split,1,1,15,2,0
split,1,2,45,4,1
split,1,3,15,2,0
split,1,4,35,5,0
split,1,5,15,2,0
split,1,6,45,4,1
split,1,7,15,2,0
split,1,8,35,5,0
pattern,1,110,12,1,1
"""
# A plan that breaks no rule, with a warning of each phase and two of the plan as a whole.
WARNED = """phase,2,1,0,20,30,40,10,6
phase,6,2,10,30,5,40,15,2
"""
# A shorter split of phase 2, another time of red, a phase more, a pattern less.
CHANGES = """split,1,2,40,4,1
phase,8,2,8,25,30,40,20,3 4,7,19,640,60,0,0
remove,seq,1,2
pattern,2,60,5,1,1
"""
# What differs of it: time and spare time of the split, whose need is 15.5, from and to; then red,
# walk, setback and short walk of the phase, from and to.
MARKED = ["45", "29.5", "40", "24.5", "1.5", "4", "2.0", "yes", "2.0", "7", "6.0", "no"]
RECORDS = """delivery,LAMP,1,2026-04-02,9
inspection,12,1,2025-03-04,Bo,"Cabinet clean, fan and filter in order"
inspection,12,2,2026-03-01,Ana,Fan cleaned; battery at 12.9 V; door seal worn
order,12,1,2026-03-01,Ana,Door seal to be replaced
close,12,1,2026-03-19,Bo
order,12,2,2026-05-01,Ana,Lamp of the walk signal on the north corner is out
use,12,2,1,LAMP,2
"""


def fail(text):
    print(f"page.py: {text}", file=sys.stderr)
    sys.exit(1)


def missing(text):
    print(f"page.py: {text}", file=sys.stderr)
    sys.exit(2)


class Document(html.parser.HTMLParser):
    """The elements of a document, and the text of those that hold names or are marked."""

    def __init__(self, text):
        super().__init__(convert_charrefs=True)
        self.elements, self.names, self.marks, self.within = [], [], [], []
        self.feed(text)

    def texts_of(self, tag):
        return self.marks if tag == "mark" else self.names

    def handle_starttag(self, tag, attrs):
        self.elements.append(tag)
        if tag in ("bdi", "title", "mark"):
            self.texts_of(tag).append("")
            self.within.append(tag)

    def handle_endtag(self, tag):
        if self.within and self.within[-1] == tag:
            self.within.pop()

    def handle_data(self, data):
        if self.within:
            self.texts_of(self.within[-1])[-1] += data


class Browser:
    def __init__(self, folder):
        self.path = shutil.which("chromium")
        if not self.path:
            missing("there is no chromium: `apt-get install chromium fonts-dejavu-core` brings it")
        if not shutil.which("pdftotext"):
            missing("there is no pdftotext: `apt-get install poppler-utils` brings it")
        self.folder = folder

    def run(self, page, *words):
        line = [self.path, "--headless", "--no-sandbox", "--disable-gpu", "--hide-scrollbars"]
        line += [f"--user-data-dir={self.folder}/profile", *words, page.as_uri()]
        try:
            done = subprocess.run(line, capture_output=True, timeout=120, check=False)
        except subprocess.TimeoutExpired:
            fail(f"chromium came to no end on {page.name}: does a text of it run as a script?")
        if done.returncode:
            fail(f"chromium ended with status {done.returncode} on {page.name}")
        return done.stdout.decode()

    def document(self, page, *words):
        return Document(self.run(page, "--dump-dom", *words))

    def looked_at(self, page, screen, *words, paper=False):
        """What a copy of the page tells of itself in its title: how wide it is on a screen, which
        elements are not displayed, or have small or pale letters, and how much it has of what
        counts."""
        copy = self.folder / f"measured-{page.name}"
        narrow = f"document.documentElement.style.width = '{screen}px';"
        text = page.read_text()
        if paper:
            text = text.replace("@media print {", "@media all {")
        script = f"<script>{narrow}{LOOKED_AT.replace('LEAST', str(LEAST_LETTERS))}</script>"
        copy.write_text(text.replace("</body>", f"{script}</body>"))
        return json.loads(self.document(copy, f"--window-size={screen},2600", *words).names[0])

    def clicking(self, page, turn):
        """A copy of a page, beside it, on which one of its links is clicked."""
        copy = page.with_name(f"clicking-{page.name}")
        script = f"<script>document.links[{turn}].click();</script></body>"
        copy.write_text(page.read_text().replace("</body>", script))
        return copy

    def printed(self, page, target):
        """The words of each printed page, each with its place, by lines."""
        self.run(page, f"--print-to-pdf={target}", "--no-pdf-header-footer")
        told = subprocess.run(["pdftotext", "-bbox", target, "-"], stdout=subprocess.PIPE,
                              text=True, check=True).stdout
        for sheet in told.split("<page ")[1:]:
            yield Sheet(sheet)

    def picture(self, page, target, screen, *words):
        self.run(page, f"--screenshot={target}", f"--window-size={screen}", *words)


class Sheet:
    """A printed page: its size, and its words, each with its place."""

    def __init__(self, told):
        self.wide, self.high = (float(re.search(f'{it}="([0-9.]+)"', told)[1])
                                for it in ("width", "height"))
        places = r'<word xMin="(\S+)" yMin="(\S+)" xMax="(\S+)" yMax="(\S+)">(.*)</word>'
        self.words = [(*map(float, it[:4]), html.unescape(it[4]))
                      for it in re.findall(places, told)]

    def text(self):
        return " ".join(it[4] for it in self.words)


def make_many(program, folder):
    """A folder of pages of many intersections, with an open order each."""
    office, records = folder / "many.db", folder / "many.csv"
    for number in range(1, MANY + 1):
        name = f"{number}th Avenue and the old road to the ferry"
        subprocess.run([program, "add", "--db", office, str(number), "365", name], check=True,
                       stdout=subprocess.DEVNULL)
    records.write_text("".join(
        f"order,{number},1,2026-05-{1 + number % 28:02},Ana,Countdown dark on the northeast corner\n"
        for number in range(1, MANY + 1)))
    for words in (["import", "--db", office, records],
                  ["pages", "--db", office, "--day", "2026-06-30", folder / "many"]):
        subprocess.run([program, *words], check=True, stdout=subprocess.DEVNULL)
    return folder / "many" / "index.html"


def make(program, folder):
    """An office of three intersections, and the page of each."""
    office = folder / "office.db"
    for name, text in (("plan", PLAN), ("changes", CHANGES), ("records", RECORDS),
                       ("warned", WARNED)):
        (folder / f"{name}.csv").write_text(text)

    def run(*words, status=0):
        done = subprocess.run([program, *map(str, words)], capture_output=True, check=False)
        if done.returncode != status:
            fail(f"{words[0]} ended with status {done.returncode}: {done.stderr.decode().strip()}")
        return done.stdout

    run("add", "--db", office, 12, 365, "Main St & 3rd Ave")
    run("edit", "--db", office, "--clerk", "Ana", "--commit", 12, folder / "plan.csv")
    run("edit", "--db", office, "--clerk", CLERK, 12, folder / "changes.csv")
    run("import", "--db", office, folder / "records.csv")
    run("add", "--db", office, 13, 90, NAME)
    run("edit", "--db", office, "--clerk", CLERK, "--commit", 13, folder / "warned.csv")
    quoted = FOUND.replace('"', '""')
    (folder / "nasty.csv").write_text(f'inspection,13,1,2026-03-01,{CLERK},"{quoted}"\n')
    run("import", "--db", office, folder / "nasty.csv")
    run("add", "--db", office, 14, 90, "New crossing")
    pages = {}
    for number in (12, 13, 14):
        pages[number] = folder / f"page-{number}.html"
        pages[number].write_bytes(run("page", "--db", office, number))
    pages["plan"] = folder / "page-plan.html"
    pages["plan"].write_bytes(run("page", "--file", folder / "plan.csv"))
    run("pages", "--db", office, "--day", "2026-06-30", folder / "city")
    for name in ("index", "12"):
        pages[f"city-{name}"] = folder / "city" / f"{name}.html"
    return pages


def check(browser, pages):
    shown = browser.document(pages[13])
    for element in ("script", "img", "b"):
        if element in shown.elements:
            fail(f"a name or text made an element {element}")
    if shown.names[0] != f"Intersection 13: {NAME}" or shown.names[1] != NAME:
        fail(f"the name is shown as {shown.names[:2]}")
    for text in (CLERK, FOUND):
        if text not in shown.names:
            fail(f"the text {text!r} is not shown as it is: {shown.names}")
    drafted = browser.document(pages[12])
    if drafted.names[1] != "Main St & 3rd Ave" or CLERK not in drafted.names:
        fail(f"the names of 12 are shown as {drafted.names}")
    if drafted.marks != MARKED or shown.marks:
        fail(f"what differs is marked as {drafted.marks}, and without a draft {shown.marks}")
    warned = pages[13].read_text()
    if warned.count("<tr class='warned'>") != 2 or warned.count("<p class='warned'>") != 3:
        fail("the page of 13 has other warnings than two below rows, two above, and their number")
    for page in pages.values():
        for screen in SCREENS:
            look_at(browser, page, screen)
        look_at(browser, page, 1280, DARK)
        look_at(browser, page, 1280, paper=True)


def follow(browser, folder):
    """Each link of the index leads to the page of its intersection, and from there back."""
    index = folder / "index.html"
    links = [it for it in index.read_text().split("<a href='")[1:]]
    for turn, name in enumerate(it.partition("'")[0] for it in links):
        there = browser.document(browser.clicking(index, turn), "--virtual-time-budget=3000")
        if not there.names[0].startswith(f"Intersection {name.removesuffix('.html')}: "):
            fail(f"the link to {name} leads to {there.names[:1]}")
        back = browser.document(browser.clicking(folder / name, 1), "--virtual-time-budget=3000")
        if back.names[0] != "Intersections":
            fail(f"the link of {name} leads back to {back.names[:1]}")
    if len(links) != 4:
        fail(f"the index has {len(links)} links, not those of 3 intersections and an open order")


def print_out(browser, page, target, title, headings):
    """A page as it is printed."""
    sheets = list(browser.printed(page, target))
    for number, sheet in enumerate(sheets, 1):
        where = f"{page.name}, printed page {number} of {len(sheets)}"
        if title not in sheet.text():
            fail(f"{where} has no title")
        if headings and not headings & {it[4] for it in sheet.words}:
            fail(f"{where} has no headings")
        if any(it[0] < 0 or it[1] < 0 or it[2] > sheet.wide or it[3] > sheet.high
               for it in sheet.words):
            fail(f"{where} has words outside of the paper")
        if number < len(sheets) and max(it[3] for it in sheet.words) < sheet.high / 2:
            fail(f"{where} is less than half full")
    shown = {it[4] for sheet in sheets for it in sheet.words}
    for text in filter(str.isascii, browser.document(page).names):
        if {*text.split()} - shown:
            fail(f"{page.name} is printed without {text!r}")


def look_at(browser, page, screen, *words, paper=False):
    """Each element of a page is displayed, in letters that can be read, and the page has all of its
    sections, broken rules, warnings and changes."""
    text, told = page.read_text(), browser.looked_at(page, screen, *words, paper=paper)
    where = "on paper" if paper else f"on a screen of {screen}"
    if told["dark"] != (DARK in words):
        fail(f"{page.name} is shown in the other colors {where}")
    if told["width"] > screen:
        fail(f"{page.name} is {told['width']} pixels wide {where}")
    if page.name == "index.html" and IN_SIGHT & {*told["past"]}:
        fail(f"{page.name} has to be scrolled sideways for {IN_SIGHT & {*told['past']}} {where}")
    for what, names in (("not displayed", told["lost"]), ("too small", told["small"]),
                        ("too pale", told["pale"])):
        if names and not (paper and what == "too small"):
            fail(f"{page.name} has elements that are {what} {where}: {names[:5]}")
    marks = ("<tr class='added'", "<tr class='removed'", "<tr class='before'", "<tr class='after'")
    counts = {"sections": text.count("<section "), "rules": text.count("<tr class='why'>"),
              "warnings": text.count("<tr class='warned'>") + text.count("<p class='warned'>"),
              "changes": sum(map(text.count, marks)), "bare": 0, "marks": text.count("<mark>"),
              "faint": 0}
    for what, count in counts.items():
        if told[what] != count:
            fail(f"{page.name} shows {told[what]} {what}, and has {count}")


def draw(browser, pages, target):
    for name, page in pages.items():
        for screen in ("1280,2600", "390,2600"):
            size = screen.partition(",")[0]
            browser.picture(page, target / f"{name}-{size}.png", screen)
    for number in (12, 13):
        browser.picture(pages[number], target / f"{number}-dark.png", "1280,2600", DARK)


def main():
    program = pathlib.Path(
        sys.argv[1] if len(sys.argv) > 1 else TOP / "crates/signal_office/out/signal_office"
    )
    if not program.is_file():
        missing(f"there is no program {program}: ./office builds it")
    with tempfile.TemporaryDirectory() as name:
        folder = pathlib.Path(name)
        target = pathlib.Path(sys.argv[2]) if len(sys.argv) > 2 else folder
        target.mkdir(parents=True, exist_ok=True)
        browser = Browser(folder)
        pages = make(program.resolve(), folder)
        check(browser, pages)
        follow(browser, folder / "city")
        print_out(browser, pages["plan"], target / "plan.pdf", "plan.csv", set())
        print_out(browser, pages[12], target / "12.pdf", "Intersection 12: Main St & 3rd Ave",
                  set())
        print_out(browser, make_many(program.resolve(), folder), target / "index.pdf",
                  "Intersections", {"Name", "Part"})
        draw(browser, pages, target.resolve())
    print("ok")


main()
