"""The pages of netflow-report: well-formed, complete, nothing on top of anything else, and in a browser."""
import html
import html.parser
import json
import random
import re
import shutil
import subprocess

import pytest

from cases import mistakes
from lib.examples import folders
from netflow.report.drawing import overlaps
from netflow.report.placement import LETTER, grouped
from support import TOP, run, solved, write


class Page(html.parser.HTMLParser):
    """Whether a page's tags are closed as they were opened, and what it asks for from elsewhere."""

    VOID = {"meta", "br", "hr", "img", "input", "link"}

    def __init__(self, text):
        super().__init__()
        self.open, self.faults, self.count = [], [], {}
        self.feed(text)
        self.faults += [f"{tag} is not closed" for tag in self.open]

    def handle_starttag(self, tag, attrs):
        self.count[tag] = self.count.get(tag, 0) + 1
        self.faults += [
            f"{name}={value} leads elsewhere"
            for name, value in attrs
            if name in ("src", "href", "xlink:href", "action") and not str(value).startswith("#")
        ]
        if tag not in self.VOID:
            self.open.append(tag)

    def handle_endtag(self, tag):
        if not self.open or self.open.pop() != tag:
            self.faults.append(f"</{tag}> closes nothing")

    def handle_startendtag(self, tag, attrs):
        self.count[tag] = self.count.get(tag, 0) + 1


def transport(depots, shops, is_short):
    """A model of so many depots and shops, with a name that has to be escaped."""
    dice = random.Random(f"{depots} {shops}")
    need = [dice.randint(5, 40) for _ in range(shops)]
    has = sum(need) // depots + (-2 if is_short else 12)
    names = ["<b>&\"'", *(f"shop {index}" for index in range(1, shops))]
    quoted = [mistakes.quoted(name) for name in names]
    rows = "\n".join(f"d{index} " + " ".join(str(dice.randint(3, 60)) for _ in names) for index in range(depots))
    model = """set D; set S; param wants {S}; param cost {D, S}; param has;
minimize Total; node Depot {d in D}: net_out <= has; node Shop {s in S}: net_in = wants[s];
arc Drive {d in D, s in S} >= 0, <= 40, from Depot[d], to Shop[s], obj Total cost[d,s];
"""
    data = f"set D := {' '.join(f'd{index}' for index in range(depots))};\nset S := {' '.join(quoted)};\nparam has := {has};\n"
    data += (
        f"param wants := {', '.join(f'{name} {number}' for name, number in zip(quoted, need))};\nparam cost:"
        f" {' '.join(quoted)} :=\n{rows}\n;\n"
    )
    return model, data


SIZES = ((2, 5), (5, 20), (20, 50))
EXAMPLES = ("storage", "crews", "week", "two_objectives", "max_flow")
NAMES = [*(f"{depots * shops}{kind}" for depots, shops in SIZES for kind in ("", "_short")), *EXAMPLES]


def words_of(folder, name):
    """Returns the words that solve the model of a page."""
    if name in EXAMPLES:
        return folders.words_of(TOP / "examples" / name)
    depots, shops = next((depots, shops) for depots, shops in SIZES if name.split("_")[0] == str(depots * shops))
    model, data = transport(depots, shops, name.endswith("_short"))
    return write(folder, f"{name}.mod", model), write(folder, f"{name}.dat", data)


def twice(names):
    return sorted({name for name in names if names.count(name) > 1})


def drawings(text):
    """Returns the drawings of a page; the parts of one each have their own coordinates."""
    return re.findall(r"<svg .*?</svg>", text, re.S)


def overlapping(svg):
    """Pairs of nodes that are drawn one on the other."""
    boxes = [
        tuple(map(float, match))
        for match in re.findall(r'<rect x="([-\d.]+)" y="([-\d.]+)" width="([\d.]+)" height="([\d.]+)" rx="5"', svg)
    ]
    return [
        (a, b)
        for here, a in enumerate(boxes)
        for b in boxes[:here]
        if a[0] < b[0] + b[2] and b[0] < a[0] + a[2] and a[1] < b[1] + b[3] and b[1] < a[1] + a[3]
    ]


@pytest.mark.parametrize("name", NAMES)
def test_page(tmp_path, name):
    words = words_of(tmp_path, name)
    status, text, told = run("netflow-report", *words)
    net, wanted, _ = solved(*words)
    assert (status, told) == (wanted, ""), "status"
    page = Page(text)
    assert page.faults == [], "tags"
    assert "url(" not in re.sub(r"url\(#\w+\)", "", text), "something is fetched"
    tables = re.findall(r"<section id=[^>]*><h2>([^<]*)</h2>\n<p>(\d+) arcs?,.*?</section>", text, re.S)
    assert {name: int(count) for name, count in tables} == {
        name: len(arcs) for name, arcs in net.declared().items()
    }, "arcs"
    rows = sum(
        part.count("<tr") - 1
        for part in re.findall(
            r"<section id=[^>]*><h2>[^<]*</h2>\n<p>\d+ arcs?,(.*?)(?:<details|</section>)", text, re.S
        )
    )
    assert rows == len(net.arcs), "rows"
    assert [pair for svg in drawings(text) for pair in overlapping(svg)] == [], "nodes on one another"
    assert status == 0 or re.search(r'class="reason">[^<]* (short|too much)\.', text), "no reason"
    assert twice(re.findall(r'<g class="node [^"]*" id="(n\d+)"', text)) == [], "places drawn twice"
    drawn = run("netflow-report", *words, "--svg")[1].strip()
    assert (Page(drawn).faults if drawn else []) == [], "the drawing's tags"
    assert drawn.startswith("<svg ") and "<style>" in drawn or "so none is drawn" in text, "no drawing"
    if status == 0 and net.nodes:
        places = re.search(r"<h2>Places</h2>(.*?)</section>", text, re.S)[1]
        cells, first = cells_of(places), re.findall(r"<button[^>]*>([^<]*)<", places).index("inflow")
        each = len(cells) // len(net.nodes)
        inflows = [int(cells[here + first]) - int(cells[here + first + 1]) for here in range(0, len(cells), each)]
        assert inflows == [node.inflow for node in net.nodes], "inflow minus outflow"
    assert status or f"{net.objective} = {grouped(net.value)}<" in text, "no value"
    assert [shown for svg in drawings(text) for shown in crowded(svg)] == [], "numbers on one another or on nodes"
    check_grids(net, text)
    check_totals(net, text)


def check_totals(net, text):
    """The totals of the first declaration: of each part of its keys they come to what flows in all."""
    found = re.search(r"<summary>totals</summary>(.*?)</details>", text, re.S)
    if found:
        declared = re.findall(r"<h2>([^<]*)</h2>", text[: found.start()])[-1]
        flows = sum(arc.flow for arc in net.declared()[declared])
        for table in re.findall(r"<tbody>(.*?)</tbody>", found[1], re.S):
            cells = [
                data or shown
                for data, shown in re.findall(r'<td class="number flow"(?: data-n="([^"]*)")?>([^<]*)</td>', table)
            ]
            assert sum(map(int, cells)) == flows, f"totals of {declared}"


def cells_of(part):
    """Returns the cells of tables, numbers without the marks between their groups."""
    return [data or shown for data, shown in re.findall(r'<td[^>]*?(?: data-n="([^"]*)")?>([^<]*)</td>', part)]


def crowded(svg):
    """Returns the numbers of a small drawing that overlap another number or a node, by the widths that the drawing
    assumes."""
    if 'class="large"' in svg:
        return []
    nodes = [
        tuple(map(float, match))
        for match in re.findall(r'<rect x="([-\d.]+)" y="([-\d.]+)" width="([\d.]+)" height="([\d.]+)" rx="5"', svg)
    ]
    boxes = [(x, y, x + wide, y + high) for x, y, wide, high in nodes]
    numbers = []
    for x, y, shown in re.findall(
        r'<g class="arc number [^"]*"><rect [^>]*><text x="([-\d]+)" y="([-\d]+)">([^<]*)</text>', svg
    ):
        half = LETTER * len(shown) / 2 - 1
        numbers.append((float(x) - half, float(y) - 10, float(x) + half, float(y) + 1, shown))
    found = [number[4] for number in numbers if any(overlaps(number, box) for box in boxes)]
    return found + [one[4] for here, one in enumerate(numbers) for two in numbers[:here] if overlaps(one, two)]


def check_grids(net, text):
    """The cells of a grid come to what flows in all, and so does the total in its corner."""
    for title, part in re.findall(
        r"<h2>([^<]*)</h2>(?:(?!</section>).)*?<table class=\"grid[^\"]*\">(.*?)</table>", text, re.S
    ):
        if "<tfoot>" not in part:
            continue
        flows = sum(arc.flow for arc in net.declared()[title])
        body, foot = part.split("<tfoot>")
        cells = [float(match) for match in re.findall(r'<td class="(?:full|zero)?" data-n="([^"]*)"', body)]
        assert sum(cells) == flows, f"the grid of {title}"
        last = re.findall(r"<td>([^<]*)</td>", foot)[-1]
        assert last == grouped(flows), f"the total of {title}'s grid"


# What a planner reads first

WEEKS = """# Bread from two mills by two depots to three shops, with stock in the depots from one week to the next, over so many
# weeks as the data say.
set MILLS; set DEPOTS; set SHOPS; param T; param grow {MILLS}; param wants {SHOPS, 1..T};
minimize Cost;
node Mill {m in MILLS, t in 1..T}: net_out <= grow[m];
node Depot {d in DEPOTS, t in 1..T};
node Shop {s in SHOPS, t in 1..T}: net_in = wants[s,t];
arc Haul {m in MILLS, d in DEPOTS, t in 1..T} >= 0, <= 20, from Mill[m,t], to Depot[d,t], obj Cost 2.5;
arc Stock {d in DEPOTS, t in 1..T-1} >= 0, <= 9, from Depot[d,t], to Depot[d,t+1], obj Cost 0.5;
arc Deliver {d in DEPOTS, s in SHOPS, t in 1..T} >= 0, <= 30, from Depot[d,t], to Shop[s,t], obj Cost 1;
"""


def weeks_page(folder, weeks):
    """Returns the page of a network over weeks: 7 places in each."""
    rows = "".join(
        f"{shop} {' '.join(str(3 + (here * t) % 5) for t in range(weeks))}\n" for here, shop in enumerate("abc")
    )
    data = f"set MILLS := north 'far west'; set DEPOTS := d e; set SHOPS := a b c; param T := {weeks};\n"
    data += f"param grow default 9 := north 9;\nparam wants: {' '.join(map(str, range(1, weeks + 1)))} :=\n{rows};\n"
    words = write(folder, "weeks.mod", WEEKS), write(folder, "weeks.dat", data)
    status, text, _ = run("netflow-report", *words)
    assert status == 0
    return text


def places_of(svg):
    """Returns the middle of each place of a drawing by its name."""
    found = re.findall(r'<title>([^<:]*):[^<]*</title><rect x="(-?\d+)" y="(-?\d+)" width="(\d+)" height="(\d+)"', svg)
    return {name: (int(x) + int(wide) / 2, int(y) + int(high) / 2) for name, x, y, wide, high in found}


@pytest.mark.parametrize("weeks", (2, 3, 8))
def test_layout_by_the_period(tmp_path, weeks):
    """All places of a week are before those of the next, in one direction, and each week has its title."""
    (svg,) = drawings(weeks_page(tmp_path, weeks))
    places = places_of(svg)
    assert len(places) >= 5 * weeks
    by_week = [[place for name, place in places.items() if name.endswith(f" {week}")] for week in range(1, weeks + 1)]
    ordered = [
        all(max(at[axis] for at in one) < min(at[axis] for at in two) for one, two in zip(by_week, by_week[1:]))
        for axis in (0, 1)
    ]
    assert any(ordered)
    assert re.findall(r'<text class="period"[^>]*>(\d+)</text>', svg) == [str(week) for week in range(1, weeks + 1)]


def test_numbers_on_arcs_have_a_background(tmp_path):
    """9.75 on an arc cannot be read as 9:75: a rectangle is behind the whole number."""
    model = "maximize G; node A; node B; arc In >= 0, <= 9.75, to A, obj G 1; arc X >= 0, <= 30.25, from A, to B; arc Out >= 0, <= 99, from B;"
    text = run("netflow-report", write(tmp_path, "g.mod", model))[1]
    shown = re.findall(
        r'<g class="arc number [^"]*"><rect x="(-?\d+)" y="(-?\d+)" width="(\d+)" height="(\d+)" rx="3"/>'
        r'<text x="(-?\d+)" y="(-?\d+)">([^<]*)</text>',
        text,
    )
    assert [found[6] for found in shown] == ["9.75"] * 3
    for x, y, wide, high, middle, base, number in shown:
        assert int(x) + int(wide) / 2 == pytest.approx(int(middle), abs=1) and int(wide) >= LETTER * len(number) - 1
        assert int(y) < int(base) < int(y) + int(high)
    assert ".number rect{fill:var(--back)}" in text


def test_names_are_written_one_way(tmp_path):
    """No brackets and quotes: `Mill far west 3` in the drawing, the lists and the tables."""
    text = weeks_page(tmp_path, 3)
    shown = re.sub(r"<(script|style)>.*?</\1>", "", text, flags=re.S)
    assert "[" not in shown and "&#x27;" not in shown
    assert shown.count("Mill far west 3") >= 3
    model, data = transport(2, 5, True)
    short = run("netflow-report", write(tmp_path, "s.mod", model), write(tmp_path, "s.dat", data))[1]
    assert "[" not in re.sub(r"<(script|style)>.*?</\1>", "", short, flags=re.S)


def test_summary_comes_first(tmp_path):
    """A line for each declaration of arcs: how many, how many in use, what flows, what it costs."""
    text = weeks_page(tmp_path, 3)
    table = re.search(r'<table class="summary">.*?</table>', text, re.S)
    assert table and table.start() < text.index("<main>")
    assert re.findall(r"<button[^>]*>([^<]*)<", table[0])[:3] == ["arcs", "number", "in use"]
    rows = [re.findall(r"<td[^>]*>(?:<a[^>]*>)?([^<]*)", row) for row in re.findall(r"<tr class.*?</tr>", table[0])]
    assert [row[:2] for row in rows] == [["Haul", "12"], ["Stock", "4"], ["Deliver", "18"]]
    need = sum(3 + (here * t) % 5 for here in range(3) for t in range(3))
    flows = {row[0]: float(row[-2]) for row in rows}
    assert flows["Haul"] == flows["Deliver"] == need
    value = float(re.search(r"Cost = ([\d.]+)", text)[1])
    assert sum(float(row[-1]) for row in rows) == value == 3.5 * need + 0.5 * flows["Stock"]
    assert 'href="#arcs-Haul"' in table[0] and '<section id="arcs-Haul">' in text


def test_title_is_the_whole_sentence(tmp_path):
    text = weeks_page(tmp_path, 2)
    sentence = " ".join(WEEKS.split("\nset")[0].replace("#", "").split()).rstrip(".")
    assert re.search(r"<h1[^>]*>([^<]*)</h1>", text)[1] == sentence
    assert "-webkit-line-clamp:2" in text


def test_no_error_red_and_no_empty_columns(tmp_path):
    """Red is for missing plans and bottlenecks; a column without any value is left out."""
    text = weeks_page(tmp_path, 8)
    assert "var(--across)" not in re.search(r"\.more-right,\.more-down\{[^}]*\}", text)[0]
    for table in re.findall(r"<table.*?</table>", text, re.S):
        rows = [
            re.findall(r"<td[^>]*>(.*?)</td>", row) for row in re.findall(r"<tr(?: class=[^>]*)?>(.*?)</tr>", table)
        ]
        rows = [row for row in rows if row]
        if 'class="grid' not in table and rows:
            assert all(any(column) for column in zip(*rows))


# In a browser

TRIAL = """<script>
addEventListener('error',function(it){document.body.dataset.error=it.message});
addEventListener('load',function(){var said={};
 function has(it){return Array.from(it.querySelectorAll('th')).some(function(head){return head.textContent==='most'})}
 var button=document.querySelector('.toggle'),section=button?button.closest('section'):Array.from(document.querySelectorAll('section')).filter(has).pop();
 if(button)button.click();
 var heads=Array.from(section.querySelectorAll('th')),place=heads.findIndex(function(it){return it.textContent==='most'});
 function rows(){return Array.from(section.querySelector('tbody').rows).map(function(it){return it.cells[place].textContent})}
 heads[place].firstChild.click();said.up=rows();heads[place].firstChild.click();said.down=rows();
 var find=section.querySelector('[type=search]');
 if(find){find.value=section.querySelector('tbody td').textContent;find.oninput();
  said.found=Array.from(section.querySelector('tbody').rows).every(function(it){
   return Boolean(it.getClientRects().length)===it.textContent.toLowerCase().includes(find.value.toLowerCase())});find.value='';find.oninput()}
 said.shown=Array.from(section.querySelector('tbody').rows).filter(function(it){return it.getClientRects().length}).length;said.rows=rows().length;
 var title=document.querySelector('h1');said.lines=Math.round(title.clientHeight/parseFloat(getComputedStyle(title).lineHeight));
 said.overflow=document.documentElement.scrollWidth-document.documentElement.clientWidth;
 said.dark=matchMedia('(prefers-color-scheme:dark)').matches;
 var texts=Array.from(document.querySelectorAll('svg .node')).filter(function(it){var box=it.querySelector('rect').getBBox();
  return Array.from(it.querySelectorAll('text')).some(function(t){var b=t.getBBox();return b.x<box.x||b.x+b.width>box.x+box.width})});said.wide=texts.length;
 document.body.dataset.said=JSON.stringify(said)})</script>"""


FRAME = """<body style="margin:0"><iframe style="border:0" width=%d height=900 srcdoc="%s"></iframe><script>
addEventListener('load',function(){setTimeout(function(){var its=document.querySelector('iframe').contentDocument.body.dataset;
 if(its.said)document.body.dataset.said=its.said;if(its.error)document.body.dataset.error=its.error},500)})</script>"""


def opened(browser, path, width, is_dark):
    """What the page's trial says in a window of this width, and the errors of its console. A window has at least 500
    pixels, so a narrow page is in a frame."""
    if width < 500:
        framed = FRAME % (width, html.escape(path.read_text(encoding="utf-8"), quote=True))
        path = write(path.parent, f"frame-{path.name}", framed)
    dark = ["--blink-settings=preferredColorScheme=0"] if is_dark else []
    words = [
        browser,
        "--headless=new",
        "--no-sandbox",
        "--disable-gpu",
        "--enable-logging=stderr",
        "--v=0",
        "--virtual-time-budget=3000",
        f"--window-size={max(width, 500)},900",
        *dark,
        "--dump-dom",
        path.as_uri(),
    ]
    done = subprocess.run(words, capture_output=True, encoding="utf-8", errors="replace", timeout=120)
    found = re.search(r'data-said="([^"]*)"', done.stdout)
    errors = re.findall(r"CONSOLE.*", done.stderr) + re.findall(r'data-error="[^"]*"', done.stdout)
    return (html.unescape(found[1]) if found else None), errors


@pytest.mark.parametrize("width, is_dark", [(1440, False), (390, True)])
@pytest.mark.parametrize("name", NAMES)
def test_browser(tmp_path, pytestconfig, name, width, is_dark):
    """In Chromium nothing is wider than the window, a click sorts, hidden rows appear, and no error is reported."""
    if not pytestconfig.getoption("--browser"):
        pytest.skip("without --browser no page is opened")
    browser = shutil.which("chromium") or shutil.which("chromium-browser") or shutil.which("google-chrome")
    assert browser, "no chromium is on the PATH"
    text = run("netflow-report", *words_of(tmp_path, name))[1]
    path = write(tmp_path, f"{name}.html", text.replace("</body>", f"{TRIAL}</body>"))
    said, errors = opened(browser, path, width, is_dark)
    assert errors == []
    assert said, "nothing is said"
    said = json.loads(said)
    assert said["up"] == sorted(said["up"], key=int)
    assert said["down"] == sorted(said["up"], key=int, reverse=True)
    assert said.get("found", True)
    assert said["shown"] == said["rows"]
    assert said["overflow"] == 0
    assert said["lines"] <= 2
    assert said["dark"] == is_dark
    assert said["wide"] == 0, "names wider than their nodes"
