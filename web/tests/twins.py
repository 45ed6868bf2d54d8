"""Compares what the page computes that the Python package computes too: drawings, titles of keys, statements from tables."""
import io
import json
import re
import subprocess
import sys
import tempfile

from web.tests import cases

TOP = cases.TOP


class Twin:
    """The page's modules in node."""

    def __init__(self):
        self.process = subprocess.Popen(["node", str(TOP / "web" / "tests" / "twins.mjs")], stdin=subprocess.PIPE, stdout=subprocess.PIPE, encoding="utf-8")

    def ask(self, **request):
        self.process.stdin.write(json.dumps(request) + "\n")
        self.process.stdin.flush()
        return json.loads(self.process.stdout.readline())

    def close(self):
        self.process.stdin.close()
        self.process.wait(timeout=30)


def compare():
    """Returns how much was compared, and complaints."""
    twin, complaints = Twin(), []
    try:
        counts = [compare_drawings(twin, complaints), compare_headings(twin, complaints), compare_tables(twin, complaints)]
    finally:
        twin.close()
    return f"{counts[0]} drawings, {counts[1]} titles, {counts[2]} tables", complaints


def drawn_models():
    """Yields models to draw: the examples, and random networks of several shapes."""
    for model, data in cases.kept_models():
        yield model, data
    shapes = ("i < j and (i * 7 + j * 3) mod 5 = 0", "(i + j) mod 4 = 1 and i <> j", "j = i + 1 or j = i + 3", "i mod 6 = j mod 6 and i < j")
    for number, shape in enumerate(shapes):
        for size in (6, 14, 40):
            arcs = f"arc X {{i in 1..{size}, j in 1..{size}: {shape}}} >= 0, <= 9 + i, from N[i], to N[j], obj C (i * j mod 11 - {number});"
            ends = f"arc In {{i in 1..3}} >= 0, <= 5, to N[i]; arc Out {{i in {size - 2}..{size}}} >= 0, <= 9, from N[i], obj C -20;"
            yield f"minimize C; node N {{i in 1..{size}}}; {arcs} {ends}".encode(), b""
    # Networks over periods: plants, depots and shops in each.
    for periods in (2, 5, 9):
        nodes = f"node Plant {{p in 1..2, t in 1..{periods}}}: net_out <= 30; node Depot {{d in {{'a', 'b', 'c'}}, t in 1..{periods}}}; node Shop {{s in 1..4, t in 1..{periods}}}: net_in = 2 + (s * t mod 5);"
        arcs = (f"arc Haul {{p in 1..2, d in {{'a', 'b', 'c'}}, t in 1..{periods}}} >= 0, <= 9, from Plant[p,t], to Depot[d,t], obj C 3 * p;"
                f" arc Keep {{d in {{'a', 'b', 'c'}}, t in 1..{periods - 1}}} >= 0, <= 5, from Depot[d,t], to Depot[d,t + 1], obj C 1;"
                f" arc Send {{d in {{'a', 'b', 'c'}}, s in 1..4, t in 1..{periods}}} >= 0, <= 8, from Depot[d,t], to Shop[s,t], obj C s;")
        yield f"minimize C; {nodes} {arcs}".encode(), b""


def compare_drawings(twin, complaints):
    from netflow.reading import output as texts
    from netflow.report import drawing
    count = 0
    for model, data in drawn_models():
        inputs = [b"", False, model, data]
        (status, compiled), (solved, answer) = cases.by_program("compile", inputs), cases.by_program("solve", inputs, "--prices")
        if status:
            continue
        net, plan = texts.read_compiled(compiled.decode()), None
        if solved == 0:
            plan, net.prices_text = texts.split_prices(answer.decode())
            texts.read_plan(plan, net)
            texts.read_prices(net)
        arcs = list(range(len(net.arcs))) if len(net.arcs) <= 60 else [at for at, it in enumerate(net.arcs) if it.flow][:400]
        cut = sorted(texts.read_cut(answer.decode(), net)[1]) if solved == 2 else []
        across = [at for at, it in enumerate(net.arcs) if cut and (it.src in cut) != (it.dst in cut)]
        is_alone = len(arcs) == len(net.arcs)
        if not arcs:
            continue
        wanted = drawing.draw(net, [net.arcs[at] for at in arcs], frozenset(cut), {id(net.arcs[at]) for at in across}, is_alone).svg(False)
        found = twin.ask(kind="draw", compiled=compiled.decode(), plan=plan, worths=[it.worth for it in net.arcs], arcs=arcs, marked=cut, across=across, alone=is_alone)
        count += 1
        if found != re.sub(r' style="--wide:\d+px"', "", wanted):
            complaints.append(f"the drawing of {model[:60]!r} differs from that of netflow-report")
    return count


def compare_headings(twin, complaints):
    from netflow.reading.headings import headings
    count = 0
    for model, _ in cases.kept_models():
        text = model.decode()
        for name in re.findall(r"\barc (\w+)", text):
            for size in (1, 2, 3, 4):
                count += 1
                if twin.ask(kind="headings", model=text, name=name, count=size) != headings(text, name, size):
                    complaints.append(f"the titles of {name} differ from those of Python")
    return count


TABLES = (
    ("grid", ",hill,lake,mill\nnorth,4,6,9\nsouth,7,5,3\n", {"name": "cost"}, ["cost"]),
    ("grid", ",hill,01067\nNew York,4,\n\"O'Hare, IL\",7,-5\n\n", {"name": "cost", "isTurned": True}, ["cost", "--turned"]),
    ("grid", "\ta\tb\n1\t1.25\t3\n2\t1e2\t.5\n", {"name": "p", "factor": 100}, ["p", "--scale", "p=100"]),
    ("grid", ";a;b\r\n1;1,5;3\r\n2;+2;0,25\r\n", {"name": "p", "factor": 4, "hasComma": True}, ["p", "--scale", "p=4", "--comma"]),
    ("grid", ",a\nx,1 090\n", {"name": "p"}, ["p"]),
    ("grid", ",a\nx,#N/A\n", {"name": "p"}, ["p"]),
    ("grid", ",a\nx,10000000000000\n", {"name": "p"}, ["p"]),
    ("grid", ",a\n,3\n", {"name": "p"}, ["p"]),
    ("list", "shop,wants\nhill,30\nlake,45\n\"m\"\"l\",25\n", {"set": "SHOPS"}, ["--set", "SHOPS"]),
    ("list", "a,b,cost,capacity\nx,y,3,4\nx,z,5\nend,7,1,2\n", {"keys": 2}, ["--keys", "2"]),
    ("list", "van\n40\n", {"keys": 0}, ["--keys", "0"]),
    ("list", "a,b c\nx,3\n", {}, []),
    ("list", "shop,name\nhill,fine\nlake,1.50\n", {}, []),
    ("set", "hill\nlake\nhill\n3\n", {"name": "SHOPS"}, ["SHOPS"]),
    ("set", "from,to\na,b\nb,\"c,d\"\n", {"name": "LINKS", "hasHeading": True}, ["LINKS", "--heading"]),
)


def compare_tables(twin, complaints):
    from netflow.errors import ProgramError
    from netflow.tools import sheet
    for kind, text, options, words in TABLES:
        with tempfile.NamedTemporaryFile("w", suffix=".csv", encoding="utf-8", newline="") as file:
            file.write(text)
            file.flush()
            out, err, real = io.StringIO(), io.StringIO(), (sys.stdout, sys.stderr)
            sys.stdout, sys.stderr = out, err
            try:
                # The name comes before the sheet, options after it.
                named = [words[0], file.name, *words[1:]] if kind != "list" else [file.name, *words]
                sheet.main([kind, *named])
                wanted = out.getvalue().rstrip("\n")
            except ProgramError:
                wanted = None
            finally:
                sys.stdout, sys.stderr = real
        found = twin.ask(kind="table", statement=kind, text=text, options=options)
        if found != wanted and not (wanted is None and isinstance(found, dict)):
            complaints.append(f"the table {text!r} gives {found!r}, and netflow-sheet {wanted!r}")
    return len(TABLES)
