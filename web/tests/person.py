"""The page as a person uses it: first steps, typing, dropping, solving, a mistake, no plan, stop, tables, saving, a narrow window, the
keyboard alone."""
import pathlib
import re

TOP = pathlib.Path(__file__).resolve().parent.parent.parent
STATE = """
const at = id => document.getElementById(id);
const end = Date.now() + 60000;
while (at('solve').disabled && Date.now() < end) await new Promise(done => setTimeout(done, 20));
return { status: at('status').textContent, answer: at('answer').innerText, focus: document.activeElement?.id ?? '',
    model: at('model').value, data: at('data').value,
    selected: at('model').value.slice(at('model').selectionStart, at('model').selectionEnd), bad: document.querySelector('.numbers .bad')?.textContent ?? '' };
"""
DROP = """
const files = new DataTransfer();
for (const [name, text] of args[1]) files.items.add(new File([text], name));
document.getElementById(args[0]).dispatchEvent(new DragEvent('drop', { dataTransfer: files, bubbles: true, cancelable: true }));
await new Promise(done => setTimeout(done, 300));
"""
ACCESS = (TOP / "web" / "tests" / "access.js").read_text(encoding="utf-8")
# What the buttons of a part of the page save.
SAVED = """
const made = [], create = page.URL.createObjectURL, click = page.HTMLAnchorElement.prototype.click;
const blobs = [];
page.URL.createObjectURL = blob => { blobs.push(blob); return create.call(page.URL, blob); };
page.HTMLAnchorElement.prototype.click = function () { made.push(this.download); };
for (const it of [...document.querySelectorAll(args[0])]) it.click();
page.URL.createObjectURL = create;
page.HTMLAnchorElement.prototype.click = click;
const texts = [];
for (const it of blobs) texts.push(await it.text());
return made.map((name, here) => [name, texts[here]]);
"""


def ship_model():
    """Returns the model of README.md."""
    return re.search(r"cat ship.mod\n(.*?)\$ ", (TOP / "README.md").read_text(encoding="utf-8"), re.S)[1]


class Person:
    """A person at the page in a browser; keeps what is not as it should be."""

    def __init__(self, browser, by_program, shots=None):
        self.browser, self.by_program, self.shots, self.complaints, self.steps = browser, by_program, shots, [], 0

    def see(self):
        return self.browser.run(STATE)

    def expect(self, what, is_so, seen=""):
        self.steps += 1
        if not is_so:
            self.complaints.append(f"{what}: {str(seen)[:400]}")

    def shot(self, name):
        if self.shots:
            self.browser.shot(self.shots / f"{name}.png", True)

    def focus(self, name):
        self.browser.run("document.getElementById(args[0]).focus(); document.getElementById(args[0]).select?.();", name)

    def type(self, name, text):
        """Replaces the text of an editor as a person does: selects all, and writes."""
        self.focus(name)
        if text:
            self.browser.write(text)
        else:
            self.browser.run("const it = document.getElementById(args[0]); it.value = ''; it.dispatchEvent(new Event('input'));", name)

    def solve(self):
        """Presses Ctrl+Enter, and waits for the answer."""
        self.browser.press("Enter", control=True)
        return self.see()

    def click(self, selector):
        self.browser.run("document.querySelector(args[0]).click();", selector)

    def use(self):
        for step in (self.first_steps, self.own_model, self.mistake, self.no_plan, self.files, self.table_file, self.examples, self.documents, self.tables,
                     self.saves, self.stops, self.keeps, self.keyboard, self.narrow, self.looks):
            step()
        return self.complaints

    def first_steps(self):
        """The page as it opens: it says how to begin, and its small model has a plan."""
        self.shot("first_steps")
        self.expect("first steps", self.is_in_view("#welcome"))
        self.click("#first")
        seen = self.see()
        self.expect("the small model", seen["model"] == ship_model() and seen["focus"] == "solve", seen)
        self.browser.press("Enter")
        self.expect("its plan", "Cost = 120" in self.see()["answer"] and not self.is_in_view("#welcome"), self.see())

    def own_model(self):
        self.type("model", ship_model())
        seen = self.solve()
        self.expect("a model of one's own", "Cost = 120" in seen["answer"] and seen["status"].startswith("Optimal plan"), seen)
        self.expect("the plan has its grid and its nodes", "Grid" in seen["answer"] and "Plant['Linz']" in seen["answer"], seen)
        self.expect("the network is drawn", self.browser.run("return document.querySelectorAll('.picture .arc path').length;") == 4)
        self.shot("plan")

    def is_in_view(self, selector):
        """Returns whether the start of an element is in the window."""
        return self.browser.run("const box = document.querySelector(args[0])?.getBoundingClientRect(); return Boolean(box?.height) && box.top >= -1 && box.top < innerHeight;", selector)

    def mistake(self):
        self.type("model", ship_model().replace("to Shop[s]", "to Shops[s]"))
        seen = self.solve()
        self.expect("a mistake at its line", seen["status"] == "Error in the model, line 5" and seen["bad"] == "5" and seen["selected"] == "Shops", seen)
        self.expect("the explanation", "E12 Undeclared" in seen["answer"] and "case matters" in seen["answer"] and seen["focus"] == "model", seen)
        self.type("model", ship_model())
        self.type("data", "param nothing := " + " " * 300 + "3;")
        seen = self.solve()
        self.expect("a mistake in the data", seen["status"].startswith("Error in the data, line 1") and seen["focus"] == "data", seen)
        self.shot("mistake")
        self.type("data", "")

    def no_plan(self):
        self.type("model", ship_model().replace("orders := 40", "orders := 95"))
        seen = self.solve()
        self.expect("no plan", "No plan exists" in seen["answer"] and "Shop['Wien']: 95 needed, 90 can come at most: 5 short" in seen["answer"], seen)
        self.expect("the arcs that limit it", "Ship['Linz','Wien'] from Plant['Linz'], which carries 0 to 45" in seen["answer"], seen)
        self.shot("no_plan")

    def files(self):
        bread = TOP / "examples" / "bread"
        texts = [(name, (bread / name).read_text(encoding="utf-8")) for name in ("bread.dat", "bread.mod")]
        self.browser.run(DROP, "model-box", texts)
        seen = self.see()
        self.expect("dropped files go by their names", seen["model"] == texts[1][1] and seen["data"] == texts[0][1])
        self.expect("the page says what it opened", seen["status"].startswith("Opened bread.mod and bread.dat. Press Solve."), seen)
        self.click("#solve")
        self.expect("the answer of dropped files", "Total = 440" in self.see()["answer"])
        saved = self.browser.run(SAVED, "#model-save, #data-save")
        self.expect("files are saved under their names", saved == [["bread.mod", texts[1][1]], ["bread.dat", texts[0][1]]], saved)
        self.browser.run(DROP, "data-box", [("both.mod", f"{texts[1][1]}\ndata; # the numbers\n{texts[0][1]}end;\n")])
        seen = self.see()
        self.expect("a file with a model and its data", seen["model"].strip() == texts[1][1].strip() and seen["data"].endswith(texts[0][1]), seen)

    def table_file(self):
        """The costs of the bread as a table, in place of the statement of the data."""
        bread = TOP / "examples" / "bread"
        data = (bread / "bread.dat").read_text(encoding="utf-8")
        rest = re.sub(r"(?s)param cost.*?;\n?", "", data)
        self.type("data", rest)
        self.browser.run(DROP, "data-box", [("costs.csv", (bread / "costs.csv").read_text(encoding="utf-8"))])
        shown = self.browser.run("return [document.getElementById('table-dialog').open, document.getElementById('table-preview').textContent];")
        self.expect("the dialog for a table", shown[0] and shown[1].startswith("param cost: hill lake mill :="), shown)
        self.click("#table-add")
        self.browser.run("await new Promise(done => setTimeout(done, 200));")
        self.focus("data")
        seen = self.solve()
        self.expect("a table as data", "Total = 440" in seen["answer"] and "param cost: hill lake mill :=" in seen["data"], seen)

    def examples(self):
        self.browser.run("const it = document.getElementById('example'); it.value = 'cities'; it.dispatchEvent(new Event('change'));")
        self.expect("an example", "set LINKS" in self.see()["model"] and self.browser.run("return document.getElementById('example').value;") == "cities")
        self.click("#status button")
        self.expect("one's own text comes back", "param cost: hill lake mill :=" in self.see()["data"])
        self.expect("no example is chosen any longer", self.browser.run("return document.getElementById('example').value;") == "")
        for name in self.browser.run("return [...document.getElementById('example').options].map(it => it.value).filter(Boolean);"):
            self.browser.run("const it = document.getElementById('example'); it.value = args[0]; it.dispatchEvent(new Event('change')); document.getElementById('solve').click();", name)
            seen = self.see()
            self.expect(f"the example {name}", seen["status"].startswith(("Optimal plan", "No plan exists")), seen)

    def documents(self):
        """The links of the documents lead to their headings, and each model in them has an answer."""
        found = self.browser.run("""
            const found = [];
            for (const link of document.querySelectorAll('footer a')) {
              link.click();
              const place = document.getElementById(link.getAttribute('href').slice(1));
              if (!place?.getClientRects().length) found.push(link.outerHTML);
            }
            const count = document.querySelectorAll('footer pre + button').length;
            scrollTo(0, 0);
            return [count, found];""")
        self.expect("links of the documents", not found[1], found)
        self.expect("models of the documents", found[0] > 8, found)
        for number in range(found[0]):
            self.browser.run("document.querySelectorAll('footer pre + button')[args[0]].click(); document.getElementById('solve').click();", number)
            seen = self.see()
            self.expect(f"the model {number} of the documents", seen["status"].startswith(("Optimal plan", "No plan exists")), seen)

    def tables(self):
        """A plan with many rows: all are there, a heading sorts, words find."""
        model = "minimize C; node A; node B; arc X {i in 1..3000} >= 0, <= i, from A, to B, obj C 1; arc Y {i in 1..2, j in 1..2} >= i * j, <= 9, from B, to A, obj C j;"
        self.type("data", "")
        self.type("model", model)
        seen = self.solve()
        self.expect("3,000 arcs", "3004 arcs" in seen["answer"], seen)
        rows = self.browser.run("""
            const view = document.querySelector('.table .view'), head = view.querySelectorAll('th button'), found = new Set();
            head[0].click();
            head[0].click();
            const first = view.querySelector('tbody tr:not([hidden]) td').textContent;
            for (let at = 0; at <= view.scrollHeight; at += 300) {
              view.scrollTop = at;
              view.dispatchEvent(new Event('scroll'));
              for (const row of view.querySelectorAll('tbody tr[aria-rowindex]')) found.add(row.cells[0].textContent);
            }
            const find = document.querySelector('.table input[type=search]');
            find.value = '2987';
            find.dispatchEvent(new Event('input'));
            return [first, found.size, document.querySelector('.table .tools .dim').textContent];""")
        self.expect("sort, all rows, find", rows == ["3000", 3000, "1 of 3000 rows"], rows)

    def saves(self):
        model = ship_model()
        self.type("model", model)
        self.solve()
        saved = dict(self.browser.run(SAVED, ".saving button"))
        status, text = self.by_program("solve", [b"", False, model.encode(), b""])
        self.expect("the text is the program's", (0, saved.get("plan.txt")) == (status, text.decode()), saved.get("plan.txt"))
        self.expect("the CSV", saved.get("plan.csv", "").startswith("arc,key 1,key 2,flow,lower,upper,price,from,to\nShip,Linz,Wien,0,0,45,3,"), saved.get("plan.csv"))
        self.expect("the page", "Cost = 120" in saved.get("plan.html", "") and "<svg" in saved.get("plan.html", ""), saved.keys())

    def stops(self):
        """A solve of some seconds is stopped; the next one works."""
        arcs = "arc X {i in 1..120, j in 1..120: i <> j} >= 0, <= 999, from N[i], to N[j], obj C ((i * 7919 + j * 104729) mod 9973);"
        self.type("model", f"minimize C; node N {{i in 1..120}}: net_in = (if i = 1 then -5000 else if i = 120 then 5000 else 0); {arcs}" + "check {i in 1..99000}: sum {j in 1..40} j mod 7 > 0;")
        self.focus("model")
        self.browser.press("Enter", control=True)
        state = self.browser.run("return [document.getElementById('solve').disabled, document.getElementById('stop').disabled];")
        self.click("#stop")
        seen = self.see()
        self.expect("stop", state == [True, False] and seen["status"].startswith("Stopped"), (state, seen["status"]))
        self.type("model", ship_model())
        self.expect("the solve after a stop", "Cost = 120" in self.solve()["answer"])
        # Stopped after the plan is there and before its drawing is.
        self.type("model", "minimize C; node A; node B; arc X {i in 1..9000} >= 0, <= i, from A, to B, obj C 1;")
        self.browser.run("""
            const stop = document.getElementById('stop'), answer = document.getElementById('answer');
            answer.replaceChildren();
            new MutationObserver((_, observer) => { observer.disconnect(); setTimeout(() => stop.click()); }).observe(answer, { childList: true });
            document.getElementById('solve').click();""")
        seen = self.see()
        self.expect("stop after the plan", seen["status"] == "Stopped. The answer is complete, and its drawing is missing." and "C = 0" in seen["answer"], seen["status"])

    def warns(self):
        """Returns whether the browser would ask before it closes the page."""
        return self.browser.run("const event = new page.Event('beforeunload', { cancelable: true }); page.dispatchEvent(event); return event.defaultPrevented;")

    def keeps(self):
        """Work is kept only if the box is ticked, and the browser asks before it closes a page with work that is nowhere else."""
        self.type("model", ship_model())
        asks = [self.warns()]
        self.click("#keep")
        asks.append(self.warns())
        self.click("#keep")
        self.browser.run(SAVED, "#model-save, #data-save")
        self.expect("the browser asks before work is lost", [*asks, self.warns()] == [True, False, False], asks)
        before = self.browser.run("return localStorage.length;")
        self.click("#keep")
        kept = self.browser.run("return localStorage.getItem('netflow');")
        self.click("#keep")
        after = self.browser.run("return localStorage.length;")
        self.expect("the work is kept if it is asked for", before == 0 and kept and "Plant" in kept and after == 0, (before, kept, after))

    def keyboard(self):
        """From the model, Tab reaches Solve, and Enter presses it."""
        self.focus("model")
        reached = []
        for _ in range(12):
            self.browser.press("Tab")
            reached.append(self.browser.run("return document.activeElement.id;"))
            if reached[-1] == "solve":
                break
        self.expect("Tab reaches Solve", reached[-1] == "solve" and "data" in reached, reached)
        self.browser.press("Enter")
        seen = self.see()
        self.expect("Enter on Solve", "Cost = 120" in seen["answer"], seen)

    def narrow(self):
        """In a narrow window the answer moves into view, and a mistake does not take the focus."""
        self.browser.resize(400, 800)
        for title, model, shown in (("plan", ship_model(), ".value"), ("mistake", "node ;", ".error")):
            self.type("model", model)
            self.browser.run("document.getElementById('solve').scrollIntoView({ block: 'end' }); document.getElementById('solve').focus(); document.getElementById('solve').click();")
            seen = self.see()
            self.expect(f"{title} in a narrow window", self.is_in_view(shown) and seen["focus"] != "model", seen)
        self.click(".error button")
        seen = self.see()
        self.expect("the line in a narrow window", self.is_in_view("#model") and seen["focus"] == "model" and seen["selected"] == ";", seen)
        self.browser.resize(1200, 900)

    def looks(self):
        """The rules of access.js in light and dark, from 1,200 to 320 pixels, which is a window of 1,280 at four times its size."""
        for width in (1200, 400, 320):
            self.browser.resize(width, 900)
            for is_dark in (False, True) if hasattr(self.browser, "set_dark") else (False,):
                if hasattr(self.browser, "set_dark"):
                    self.browser.set_dark(is_dark)
                for title, model in (("plan", ship_model()), ("no_plan", ship_model().replace(":= 40", ":= 95")), ("mistake", "node ;")):
                    self.type("model", model)
                    self.solve()
                    found = self.browser.run(ACCESS)
                    self.expect(f"{title}, {width} pixels, {'dark' if is_dark else 'light'}", not found, found)
                    self.shot(f"{title}_{width}_{'dark' if is_dark else 'light'}")
        self.browser.resize(1200, 900)
