"""Measures the page beside the program: a planner's network of 98,000 arcs, and the first answer of the eight cities."""
import statistics
import subprocess
import time

from web.tests import cases, targets

NODES, ARCS, SEED, RUNS = 10_000, 98_000, 1, 5
# The most that the page may take: times the program's time, seconds from pressing Solve, bytes.
MOST_RATIO, MOST_FIRST, MOST_BYTES = 2.5, 0.1, 1_500_000
FIRST = """
const at = id => document.getElementById(id);
at('example').value = 'cities';
at('example').dispatchEvent(new Event('change'));
await new Promise(done => setTimeout(done, 300));
const start = page.performance.now();
at('solve').click();
while (!document.querySelector('#answer .value')) await new Promise(done => page.requestAnimationFrame(done));
return page.performance.now() - start;
"""
WHOLE = """
const at = id => document.getElementById(id);
for (const [name, text] of Object.entries(args[0])) { at(name).value = text; at(name).dispatchEvent(new Event('input')); }
at('answer').replaceChildren();
const start = page.performance.now();
at('solve').click();
while (!document.querySelector('#answer .value')) await new Promise(done => page.requestAnimationFrame(done));
const first = page.performance.now() - start;
while (at('solve').disabled) await new Promise(done => setTimeout(done, 20));
return [first, page.performance.now() - start, at('status').textContent];
"""


def planner():
    """Returns the model and the data of a planner's network."""
    words = [cases.TOP / "bench" / "make_planner"]
    return [subprocess.run([*words, kind, str(NODES), str(ARCS), str(SEED)], check=True, capture_output=True).stdout for kind in ("model", "data")]


def program_seconds(inputs):
    """Returns the seconds of runs of the program."""
    found = []
    for _ in range(RUNS):
        start = time.perf_counter()
        cases.by_program("solve", inputs)
        found.append(time.perf_counter() - start)
    return found


def measure(kind):
    """Returns lines with the figures of a browser, and complaints."""
    model, data = planner()
    inputs = [b"", False, model, data]
    native = program_seconds(inputs)
    target = targets.Page(kind)
    try:
        first = target.browser.run(FIRST) / 1000
        seconds = []
        for _ in range(RUNS):
            status, _ = target.call("solve", inputs)
            seconds.append(target.milliseconds / 1000)
        shown, whole, said = target.browser.run(WHOLE, {"model": model.decode(), "data": data.decode()})
    finally:
        target.close()
    native += program_seconds(inputs)
    ratio = statistics.median(seconds) / statistics.median(native)
    lines = [f"{kind}: eight cities {first * 1000:.0f} ms from pressing Solve to the plan",
             f"{kind}: planner, {ARCS} arcs: {', '.join(f'{it:.2f}' for it in seconds)} s a call; program {', '.join(f'{it:.2f}' for it in native)} s; ratio of medians {ratio:.2f}",
             f"{kind}: planner in the page: plan after {shown / 1000:.1f} s, all tables after {whole / 1000:.1f} s ({said})"]
    complaints = [f"{kind}: status {status}"] if status else []
    complaints += [f"{kind}: {ratio:.2f} times the program's time, more than {MOST_RATIO}"] if ratio > MOST_RATIO else []
    return lines, complaints + ([f"{kind}: {first:.2f} s for the eight cities, more than {MOST_FIRST}"] if first > MOST_FIRST else [])
