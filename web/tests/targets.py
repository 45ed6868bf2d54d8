"""What runs the module in a test: node, and the page in a browser. Each answers calls with a status and a text."""
import base64
import json
import pathlib
import subprocess
import tempfile

from web.build import outputs
from web.tests import browsers

HERE = outputs.TOP / "web" / "tests"


def encoded(raw):
    return base64.b64encode(raw).decode("ascii")


def packed(inputs):
    return [it if isinstance(it, bool) else encoded(it) for it in inputs]


class Node:
    """The module in node, one instance for each call."""

    def __init__(self, is_wide=False):
        self.name, self.room = "node, 64-bit pointers" if is_wide else "node", tempfile.TemporaryDirectory()
        wasm, flags = outputs.OUT / outputs.WASM32, []
        if is_wide:
            wasm, flags = pathlib.Path(self.room.name) / outputs.WASM64, memory64_flags()
            wasm.write_bytes(with_short_table((outputs.OUT / outputs.WASM64).read_bytes()))
        self.process = subprocess.Popen(["node", *flags, str(HERE / "calls.mjs"), str(wasm)], stdin=subprocess.PIPE, stdout=subprocess.PIPE, encoding="ascii")

    def ask(self, message):
        self.process.stdin.write(json.dumps(message) + "\n")
        self.process.stdin.flush()
        return json.loads(self.process.stdout.readline())

    def call(self, command, inputs, spare=None):
        """Calls the module; `spare` is the most memory by which it can grow, in pages of 64 KiB."""
        small = {} if spare is None else {"module": spare + 1, "bytes": encoded(with_memory(spare))}
        status, text = self.ask({"name": f"netflow_{command}", "inputs": packed(inputs), **small})
        return status, base64.b64decode(text)

    def close(self):
        self.process.stdin.close()
        self.process.wait(timeout=30)
        self.room.cleanup()


def memory64_flags():
    """Returns the flags with which node takes modules with 64-bit addresses: node 20 needs one, and node 24 none."""
    flag = "--experimental-wasm-memory64"
    return [flag] * (flag in subprocess.run(["node", "--v8-options"], capture_output=True, text=True).stdout)


BEGIN = "await page.netflow.ready; return document.body.dataset.ready;"
# A call of the page's own module, or of another one, which gets a worker when it is named for the first time.
CALL = """
const [name, given, module, source] = args, bytes = text => page.Uint8Array.from(atob(text), letter => letter.charCodeAt(0));
const inputs = page.Array.from(given, it => typeof it === 'boolean' ? it : bytes(it)), others = page.testCalls ??= new page.Map();
if (source) others.set(module, new page.netflow.Calls(page.netflow.workerSource, bytes(source)));
const isSmall = typeof module === 'number', calls = module === null ? page.netflow : others.get(module);
const reply = await calls.call(name, inputs, isSmall ? 4096 : undefined);
let text = '';
for (let at = 0; at < reply.text.length; at += 32768) text += String.fromCharCode(...reply.text.subarray(at, at + 32768));
return [reply.status, btoa(text), reply.milliseconds];
"""


class Page:
    """The page in a browser. With `is_wide`, calls go to the module with 64-bit pointers, in a worker of the page."""

    def __init__(self, kind, is_wide=False, page=outputs.OUT / outputs.PAGE):
        self.name, self.browser, self.milliseconds = f"{kind}, 64-bit pointers" if is_wide else kind, browsers.started(kind), 0.0
        self.is_wide, self.known = is_wide, set()
        self.browser.open(page.as_uri())
        assert self.browser.run(BEGIN) == "true", f"{kind}: the page is not ready"

    def call(self, command, inputs, spare=None):
        """Calls the module; `spare` is the most memory by which it can grow, in pages of 64 KiB."""
        module = "wide" if self.is_wide else spare
        source = "" if module in (None, *self.known) else encoded((outputs.OUT / outputs.WASM64).read_bytes() if self.is_wide else with_memory(spare))
        self.known.add(module)
        status, text, self.milliseconds = self.browser.run(CALL, f"netflow_{command}", packed(inputs), module, source)
        return status, base64.b64decode(text)

    def close(self):
        self.browser.close()


def number_at(raw, at):
    """Returns the number in LEB128 at a place, and the place after it."""
    value = shift = 0
    while True:
        value, shift, more, at = value | (raw[at] & 127) << shift, shift + 7, raw[at] & 128, at + 1
        if not more:
            return value, at


def encoded_number(value):
    found = b""
    while True:
        found += bytes([value & 127 | (128 if value > 127 else 0)])
        value >>= 7
        if not value:
            return found


def with_section(raw, kind, change):
    """Returns a module with the body of a section changed."""
    at, found, is_there = 8, raw[:8], False
    while at < len(raw):
        this, start = raw[at], at
        size, at = number_at(raw, at + 1)
        if this == kind:
            body, is_there = change(raw[at:at + size]), True
            found += bytes([kind]) + encoded_number(len(body)) + body
        else:
            found += raw[start:at + size]
        at += size
    assert is_there, f"the module has no section {kind}"
    return found


def with_memory(spare, wasm=outputs.OUT / outputs.WASM32):
    """Returns the module whose memory can grow by so many pages. Its memory section has the flag 1, the first size, and the limit."""
    def limited(body):
        assert body[:2] == b"\x01\x01", "the module has another memory section than this test knows"
        first, _ = number_at(body, 2)
        return b"\x01\x01" + encoded_number(first) + encoded_number(first + spare)
    return with_section(wasm.read_bytes(), 5, limited)


def with_short_table(raw):
    """Returns the module with a table of 32-bit indices in place of one with 64-bit indices, which node 20 does not take. Nothing uses
    the table: it has one element, which is never set."""
    def shortened(body):
        # One table of function references, with a limit and 64-bit indices.
        assert body == b"\x01\x70\x05\x01\x01", "the module has another table than this test knows"
        return b"\x01\x70\x01\x01\x01"
    return with_section(raw, 4, shortened)
