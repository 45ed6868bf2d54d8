"""Makes netflow.html of the page's sources, the WebAssembly module, the examples and the explanations of errors.

The page's scripts are JavaScript modules in web/page. Here they become one script, because a page that is opened from a file can load
no other: imports and the word `export` go, and a name that two modules declare is an error.
"""
import base64
import hashlib
import json
import pathlib
import re
from html import escape

from web.build.markdown import Document, rendered

TOP = pathlib.Path(__file__).resolve().parent.parent.parent
PAGE = TOP / "web" / "page"
ERRORS = TOP / "docs" / "reference" / "errors.md"
GUIDE = TOP / "docs" / "guide" / "browser.md"
# The documents that the page contains, by the names of their anchors, with their titles.
DOCUMENTS = {
    "modelling": (TOP / "docs" / "guide" / "modelling.md", "Modelling by example"),
    "language": (TOP / "docs" / "reference" / "language.md", "Language"),
    "from-ampl": (TOP / "docs" / "guide" / "from-ampl.md", "From AMPL"),
}
IMPORT = re.compile(r"(?m)^import \{([^}]*)\} from '\./(\w+)\.mjs';\n")
DECLARED = re.compile(r"(?m)^(?:export )?(?:async )?(?:class|function|const|let) (\w+|\{[^}]*\}|\[[^\]]*\])")
SECTION = re.compile(r"(?ms)^## (E\d\d) \w+\n(.*?)(?=^## |\Z)")


class Wrong(Exception):
    """A source of the page that has another form than this script takes."""


def bundled(name, known=None):
    """Returns the module and all that it imports as one script, each once and after what it imports."""
    known = {} if known is None else known
    text = (PAGE / f"{name}.mjs").read_text(encoding="utf-8")
    if re.search(r"(?m)^(?:import|export) (?!\{[^}]*\} from|class |function |async function |const )", text):
        raise Wrong(f"{name}.mjs: an import or export that is not known")
    known[name] = None
    parts = [bundled(other, known) for _, other in IMPORT.findall(text) if other not in known]
    for names, other in IMPORT.findall(text):
        exported = set(re.findall(r"(?m)^export (?:async )?(?:class|function|const) (\w+)", (PAGE / f"{other}.mjs").read_text(encoding="utf-8")))
        missing = [it.strip() for it in names.split(",") if it.strip() not in exported]
        if missing:
            raise Wrong(f"{name}.mjs: {other}.mjs does not export {missing[0]}")
    own = re.sub(r"(?m)^export ", "", IMPORT.sub("", text))
    return "".join([*parts, own])


def script_of(name):
    """Returns the script of a page or worker, which declares each name once."""
    text = bundled(name)
    names = [it for found in DECLARED.findall(text) for it in re.findall(r"\w+", found)]
    # Lines such as `const A = 1, B = 2;` declare more names, which a second declaration of the same name makes a syntax error anyway.
    twice = {it for it in names if names.count(it) > 1}
    if twice:
        raise Wrong(f"two modules declare {', '.join(sorted(twice))}")
    return f"'use strict';\n{text}"


def links_of(document):
    """Returns the function from a link's target in this document to the anchor in the page, or None."""
    def link(target):
        path, _, heading = target.partition("#")
        file = (document.parent / path).resolve() if path else document
        name = next((it for it, (other, _) in DOCUMENTS.items() if other == file), None)
        return f"#{name}{'-' * bool(heading)}{heading}" if name else None
    return link


def documents():
    """Returns the documents as HTML, each in an element that opens, and checks the links between them."""
    parts = []
    for name, (file, title) in DOCUMENTS.items():
        text = file.read_text(encoding="utf-8").partition("\n")[2]
        parts.append(f'<details id="{name}"><summary>{title}</summary>\n{Document(links_of(file), name).rendered(text)}\n</details>')
    return "\n".join(parts)


def check_links(text):
    """Raises Wrong if a link of the page leads nowhere."""
    missing = set(re.findall(r'href=\\?"#([^"\\]*)', text)) - set(re.findall(r' id="([^"]*)"', text))
    if missing:
        raise Wrong(f"a link leads to {min(missing)}, and nothing in the page has this anchor")


def explanations():
    """Returns the text of each error code as HTML."""
    document = Document(links_of(ERRORS))
    return {code: document.rendered(text) for code, text in SECTION.findall(ERRORS.read_text(encoding="utf-8"))}


def first_model(guide):
    """Returns the model of the guide's first steps."""
    return guide.split("```")[1].lstrip("\n")


def examples():
    """Returns the examples that netflow solves: model, data, objective, and the first sentence about them."""
    found = {}
    for folder in sorted((TOP / "examples").iterdir()):
        model, data = folder / f"{folder.name}.mod", folder / f"{folder.name}.dat"
        if not (model.exists() and data.exists() and (folder / "solve.txt").exists()):
            continue
        words = (folder / "README.md").read_text(encoding="utf-8").split("\n\n")[1]
        title = re.sub(r"\[([^\]]*)\]\([^)]*\)", r"\1", re.split(r"(?<=[.:]) ", words)[0]).replace("`", "").rstrip(":") .rstrip(".") + "."
        chosen = folder / "objective"
        found[folder.name] = {"model": model.read_text(encoding="utf-8"), "data": data.read_text(encoding="utf-8"), "title": title,
                              "objective": chosen.read_text(encoding="utf-8").strip() if chosen.exists() else ""}
    return found


def drawing_style():
    """Returns the style of drawings, which is that of netflow-report."""
    text = (TOP / "python" / "netflow" / "report" / "style.py").read_text(encoding="utf-8")
    found = re.search(r'(?s)^DRAWING_STYLE = """(.*?)"""', text, re.M)
    if not found:
        raise Wrong("python/netflow/report/style.py has no DRAWING_STYLE")
    return found[1]


def hashed(text):
    return f"'sha256-{base64.b64encode(hashlib.sha256(text.encode('utf-8')).digest()).decode('ascii')}'"


def closed(text):
    """Returns a text that cannot end the element that it is in."""
    if re.search(r"(?i)</(?:script|style)", text):
        raise Wrong("a script or style contains the end of its element")
    return text


def page(wasm, version, notices):
    """Returns the page with the module and the notices of the libraries that are linked into it."""
    style = closed(drawing_style() + (PAGE / "style.css").read_text(encoding="utf-8"))
    script, worker = closed(script_of("main")), closed(script_of("worker"))
    # Only this script and this style run. No directive allows a request: default-src 'none' forbids all of them.
    policy = f"default-src 'none'; script-src {hashed(script)} 'wasm-unsafe-eval'; style-src {hashed(style)}; worker-src blob:; base-uri 'none'; form-action 'none'"
    guide = GUIDE.read_text(encoding="utf-8").partition("<!-- page: begin -->")[2].partition("<!-- page: end -->")[0]
    if not guide:
        raise Wrong("docs/guide/browser.md has no part for the page")
    values = {"errors": explanations(), "examples": examples(), "first": first_model(guide)}
    parts = json.dumps(values, ensure_ascii=False, sort_keys=True).replace("</", "<\\/")
    values = {"POLICY": policy, "STYLE": style, "SCRIPT": script, "WORKER": worker, "MODULE": base64.b64encode(wasm).decode("ascii"), "PARTS": parts,
              "HELP": rendered(guide), "DOCUMENTS": documents(), "NOTICES": escape(notices), "VERSION": version, "SUM": hashlib.sha256(wasm).hexdigest()}
    text = (PAGE / "page.html").read_text(encoding="utf-8")
    made = re.sub(r"@([A-Z]+)@", lambda found: values[found[1]], text)
    check_links(made)
    return made
