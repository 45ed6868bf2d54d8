"""Functions in the source text of a crate: copies under other names, with their proofs, so that two mutants of a
function fit into one check; and stubs instead of bodies, so that checking their callers costs less.

Sources are formatted by rt fmt: a function ends at the first brace at its own margin, or at an empty body `{}`. A copy
goes to the end of its file, or to the head of its type's impl. A function can be copied if it is not a method of a
trait, is in no cycle of calls, and no proof but its own cites its goals. A stub keeps the signature and the contract,
so the goals of its callers stay the same; its own goals cannot be proved. The functions of a cycle become stubs
together, if all of them can. Stubs that nothing names are removed.
"""
import pathlib
import re
import shutil

FUNCTION = re.compile(r"(?m)^( *)(?:pub(?:\([^)]*\))?\s+)?(?:final\s+)?(const\s+)?(?:extern \S+ )?fn (\w+)")
IMPL = re.compile(r"(?m)^impl(?:<[^{]*?>)?\s+(?:([\w:]+)(?:<[^{]*?>)?\s+for\s+)?(\w+)[^{]*\{\n")
CYCLE = re.compile(r"(?m)^ *#\[cycle\((\w+)\)\]\n")
STUB = "unreachable!()"
# The files of a function's own proof; other files in its folder hold lemmas.
PROOF = ("Answers.antt", "Invariants.antt", "Proof.antt")
# The one goal of a stub is that control never reaches it. An answer that fails saves the search for one.
STUB_ANSWER = """use Rattle.{}.Goals as goal

pub unreachable-requires : goal.unreachable-requires
unreachable-requires c = tt
"""


class Function:
    """A function of a file: its text from its attributes to its end, and its owner, a type or a module."""

    def __init__(self, file, text, header):
        self.file, self.name, self.margin = file, header[3], header[1]
        above = max(text.rfind("\n\n", 0, header.start()) + 2, text.rfind("{\n", 0, header.start()) + 2)
        # The body ends at a lone brace, or is `{}` at the end of the signature's line.
        end = re.compile(r".*\{\}\n").match(text, header.start()) or re.compile(
            rf"\n{self.margin}(?:\{{\}}|\}})\n"
        ).search(text, header.start())
        self.start, self.end = above, end.end() if end else above
        self.text = text[self.start : self.end]
        self.impl = (
            list(IMPL.finditer(text, 0, header.start()))[-1]
            if self.margin and IMPL.search(text, 0, header.start())
            else None
        )
        module = file[len("src/") : -len(".rt")]
        self.path = [part for part in module.split("/") if part not in ("lib", "main")] + (
            [self.impl[2]] if self.impl else []
        )
        self.is_const = bool(header[2])
        # The signature and the contract, or None if they cannot be found.
        self.head = self.head_of(text[header.start() : self.end])
        self.cycle = (CYCLE.search(self.text) or {1: None})[1]

    @staticmethod
    def at(file, text, at):
        """Returns the function that contains a position of a file."""
        return Function(file, text, list(FUNCTION.finditer(text, 0, at))[-1])

    @staticmethod
    def all_of(file, text):
        """Yields the functions of a file, those of an impl included."""
        for header in FUNCTION.finditer(text):
            function = Function(file, text, header)
            outside = (
                not function.margin or function.impl and text.find("\n}\n", function.impl.start()) > header.start()
            )
            if len(function.margin) == (4 if function.impl else 0) and outside:
                yield function

    def head_of(self, whole):
        """Returns the text before the body, which begins at a lone brace after a contract, else at the end of the
        signature's line."""
        line, contract = re.search(r"[{;]\n", whole), re.search(
            rf"(?m)^{self.margin}    (?:requires|ensures|ghost)\b", whole
        )
        if contract and (not line or contract.start() < line.start()):
            line = re.search(rf"(?m)^{self.margin}\{{\n", whole)
        return whole[: line.end()] if line and line[0] != ";\n" else None

    def owner(self):
        """Returns the prover's name for the impl that it is in: the type, with a capital letter also if it is
        primitive, and the trait."""
        return f"{self.impl[2][0].upper()}{self.impl[2][1:]}{(self.impl[1] or '').split('::')[-1]}"

    def qualified(self, name):
        """Returns the prover's name for a function of this name next to this one: a method by its impl."""
        if self.impl:
            return f"{self.owner()}::{name}"
        return "::".join([*self.path, name])

    def folder(self, room, name):
        return pathlib.Path(room, "proofs", *self.path, name)

    def can_be_copied(self, room):
        alone = self.text and not (self.impl and self.impl[1]) and not self.cycle
        return bool(alone) and not self.is_cited(room)

    def mentions(self):
        return re.compile(rf"\b(proofs|contracts)\.{re.escape('.'.join([*self.path, self.name]))}(?!\w)")

    def is_cited(self, room):
        """Returns whether a proof other than its own cites its goals or the records of its steps."""
        own = self.folder(room, self.name)
        others = (path for path in pathlib.Path(room, "proofs").rglob("*.antt") if own not in path.parents)
        return any(
            match[1] == "proofs"
            for file in others
            for match in self.mentions().finditer(file.read_text(encoding="utf-8"))
        )

    def copy(self, room, text, name):
        """Adds a function of this name and text to the copy of the crate, with the proof of this one."""
        path = pathlib.Path(room, self.file)
        whole, made = path.read_text(encoding="utf-8"), re.sub(rf"\bfn {self.name}\b", f"fn {name}", text, count=1)
        if self.impl:
            whole = whole.replace(self.impl[0], self.impl[0] + made + "\n", 1)
        else:
            whole += "\n" + made
        path.write_text(whole, encoding="utf-8")
        if self.folder(room, self.name).is_dir():
            shutil.copytree(self.folder(room, self.name), self.folder(room, name))
            for file in self.folder(room, name).glob("*.antt"):
                dotted = ".".join([*self.path, name])
                file.write_text(
                    self.mentions().sub(lambda match: f"{match[1]}.{dotted}", file.read_text(encoding="utf-8")),
                    encoding="utf-8",
                )

    def can_be_stub(self):
        """Returns whether any body will do: not one that the compiler evaluates or infers a type from, and not
        `main`."""
        plain = self.head and self.text and not self.is_const and not re.search(r"->[^{]*\bimpl\b", self.head)
        return bool(plain) and (self.name, self.file) != ("main", "src/main.rt")

    def write_failing_answer(self, room, crate):
        """Writes an answer that fails for the stub's goal, if the folder of its proof is known."""
        parts = self.proof_path()
        if parts:
            folder = pathlib.Path(room, "proofs", *parts)
            folder.mkdir(parents=True, exist_ok=True)
            (folder / "Answers.antt").write_text(
                STUB_ANSWER.format(".".join([crate, "proofs", *parts])), encoding="utf-8"
            )

    def proof_path(self):
        """Returns the folders of its proof, or None for a method of a trait with arguments."""
        if not self.impl or not self.impl[1]:
            return [*self.path, self.name]
        if re.match(rf"(?m)^impl(?:<[^{{]*?>)?\s+{re.escape(self.impl[1])}<", self.impl[0]):
            return None
        return [*self.path[:-1], self.owner(), self.name]

    def stub(self):
        """Returns its text with a stub as its body, outside any cycle."""
        whole = self.text[: self.text.index(self.head) + len(self.head)]
        return f"{CYCLE.sub('', whole)}{self.margin}    {STUB}\n{self.margin}}}\n"


def without_main(room, names):
    """Removes `main` from the copy unless it is one of these: a crate without it is checked as a library, and nothing
    is linked."""
    path = pathlib.Path(room, "src", "main.rt")
    text = path.read_text(encoding="utf-8") if path.is_file() else ""
    header = re.search(r"(?m)^fn main\b", text)
    if header and "main" not in names:
        main = Function.at("src/main.rt", text, header.end())
        path.write_text(text[: main.start] + text[main.end :], encoding="utf-8")


def remove_proof(folder):
    """Removes the proof in this folder."""
    for name in PROOF:
        pathlib.Path(folder, name).unlink(missing_ok=True)


# An import of the crate's own names: `use a::b;` or `use a::b::{c, d};`.
IMPORT = re.compile(r"(?m)^( *(?:pub(?:\([^)]*\))? )?use (?:\w+::)*)(\w+|\{[^{}]*\});\n")


def without(imported, removed):
    """Returns a line of imports without the removed names."""
    names = [name.strip() for name in imported[2].strip("{}").split(",") if name.strip()]
    left = [name for name in names if name not in removed]
    if left == names:
        return imported[0]
    return f"{imported[1]}{{{', '.join(left)}}};\n" if left else ""


def without_functions(text, functions):
    for function in sorted(functions, key=lambda stub: -stub.start):
        text = text[: function.start] + text[function.end :]
    return text


def drop_unnamed(room, stubs):
    """Removes stubs that only imports and contracts of other stubs name, since reading them takes time; returns the
    other stubs. Names of modules and of trait methods stay."""
    texts = {file: file.read_text(encoding="utf-8") for file in pathlib.Path(room, "src").rglob("*.rt")}
    stubbed = {
        file: [function for function in Function.all_of(str(file.relative_to(room)), text) if STUB in function.text]
        for file, text in texts.items()
    }
    bodies = {file: without_functions(text, stubbed[file]) for file, text in texts.items()}
    named = {word for text in bodies.values() for word in re.findall(r"\w+", IMPORT.sub("", text))}
    named |= {file.stem for file in texts} | {file.parent.name for file in texts}
    cited = "".join(path.read_text(encoding="utf-8") for path in pathlib.Path(room).rglob("*.antt"))
    removed = [
        stub
        for stub in stubs
        if stub.name not in named and not (stub.impl and stub.impl[1]) and not stub.mentions().search(cited)
    ]
    names = {stub.name for stub in removed}
    names -= {stub.name for stub in stubs if stub not in removed}
    for file, text in texts.items():
        text = without_functions(text, [function for function in stubbed[file] if function.name in names])
        file.write_text(IMPORT.sub(lambda match: without(match, names), text), encoding="utf-8")
    return [stub for stub in stubs if stub.name not in names]


def stub_all_but(room, names, crate=None):
    """Replaces all functions of the copy by stubs, except these (by the prover's names) and those of their cycles, and
    removes stubs that nothing names."""
    texts = {file: file.read_text(encoding="utf-8") for file in pathlib.Path(room, "src").rglob("*.rt")}
    functions = {file: list(Function.all_of(str(file.relative_to(room)), text)) for file, text in texts.items()}
    every = [function for found in functions.values() for function in found]
    stays = {
        id(function) for function in every if function.qualified(function.name) in names or not function.can_be_stub()
    }
    # A cycle consists of functions alone if each of its attributes was found at a function.
    cycles = {name for text in texts.values() for name in CYCLE.findall(text)}
    stubs = []
    kept = {function.cycle for function in every if id(function) in stays} | {
        name
        for name in cycles
        if sum(function.cycle == name for function in every)
        != sum(CYCLE.findall(text).count(name) for text in texts.values())
    }
    for file, found in functions.items():
        text = texts[file]
        for function in sorted(found, key=lambda stub: -stub.start):
            if id(function) not in stays and (function.cycle is None or function.cycle not in kept):
                text = text[: function.start] + function.stub() + text[function.end :]
                remove_proof(function.folder(room, function.name))
                stubs.append(function)
        file.write_text(text, encoding="utf-8")
    for name in cycles - kept:
        for folder in pathlib.Path(room, "proofs").rglob(f"+{name}"):
            remove_proof(folder)
    for function in drop_unnamed(room, stubs):
        if crate:
            function.write_failing_answer(room, crate)
