"""Converts the text of a model: sets, parameters and checks stay, variables and constraints become arcs and nodes."""
from __future__ import annotations

import dataclasses
import re
from typing import Any, Callable, Sequence

from ..reading.model import Decl, Expr, ModelParser, Phrase, Unparsed
from .cases import Case, End, Limit, Price, Variable, cases_of
from .directions import Directions
from .indices import Names, index_of
from .network import Analysis
from .problems import Inexpressible, Rejected, problem_lines
from .rewriting import Rewriter
from .sets import SetFacts
from .syntax import OldParser
from .trees import number, text, ungrouped
from .writing import Writer

COMMENT = re.compile(r"#[^\n]*|/\*.*?\*/", re.S)
TRAILING = re.compile(r"[ \t]*(#[^\n]*|/\*[^\n]*?\*/[ \t]*(?=\n|\Z))")
KEPT = ("set", "param", "check")
PLAIN_WORDS = {"=": ":=", "==": ":=", "!=": "<>", "binary": "in {0, 1}", "logical": "in {0, 1}"}


@dataclasses.dataclass
class Converted:
    """A model of nodes and arcs, with notes on what changed. `decls` are the sets and parameters; `is_plain` if no
    declaration had to be changed."""

    text: str
    decls: list[Decl]
    notes: list[str]
    is_plain: bool = False


class Conversion:
    """The conversion of one model text. `called` is its name in messages."""

    def __init__(self, source: str, called: str) -> None:
        self.source, self.called = source, called
        self.problems: list[Inexpressible] = []

    def run(self) -> Converted:
        """Returns the converted model; raises Rejected with each problem."""
        try:
            parser = OldParser(self.source)
        except Inexpressible as problem:
            raise Rejected(problem_lines(self.called, self.source, [problem])) from None
        decls = parser.declarations()
        self.problems += parser.problems
        self.require()
        self.around = surroundings(self.source, decls, parser.left_out)
        names = Names(word.text for word in parser.tokens if word.kind == "name")
        self.rewrite(decls)
        self.require()
        result = self.converted(decls, names)
        self.require()
        kept = [item for item in decls if item.kind in ("set", "param")]
        is_network = any(item.kind == "arc" for item in decls) and not parser.left_out
        is_plain = is_network and all(
            item.kind not in ("var", "constraint") and self.kept(item) == self.source[item.start : item.end]
            for item in decls
        )
        return Converted(result, kept, self.notes, is_plain)

    def require(self) -> None:
        if self.problems:
            raise Rejected(problem_lines(self.called, self.source, self.problems))

    def attempt(self, action: Callable[..., Any], *arguments: Any) -> None:
        """Calls a function and keeps its problem, if any."""
        try:
            action(*arguments)
        except Inexpressible as problem:
            self.problems.append(problem)

    # Declarations in netflow's operators

    def rewrite(self, decls: Sequence[Decl]) -> None:
        self.sets = SetFacts(list(decls))
        rewriter = Rewriter(self.sets)
        for decl in decls:
            self.attempt(self.rewrite_declaration, decl, rewriter)
        self.sets = SetFacts(list(decls))

    def rewrite_declaration(self, decl: Decl, rewriter: Rewriter) -> None:
        if decl.kind == "set" and decl.braces is not None:
            raise Inexpressible(
                decl.start,
                f"{decl.name} is a collection of sets: use one set of tuples, whose first member is the index",
            )
        if decl.braces is not None:
            decl.braces = rewriter.rewrite(decl.braces)
        for phrase in decl.phrases:
            if decl.kind == "set" and phrase.word == "default":
                raise Inexpressible(phrase.start, "a set has no default: give its members in the data")
            is_limit = decl.kind in ("var", "arc") and phrase.word in ("<=", ">=")
            if not (is_limit and is_infinite(phrase.exprs[0])):
                phrase.exprs = [rewriter.rewrite(expr) for expr in phrase.exprs]

    # The network

    def converted(self, decls: Sequence[Decl], names: Names) -> str:
        self.notes: list[str] = []
        objectives = [decl for decl in decls if decl.kind in ("minimize", "maximize")]
        is_network = not any(decl.kind in ("var", "constraint") for decl in decls)
        if is_network:
            rest = [item for item in decls if item.kind not in KEPT]
            open_arcs = [item.name for item in rest if item.kind == "arc" and not has_bounds(item)]
            self.note_missing(open_arcs)
            return self.written(decls, [(self.comments(item), self.kept(item)) for item in rest])
        analysis = Analysis(decls, self.sets, names, fractional_parameters(decls))
        readers: tuple[tuple[tuple[str, ...], Callable[[Decl], None]], ...] = (
            (("var",), lambda decl: self.add_variable(analysis, decl)),
            (("node",), analysis.add_constraint),
            (("arc",), lambda decl: self.add_arc(analysis, decl)),
            (("constraint",), analysis.add_constraint),
            (("minimize", "maximize"), analysis.add_objective),
        )
        for kinds, read in readers:
            for decl in [item for item in decls if item.kind in kinds]:
                self.attempt(read, decl)
        self.require()
        cases: dict[str, list[Case]] = {}
        for variable in analysis.network.variables.values():
            self.attempt(lambda item: cases.update({item.name: cases_of(item, analysis.facts_of(item))}), variable)
        self.require()
        self.attempt(lambda: Directions(analysis.network.variables, cases).choose(analysis.network.balances))
        self.require()
        return self.network_text(decls, objectives, analysis, Writer(analysis.network, cases, names, self.sets))

    def add_variable(self, analysis: Analysis, decl: Decl) -> None:
        variable = Variable(decl.name, index_of(decl.braces, self.sets), decl.start)
        analysis.network.variables[decl.name] = variable
        for phrase in decl.phrases:
            self.add_phrase(variable, phrase)

    def add_phrase(self, variable: Variable, phrase: Phrase) -> None:
        if phrase.word == "integer":
            variable.is_integer = True
        elif phrase.word == "binary":
            variable.is_integer = True
            variable.limits += [Limit(">=", number(0), []), Limit("<=", number(1), [])]
        elif phrase.word in (">=", "<=", "="):
            for op in (">=", "<=") if phrase.word == "=" else (phrase.word,):
                if not is_infinite(phrase.exprs[0]):
                    variable.limits.append(Limit(op, phrase.exprs[0], []))
        elif phrase.word == "in":
            raise Inexpressible(phrase.start, f"{variable.name}: a variable in a set cannot be expressed; give bounds")

    def add_arc(self, analysis: Analysis, decl: Decl) -> None:
        self.add_variable(analysis, decl)
        variable = analysis.network.variables[decl.name]
        for phrase in decl.phrases:
            if phrase.word in ("from", "to"):
                end = phrase.exprs[0]
                balance = analysis.network.balances.get(end.value)
                if balance is None:
                    raise Inexpressible(phrase.start, f"`{text(end)}` is no node of the model")
                sign = balance.flip * (1 if phrase.word == "to" else -1)
                variable.ends.append(End(balance, sign, end.args, [], phrase.start))
            elif phrase.word == "obj":
                variable.prices.append(Price(phrase.name, phrase.exprs[0], []))

    # The text

    def network_text(
        self, decls: Sequence[Decl], objectives: Sequence[Decl], analysis: Analysis, writer: Writer
    ) -> str:
        network, blocks = analysis.network, []
        for decl, condition in network.checks:
            index = index_of(decl.braces, self.sets)
            blocks.append((self.comments(decl), writer.check(index.braces(), condition)))
        blocks += [(self.comments(decl), writer.objective(decl.kind, decl.name)) for decl in objectives]
        if not objectives:
            blocks.append(("", f"minimize {analysis.names.fresh('Nothing')};"))
        by_name = {decl.name: decl for decl in decls}
        nodes = [(self.comments(by_name[item.name]), writer.node(item)) for item in network.balances.values()]
        arcs = []
        for variable in network.variables.values():
            made = writer.arcs(variable)
            comments = [self.comments(item) for item in (by_name[variable.name], *variable.limited_by)]
            arcs += [("\n".join(filter(None, comments)), made[0]), *(("", item) for item in made[1:])]
        arcs += [("", writer.constant(objective, value)) for objective, value in network.constants.items()]
        alone = [("", f"node {writer.alone};")] if writer.alone else []
        self.add_notes(decls, objectives, analysis, writer)
        return self.written(decls, [*blocks, ("", ""), *nodes, *alone, ("", ""), *arcs])

    def add_notes(self, decls: Sequence[Decl], objectives: Sequence[Decl], analysis: Analysis, writer: Writer) -> None:
        for called, parts in writer.split.items():
            if len(parts) > 1:
                self.notes.append(f"{called} has other ends for some of its keys and becomes {', '.join(parts)}")
        self.note_missing(writer.missing)
        if len(objectives) > 1:
            named = " or ".join(decl.name for decl in objectives)
            self.notes.append(f"the model has several objectives: choose one with --objective {named}")

    def note_missing(self, arcs: Sequence[str]) -> None:
        if arcs:
            self.notes.append(f"no lower or no upper bound: {', '.join(arcs)}; call the tools with --bounds")

    def comments(self, decl: Decl) -> str:
        """Returns the comments before a declaration, and those on its line."""
        before, after = self.around[id(decl)]
        found = [match[0] for match in COMMENT.finditer(before)] + ([after] if after else [])
        return "\n".join(found)

    def written(self, decls: Sequence[Decl], blocks: Sequence[tuple[str, str]]) -> str:
        """Returns the model: what is kept, with its comments and blank lines, and then the network."""
        parts: list[str] = []
        for decl in decls:
            if decl.kind in KEPT:
                before, after = self.around[id(decl)]
                parts.append(before.lstrip("\n") if not parts else before)
                parts.append(self.kept(decl) + (f"  {after}" if after else ""))
        lines = []
        for comment, block in blocks:
            lines += [*([comment] if comment else []), block]
        return ("".join(parts).rstrip() + "\n\n").lstrip() + re.sub(r"\n{3,}", "\n\n", "\n".join(lines)).strip() + "\n"

    def kept(self, decl: Decl) -> str:
        """Returns a declaration unchanged if netflow's grammar has that form, otherwise in netflow's words."""
        source = self.source[decl.start : decl.end]
        try:
            ModelParser(source).declaration()
            return source
        except Unparsed:
            return declaration_text(decl)


def is_infinite(expr: Expr) -> bool:
    expr = ungrouped(expr)
    while expr.op == "sign":
        expr = expr.args[0]
    return expr.op == "name" and expr.value == "Infinity"


def has_bounds(decl: Decl) -> bool:
    words = {phrase.word for phrase in decl.phrases if phrase.exprs and not is_infinite(phrase.exprs[0])}
    return words >= {"<=", ">="}


def fractional_parameters(decls: Sequence[Decl]) -> set[str]:
    """Returns the parameters that may have decimals: not declared integer, and no end of a range."""
    ends: set[str] = set()
    for decl in decls:
        for expr in [
            *([decl.braces] if decl.braces else []),
            *(item for phrase in decl.phrases for item in phrase.exprs),
        ]:
            for part in expr.walk():
                ends |= {item.value for item in part.walk() if item.op == "name"} if part.op == ".." else set()
    return {
        decl.name
        for decl in decls
        if decl.kind == "param" and decl.name not in ends and not any(item.word == "integer" for item in decl.phrases)
    }


def declaration_text(decl: Decl) -> str:
    """Returns a set, parameter or check in netflow's words."""
    start = decl.kind + (f" {decl.name}" if decl.name else "")
    start += f" {text(decl.braces)}" if decl.braces is not None else ""
    if decl.kind in ("check", "node", "minimize", "maximize"):
        return start + "".join(f": {text(phrase.exprs[0])}" for phrase in decl.phrases) + ";"
    phrases = []
    for phrase in decl.phrases:
        if phrase.exprs and is_infinite(phrase.exprs[0]):
            continue
        word = "within" if decl.kind == "set" and phrase.word == "in" else PLAIN_WORDS.get(phrase.word, phrase.word)
        level = 0 if word in (":=", "default") else 4 if decl.kind == "set" else 8
        words = [word, *([phrase.name] if phrase.name else []), *(text(expr, level) for expr in phrase.exprs)]
        phrases.append(" ".join(words))
    return " ".join([start, ", ".join(phrases)]).rstrip() + ";"


def surroundings(source: str, decls: Sequence[Decl], left_out: Sequence[tuple[int, int]]) -> dict[int, tuple[str, str]]:
    """Returns for each declaration the text before, and the comment on its line."""
    result, at = {}, 0
    spans = sorted([*((decl.start, decl.end, id(decl)) for decl in decls), *((*span, 0) for span in left_out)])
    for start, end, key in spans:
        trailing = TRAILING.match(source, end)
        result[key] = (source[at:start], trailing[1].strip() if trailing else "")
        at = trailing.end() if trailing else end
    return result
