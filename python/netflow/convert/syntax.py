"""Parses AMPL and MathProg models: the grammar of netflow, and the words that older models have besides.

The tree has the types of `reading.model`. Further operators are `/`, `^`, `&`, `less`, `&&`, `||`, `!`, `not in`,
`not within`, `exists`, `forall`, `setof`, `prod` and `call`; further declarations are `var` and `constraint`.
"""
from __future__ import annotations

from typing import Callable

from ..reading.model import LEVELS, RELATIONS, RESERVED, Decl, Expr, ModelParser, Phrase, Unparsed
from .problems import Inexpressible

COMPARISONS = ("=", "==", "<=", ">=", "<", ">")
# Statements that only print or choose a solver, which are left out.
PRINTING = ("solve", "display", "printf", "print", "end", "option", "reset", "expand", "show", "write", "close")
REFUSED = {
    "let": "`let` changes the data: use --set NAME=VALUE, or a second data file",
    "fix": "`fix` is not converted: give the variable two equal bounds",
    "drop": "`drop` is not converted: remove the constraint",
    "table": "`table` reads a spreadsheet: netflow-sheet makes the data statement",
    "read": "`read` is not converted: netflow-sheet makes data statements of files",
    "include": "`include` is not converted: insert the file",
    "model": "`model` reads another file: convert that file",
    "commands": "`commands` reads another file: convert that file",
    "problem": "named problems are not converted: convert a model of one problem",
    "suffix": "suffixes are not converted",
}
# What a declaration can say after its name, with the parser's method of its expression.
PHRASES = {
    "set": {"dimen": "sum", "within": "set_value", ":=": "value", "=": "value", "default": "value", "in": "set_value"},
    "param": {"in": "set_value", "default": "value", ":=": "value", "=": "value"},
    "var": {":=": "value", "=": "value", "default": "value", "in": "set_value"},
    "arc": {"from": "primary", "to": "primary", "obj": "sum", ":=": "value"},
}
PARAM_LIMITS = ("<", "<=", ">", ">=", "<>", "!=", "==")
FLAGS = {"set": ("ordered", "circular"), "param": ("symbolic", "integer", "binary", "logical"), "var": (), "arc": ()}
NOT_CONVERTED = {
    "ordered by": "`ordered by` is not converted: use a set of numbers",
    "coeff": "`coeff` gives a variable another factor in a constraint: an arc has `from` and `to` only",
    "cover": "`cover` makes an arc reach several nodes, and an arc has one `to`",
}


class OldParser(ModelParser):
    """Reads the declarations of a model, and collects what cannot be read, each part with its position."""

    def __init__(self, text: str) -> None:
        try:
            super().__init__(text)
        except Unparsed as problem:
            raise Inexpressible(problem.offset, "this character belongs to no word of AMPL") from None
        self.text = text
        self.problems: list[Inexpressible] = []
        self.left_out: list[tuple[int, int]] = []  # the spans of statements that only print

    def declarations(self) -> list[Decl]:
        """Returns the declarations up to `data;`; a wrong one is skipped and kept as a problem."""
        result: list[Decl] = []
        while self.at < len(self.tokens):
            if self.peek() == "data" and self.peek(1) == ";":
                break
            start = self.at
            try:
                decl = self.statement()
                result += [decl] if decl else []
            except Unparsed as problem:
                what = (
                    f"`{self.text[problem.offset:problem.offset + 20].split()[0]}`"
                    if self.at < len(self.tokens)
                    else "the end"
                )
                self.problems.append(Inexpressible(problem.offset, f"{what} was not expected here"))
                self.skip_statement(start)
            except Inexpressible as problem:
                self.problems.append(problem)
                self.skip_statement(start)
        return result

    def skip_statement(self, start: int) -> None:
        self.at = max(self.at, start)
        while self.at < len(self.tokens) and self.next().text != ";":
            pass

    def statement(self) -> Decl | None:
        """Reads a declaration; None for a statement that is left out."""
        word, first = self.peek(), self.tokens[self.at]
        if word in REFUSED:
            raise Inexpressible(first.start, REFUSED[word])
        if word in PRINTING or word == "for":
            if word == "for":
                self.skip_loop()
            else:
                self.skip_statement(self.at)
            self.left_out.append((first.start, self.last_end()))
            return None
        if word in ("set", "param", "var", "arc", "node", "check", "minimize", "maximize"):
            self.next()
            return self.declared(word, first.start)
        if word in ("subject", "subj") and self.peek(1) == "to":
            self.at += 2
        elif [self.peek(ahead) for ahead in range(4)] == ["s", ".", "t", "."]:
            self.at += 4
        return self.constraint(first.start)

    def skip_loop(self) -> None:
        """Skips `for {..} STATEMENT` and `for {..} {..}`."""
        self.next()
        self.braces()
        if self.peek() == ":":
            self.next()
        if self.peek() != "{":
            self.skip_statement(self.at)
            return
        depth = 0
        while True:
            word = self.next().text
            depth += (word == "{") - (word == "}")
            if not depth:
                break
        if self.peek() == ";":
            self.next()

    def declared(self, kind: str, start: int) -> Decl:
        decl = Decl(kind, "" if kind == "check" else self.new_name(), start)
        if self.peek() == "{":
            decl.braces = self.braces()
        if kind == "check":
            if self.peek() == ":":
                self.next()
            decl.phrases.append(self.phrase_of("check", self.condition))
        elif kind in ("node", "minimize", "maximize"):
            if self.peek() == ":":
                self.next()
                decl.phrases.append(self.phrase_of("value", self.comparison if kind == "node" else self.value))
        else:
            while self.peek() != ";":
                phrase = self.phrase(kind)
                # The order of a set matters to functions such as `next`, which are reported.
                decl.phrases += [phrase] if phrase.word not in ("ordered", "circular") else []
        decl.end = self.want(";").end
        return decl

    def new_name(self) -> str:
        """Reads the name of a declaration and its alias, if any."""
        token = self.tokens[self.at] if self.at < len(self.tokens) else None
        if token is not None and token.kind == "name" and token.text in RESERVED:
            raise Inexpressible(token.start, f"`{token.text}` is a word of netflow: give it another name")
        name = self.name()
        if self.at < len(self.tokens) and self.tokens[self.at].kind == "text":
            self.next()
        return name

    def constraint(self, start: int) -> Decl:
        decl = Decl("constraint", self.new_name(), start)
        if self.peek() == "{":
            decl.braces = self.braces()
        self.want(":")
        decl.phrases.append(self.phrase_of("value", self.comparison))
        decl.end = self.want(";").end
        return decl

    def comparison(self) -> Expr:
        """Reads `a <= b`, `a = b`, `a <= b <= c`; MathProg allows commas before the comparisons."""
        parts, ops = [self.value()], []
        while self.peek() in COMPARISONS or self.peek() == "," and self.peek(1) in COMPARISONS:
            if self.peek() == ",":
                self.next()
            ops.append(self.next().text.replace("==", "="))
            parts.append(self.value())
        if not 1 <= len(ops) <= 2:
            raise self.fail()
        return Expr("net", parts, parts[0].start, self.last_end(), " ".join(ops))

    def phrase(self, kind: str) -> Phrase:
        if self.peek() == ",":
            self.next()
        first = self.next()
        word = first.text
        if word in FLAGS[kind] or kind in ("var", "arc") and word in ("integer", "binary"):
            if word in ("ordered", "circular") and self.peek() == "by":
                raise Inexpressible(first.start, NOT_CONVERTED["ordered by"])
            return Phrase(word, [], first.start, self.last_end())
        if word in NOT_CONVERTED:
            raise Inexpressible(first.start, NOT_CONVERTED[word])
        if word in PHRASES[kind]:
            name = self.name() if word == "obj" else ""
            part: Callable[[], Expr] = getattr(self, PHRASES[kind][word])
            return Phrase(word, [part()], first.start, self.last_end(), name)
        if word in (PARAM_LIMITS if kind == "param" else (">=", "<=")):
            return Phrase(word, [self.sum()], first.start, self.last_end())
        self.at -= 1
        raise self.fail()

    # Expressions

    def set_value(self) -> Expr:
        return self.level(0)

    def condition(self) -> Expr:
        return self.chain(("or", "||"), self.conjunction)

    def conjunction(self) -> Expr:
        if self.peek() in ("exists", "forall"):
            token = self.next()
            braces, part = self.braces(), self.conjunction()
            return Expr(token.text, [braces, part], token.start, part.end)
        return self.chain(("and", "&&"), self.relation)

    def relation(self) -> Expr:
        if self.peek() in ("exists", "forall"):
            return self.conjunction()
        if self.peek() == "!" or self.peek() == "not":
            token = self.next()
            part = self.relation()
            return Expr("not", [part], token.start, part.end)
        left = self.level(0)
        word = self.peek()
        is_negated = word in ("not", "!") and self.peek(1) in ("in", "within")
        if is_negated:
            self.next()
        elif word not in RELATIONS:
            return left
        op = self.next().text
        right = self.level(0)
        return Expr(f"not {op}" if is_negated else op, [left, right], left.start, right.end)

    def level(self, depth: int) -> Expr:
        if depth == len(LEVELS) and self.peek() == "setof":
            token = self.next()
            braces, part = self.braces(), self.primary()
            return Expr("setof", [braces, part], token.start, part.end)
        return super().level(depth)

    def sum(self) -> Expr:
        return self.chain(("+", "-", "less", "&"), self.product)

    def product(self) -> Expr:
        return self.chain(("*", "/", "div", "mod"), self.unary)

    def unary(self) -> Expr:
        if self.peek() == "prod" and self.peek(1) == "{":
            raise Inexpressible(self.tokens[self.at].start, "`prod` over a set: give the value in the data")
        left = super().unary()
        while self.peek() in ("^", "**"):
            self.next()
            right = self.unary()
            left = Expr("^", [left, right], left.start, right.end)
        return left

    def primary(self) -> Expr:
        if self.peek() == "if":
            return self.value()
        token = self.tokens[self.at] if self.at < len(self.tokens) else None
        if token is not None and token.kind == "name" and self.peek(1) == "(":
            self.at += 2
            parts = [self.value()]
            while self.peek() == ",":
                self.next()
                parts.append(self.value())
            self.want(")")
            return Expr("call", parts, token.start, self.last_end(), token.text)
        return super().primary()

    def grouped(self) -> Expr:
        return self.value() if self.peek() == "if" else self.condition()
