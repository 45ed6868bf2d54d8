"""Expressions: what they are worth, how netflow's language writes them, and how MathProg does."""
import copy
import itertools

VALUE, CONDITION, AND, RELATION, SET, INTER, CROSS, RANGE, SUM, PRODUCT, UNARY, PRIMARY = range(12)


class Fault(Exception):
    """An expression that has no value: the generator takes another one."""


class Expr:
    """`text` is the netflow text at the expression's own precedence, `twin` a MathProg text for any position."""

    level = PRIMARY

    def text(self):
        raise NotImplementedError

    def twin(self):
        raise NotImplementedError

    def ends_open(self):
        """Returns whether a following product would become part of it."""
        return False

    def at(self, level, closed=False):
        text = self.text()
        return f"({text})" if self.level < level or (closed and self.ends_open()) else text


def quoted(text, mark="'"):
    return mark + text.replace(mark, mark + mark) + mark


def shown(member):
    """A member as netflow displays it, which is how both languages read it in a model."""
    return quoted(member) if isinstance(member, str) else str(member)


class Member(Expr):
    """A literal number or text."""

    def __init__(self, member, mark="'"):
        self.member, self.mark = member, mark
        self.level = UNARY if isinstance(member, int) and member < 0 else PRIMARY

    def value(self, env):
        return self.member

    def text(self):
        return quoted(self.member, self.mark) if isinstance(self.member, str) else str(self.member)

    def twin(self):
        return f"({self.member})" if isinstance(self.member, int) else quoted(self.member)


class Dummy(Expr):
    """A dummy; one without a name is a component that has no name in netflow's text."""

    numbers = itertools.count(1)

    def __init__(self, name, kind, domain):
        self.name, self.kind, self.domain = name, kind, domain
        self.number = next(Dummy.numbers)

    def __deepcopy__(self, memo):
        made = Dummy(self.name, self.kind, self.domain)
        memo.setdefault("dummies", []).append(made)
        return made

    def value(self, env):
        return env[self]

    def text(self):
        return self.name

    def twin(self):
        return f"d{self.number}"


class Negated(Expr):
    level = UNARY

    def __init__(self, inner, sign="-"):
        self.inner, self.sign = inner, sign

    def ends_open(self):
        return self.inner.ends_open()

    def value(self, env):
        value = self.inner.value(env)
        return -value if self.sign == "-" else value

    def text(self):
        return f"{self.sign}{self.inner.at(UNARY)}"

    def twin(self):
        return f"({self.sign}({self.inner.twin()}))"


class Parens(Expr):
    """Parentheses that need not be there."""

    def __init__(self, inner):
        self.inner = inner

    def value(self, env):
        return self.inner.value(env)

    def text(self):
        return f"({self.inner.text()})"

    def twin(self):
        return self.inner.twin()


def quotient(left, right):
    if not (isinstance(left, int) and isinstance(right, int) and left >= 0 and right >= 1):
        raise Fault("div or mod")
    return left // right, left % right


class Binary(Expr):
    """`+ - * div mod` of two numbers."""

    def __init__(self, operator, left, right):
        self.operator, self.left, self.right = operator, left, right
        self.level = SUM if operator in "+-" else PRODUCT

    def ends_open(self):
        return self.level == PRODUCT and self.right.ends_open()

    def value(self, env):
        left, right = self.left.value(env), self.right.value(env)
        if isinstance(left, str) or isinstance(right, str):
            raise Fault("a text in a sum")
        if self.operator in ("div", "mod"):
            return quotient(left, right)[self.operator == "mod"]
        return left + right if self.operator == "+" else left - right if self.operator == "-" else left * right

    def text(self):
        left = self.left.at(self.level, closed=self.level == PRODUCT)
        return f"{left} {self.operator} {self.right.at(self.level + 1)}"

    def twin(self):
        return f"({self.left.twin()} {self.operator} {self.right.twin()})"


class Reduced(Expr):
    """`sum`, `min` or `max` over braces."""

    level = UNARY

    def __init__(self, word, braces, inner):
        self.word, self.braces, self.inner = word, braces, inner

    def ends_open(self):
        return True

    def value(self, env):
        values = [self.inner.value(each) for _, each in self.braces.walk(env)]
        if any(isinstance(value, str) for value in values) or (self.word != "sum" and not values):
            raise Fault(self.word)
        operators: dict = {"sum": sum, "min": min, "max": max}
        return operators[self.word](values)

    def text(self):
        return f"{self.word} {self.braces.text()} {self.inner.at(PRODUCT)}"

    def twin(self):
        return f"({self.word}{self.braces.twin()} ({self.inner.twin()}))"


class Choice(Expr):
    """`if condition then yes else no`; without `no` it is 0."""

    level = VALUE

    def __init__(self, condition, yes, no):
        self.condition, self.yes, self.no = condition, yes, no

    def value(self, env):
        if self.condition.value(env):
            return self.yes.value(env)
        return self.no.value(env) if self.no else 0

    def text(self):
        front = f"if {self.condition.at(CONDITION)} then {self.yes.at(SET)}"
        return f"{front} else {self.no.at(VALUE)}" if self.no else front

    def twin(self):
        no = self.no.twin() if self.no else "0"
        return f"(if {self.condition.twin()} then {self.yes.twin()} else {no})"


class Relation(Expr):
    level = RELATION
    TESTS = {
        "=": lambda a, b: a == b,
        "<>": lambda a, b: a != b,
        "<": lambda a, b: a < b,
        "<=": lambda a, b: a <= b,
        ">": lambda a, b: a > b,
        ">=": lambda a, b: a >= b,
    }

    def __init__(self, operator, left, right, spelled=None):
        self.operator, self.left, self.right, self.spelled = operator, left, right, spelled or operator

    def value(self, env):
        left, right = self.left.value(env), self.right.value(env)
        if self.operator not in ("=", "<>") and (isinstance(left, str) or isinstance(right, str)):
            raise Fault("texts are not ordered")
        return Relation.TESTS[self.operator](left, right)

    def text(self):
        return f"{self.left.at(SET)} {self.spelled} {self.right.at(SET)}"

    def twin(self):
        return f"({self.left.twin()} {self.operator} {self.right.twin()})"


class Joined(Expr):
    """`and` and `or`; the right side counts only if the left one does not decide."""

    def __init__(self, word, left, right):
        self.word, self.left, self.right = word, left, right
        self.level = AND if word == "and" else CONDITION

    def value(self, env):
        left = self.left.value(env)
        return left if left == (self.word == "or") else self.right.value(env)

    def text(self):
        return f"{self.left.at(self.level)} {self.word} {self.right.at(self.level + 1)}"

    def twin(self):
        return f"({self.left.twin()} {self.word} {self.right.twin()})"


class Not(Expr):
    def __init__(self, inner):
        self.inner = inner

    def value(self, env):
        return not self.inner.value(env)

    def text(self):
        return f"not ({self.inner.text()})"

    def twin(self):
        return f"(not ({self.inner.twin()}))"


class ParamRef(Expr):
    """A parameter with its subscripts."""

    def __init__(self, param, subscripts):
        self.param, self.subscripts = param, subscripts

    def value(self, env):
        return self.param.at_key(tuple(subscript.value(env) for subscript in self.subscripts))

    def text(self):
        inside = ",".join(subscript.at(SUM) for subscript in self.subscripts)
        return f"{self.param.name}[{inside}]" if self.subscripts else self.param.name

    def twin(self):
        inside = ",".join(subscript.twin() for subscript in self.subscripts)
        return f"{self.param.name}[{inside}]" if self.subscripts else self.param.name


def copied(expr):
    """The expression with dummies of its own, and these; what is declared stays the same."""
    memo: dict = {}
    return copy.deepcopy(expr, memo), memo.get("dummies", [])


def every_dummy(thing):
    """Returns all named dummies of braces or a set, including inner ones; none for None."""
    return [dummy for dummy in copied(thing)[1] if dummy.name] if thing else []
