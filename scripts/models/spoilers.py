"""Ways to spoil what the program says: each takes the words of a call and the status, output and errors that it
gave."""
import re


def last_number(text, pattern, more):
    """The last number that the pattern's group has, made greater."""
    found = list(re.finditer(pattern, text, re.M))
    if not found:
        return text
    start, end = found[-1].span(1)
    return text[:start] + str(int(text[start:end]) + more) + text[end:]


def spoiler(command, statuses, pattern, more=1):
    def spoil(words, status, text, stderr):
        if words[0] != command or status not in statuses:
            return status, text, stderr
        return status, last_number(text, pattern, more), stderr

    return spoil


def no_plan(words, status, text, stderr):
    """Says that there is none, by the empty set."""
    return (2, "infeasible\nover 1 0\n", stderr) if words[0] == "solve" and status == 0 else (status, text, stderr)


def refused(words, status, text, stderr):
    return (3, "", "E12 Undeclared model 1:1 a\n") if words[0] == "compile" else (status, text, stderr)


def worse(words, status, text, stderr):
    """Says that a problem has no flow."""
    return (2, "x over\n", stderr) if words[0] == "min" and status == 0 else (status, text, stderr)


def node_twice(words, status, text, stderr):
    """A cut that names its last node twice."""
    if words[0] != "solve" or status != 2:
        return status, text, stderr
    return status, re.sub(r"((?:node [^\n]*|outside)\n)\Z", r"\1\1", text), stderr


SPOILERS = {
    # One unit more on a loop without a price may be another right answer, but no bound allows a million.
    "an arc's number": spoiler("solve", (0,), r"^(?:.*\S )(-?\d+)$", 10**6),
    "the value": spoiler("solve", (0,), r"\A\w+ = (-?\d+)$"),
    "no plan": no_plan,
    "a cut's supply": spoiler("solve", (2,), r"^(?:over|under) (-?\d+)"),
    "a cut's capacity": spoiler("solve", (2,), r"^(?:over|under) -?\d+ (-?\d+)"),
    "a node twice": node_twice,
    "a refusal": refused,
    "a cost": spoiler("compile", (0,), r"^a .* (-?\d+)$"),
    "an offset": spoiler("compile", (0,), r"^c arc \d+ (-?\d+)"),
    "the least cost": spoiler("min", (0,), r"\As (-?\d+)$"),
    "no flow": worse,
}
