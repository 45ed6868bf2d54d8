"""What must hold of every answer of the program, for the scripts that give it random input."""
import re

FAULT = re.compile(rb"E\d\d \w+ (model|data|problem|certificate) (\d+)(?::(\d+))?(?: [^\n]*)?\n")
# The texts that a call reads, in order.
TEXTS = {
    "compile": ("model", "data"),
    "solve": ("model", "data"),
    "min": ("problem",),
    "check": ("problem", "certificate"),
}


def is_inside(text, line, column):
    """Whether a position is in a text, or at its end. Columns count bytes; without a column the end is one line past
    the last."""
    lines = text.split(b"\n")
    if column is None:
        return 1 <= line <= len(lines) + (lines[-1] != b"")
    return 1 <= line <= len(lines) and 1 <= column <= len(lines[line - 1]) + 1


def complaint(status, output, told, texts):
    """Returns what is wrong with an answer to these inputs, by their names; None if it is as it should be."""
    if status not in (0, 2, 3):
        return f"status {status}, {told[:200]!r}"
    if status != 3:
        return f"status {status} with {told[:200]!r}" if told else None
    found = FAULT.fullmatch(told)
    if output or not found:
        return f"an error line is {told[:200]!r} with {output[:80]!r}"
    text = texts[found[1].decode()]
    if not is_inside(text, int(found[2]), found[3] and int(found[3])):
        return f"{told!r} is outside its input"
    return None
