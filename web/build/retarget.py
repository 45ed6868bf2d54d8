"""Turns the LLVM module that the toolchain makes of proved code for x86-64 into one for WebAssembly.

The module has no processor's code in it: it is loads, stores and arithmetic with byte offsets that the proof fixed. For wasm64 only the
target changes. For wasm32 a pointer keeps its slot of eight bytes in memory and uses the first four, so every offset stays as it is:

- a stack slot for a pointer becomes eight bytes;
- a load of a struct with a pointer becomes a load of each field at its 64-bit offset, because LLVM would use 32-bit offsets;
- a pointer in a constant is followed by four zero bytes.

Any form of the module that is not known here raises Unknown: the module is then not built, instead of built wrongly.
"""
import re

SIZES = {"i1": 1, "i8": 1, "i16": 2, "i32": 4, "i64": 8, "ptr": 8, "i128": 16, "float": 4, "double": 8}
LAYOUT = 'target datalayout = "e-m:e-p:{bits}:{bits}-p10:8:8-p20:8:8-i64:64-i128:128-n32:64-S128-ni:1:10:20"'
# Attributes of functions that name the processor or its stack.
ATTRIBUTE = re.compile(r' "(?:probe-stack|stack-probe-size|target-cpu|target-features)"="[^"]*"')
STRING = re.compile(r'@?"[^"]*"')
LOAD = re.compile(r"(?m)^  (%[\w.]+) = load \{ ([^{}\[\]]*) \}, ptr (%[\w.]+), align \d+$")
STORE = re.compile(r"(?m)^  store \{ ([^{}]*) \} %[\w.]+, ptr %[\w.]+, align \d+.*$")
PACKED = re.compile(r"(?m)^(@[\w.]+ = [a-z_ ]*constant )<\{ (.*?) \}> <\{ (.*) \}>(, align \d+)$")
ADDRESS = re.compile(r'ptr (?:@[\w.]+|@"[^"]*"|getelementptr \(i8, ptr @[\w.]+, i64 \d+\))')
BYTES = re.compile(r"\[\d+ x i8\]")
FIELD = r"(?:ptr, \[4 x i8\]|\[\d+ x i8\])"
CONSTANT = re.compile(rf" [a-z_ ]*constant (?:\[\d+ x i8\]|<\{{ {FIELD}(?:, {FIELD})* \}}>) ")
# Accesses to arrays, packed or named structs, and structs in structs.
OTHER_ACCESS = re.compile(r"(?:load|store) (?:\[|<\{|%|\{ \{)")


class Unknown(Exception):
    """A form of the module that is not known."""


def retargeted(text, bits):
    """Returns the text of the module for wasm64 or wasm32."""
    bare = STRING.sub("", text)
    for word in ("llvm.x86", " asm "):
        if word in bare:
            raise Unknown(f"code for x86-64: {word.strip()}")
    text = replaced_once(r"(?m)^target datalayout = .*$", LAYOUT.format(bits=bits), text)
    text = replaced_once(r"(?m)^target triple = .*$", f'target triple = "wasm{bits}-unknown-unknown"', text)
    text = ATTRIBUTE.sub("", text)
    return with_short_pointers(text) if bits == 32 else text


def replaced_once(pattern, line, text):
    text, count = re.subn(pattern, line, text)
    if count != 1:
        raise Unknown(f"{count} lines of the form {pattern}")
    return text


def with_short_pointers(text):
    """Returns the module for pointers of four bytes in slots of eight."""
    text = re.sub(r"= ptrtoaddr ptr ", "= ptrtoint ptr ", text)
    text = re.sub(r"(?m)(= alloca )ptr(, align 8)$", r"\1[8 x i8]\2", text)
    text = LOAD.sub(split_load, text)
    for types in STORE.findall(text):
        if "ptr" in types.split(", "):
            raise Unknown(f"a store of {types}")
    text = PACKED.sub(padded_constant, text)
    for line in text.split("\n"):
        if line.startswith("@") and not CONSTANT.match(re.sub(r'c"[^"]*"', "", line.partition("=")[2])):
            raise Unknown(f"a constant: {line[:200]}")
        if OTHER_ACCESS.search(line):
            raise Unknown(f"an access: {line[:200]}")
    return text


def split_load(found):
    """Returns the loads of the fields of a struct in place of its load, if it has a pointer."""
    name, listed, address = found.groups()
    types = listed.split(", ")
    if "ptr" not in types:
        return found[0]
    lines, offset, before = [], 0, "poison"
    for number, kind in enumerate(types):
        if kind not in SIZES:
            raise Unknown(f"a load of {listed}")
        offset = -(-offset // SIZES[kind]) * SIZES[kind]
        whole = name if number == len(types) - 1 else f"{name}.with{number}"
        lines += [f"  {name}.at{number} = getelementptr i8, ptr {address}, i64 {offset}",
                  f"  {name}.part{number} = load {kind}, ptr {name}.at{number}, align {SIZES[kind]}",
                  f"  {whole} = insertvalue {{ {listed} }} {before}, {kind} {name}.part{number}, {number}"]
        before, offset = whole, offset + SIZES[kind]
    return "\n".join(lines)


def padded_constant(found):
    """Returns a packed constant with four bytes after each pointer."""
    head, kinds, values, tail = found.groups()
    kinds, values = items(kinds), items(values)
    if len(kinds) != len(values):
        raise Unknown(f"a constant: {found[0][:200]}")
    types, parts = [], []
    for kind, value in zip(kinds, values):
        if not (ADDRESS.fullmatch(value) if kind == "ptr" else BYTES.fullmatch(kind)):
            raise Unknown(f"a constant with {kind}: {value[:200]}")
        types += [kind, "[4 x i8]"] if kind == "ptr" else [kind]
        parts += [value, "[4 x i8] zeroinitializer"] if kind == "ptr" else [value]
    return f"{head}<{{ {', '.join(types)} }}> <{{ {', '.join(parts)} }}>{tail}"


def items(listed):
    """Returns the items of a list: its parts between the commas that are not in brackets or strings."""
    found, depth, start, is_quoted = [], 0, 0, False
    for here, letter in enumerate(listed):
        if letter == '"':
            is_quoted = not is_quoted
        elif not is_quoted:
            depth += (letter in "([{<") - (letter in ")]}>")
            if letter == "," and depth == 0:
                found.append(listed[start:here].strip())
                start = here + 1
    return [*found, listed[start:].strip()]
