"""Models and data that no row can hold: odd bytes, the greatest lengths and depths, many of each thing."""
import pathlib
import tempfile

from lib.command import TOP
from lib.examples.program import run
from lib.examples.rows import row_answer


def check_texts(cases, complaints, seconds=None):
    """Compares the answers of `compile` to models with data, given as bytes, within a time: in the form of a row's
    answer; or the whole output, if that is given as bytes."""
    with tempfile.TemporaryDirectory() as folder:
        model, data = pathlib.Path(folder) / "text.mod", pathlib.Path(folder) / "text.dat"
        for name, model_text, data_text, wanted in cases:
            model.write_bytes(model_text)
            data.write_bytes(data_text)
            given = run(["compile", model, data], seconds)
            found = given if isinstance(wanted, bytes) else row_answer(wanted, *given)
            if found != ((0, wanted, b"") if isinstance(wanted, bytes) else wanted):
                complaints.append(f"{name}: wanted {wanted[:200]}, got {str(found)[:200]}")


def problem_text(constant, nodes, arcs, lines):
    """Returns what `compile` writes of an objective to minimize, with these names of nodes and of arcs from 1 up,
    without offsets."""
    text = [f"c constant {constant}", "c sign 1", *(f"c node {number} {name}" for number, name in enumerate(nodes, 1))]
    text += [f"c arc {number} 0 {name}" for number, name in enumerate(arcs, 1)]
    return "".join(f"{line}\n" for line in [*text, *lines]).encode()


def check_odd_bytes(complaints):
    """Bytes that a row cannot hold: carriage returns, control characters, invalid UTF-8."""
    set_of_words = b"set S; minimize V; node N {S};"
    cases = [
        ("blanks and a comment", b" \t\r\n# all comment", b"", "E56 NoObjective model 1:1"),
        (
            "carriage returns",
            b"param Param := 2;\r\nparam sets := 3;\r\nminimize V:\rParam * sets; # end\r\n",
            b"",
            "6",
        ),
        ("a line feed ends a comment", b"# a \r var x;\nminimize V: 3;", b"", "3"),
        ("a line ends with its line feed", b"set\rA;\r\nvar x;", b"", "E14 LeftOut model 2:1 var"),
        ("invalid UTF-8 after another error", b"@ \xff", b"", "E06 NotUtf8 model 1:3"),
        ("no UTF-8 in a comment of data", b"minimize V;", b"# \xc3(", "E06 NotUtf8 data 1:3"),
        ("a control character in a string", b"minimize V;", b'"a\x7f"', "E01 BadCharacter data 1:3"),
        ("carriage returns in data", set_of_words, b"set S := 1..5 # x\r\n7/* y */;", "N['1..5'] N[7]"),
        ("a line feed at the end of data", set_of_words, b"set S := a;\n", "N['a']"),
    ]
    check_texts(cases, complaints)


def check_lengths(complaints):
    """Tokens and files of the greatest length, and one byte longer; that a string is open is reported before its
    length."""
    model, three = b"param p; minimize V: p;", b"minimize V: 3;"
    one_arc, written = ((TOP / "examples" / "one_arc" / name).read_bytes() for name in ("one_arc.mod", "compile.txt"))
    node, arc, cost = (letter * 255 for letter in ("n", "_", "C"))
    named = f"minimize {cost}; node {node}: net_in = 1; arc {arc} >= 0, <= 2, to {node}, obj {cost} 5;".encode()
    cases = [
        ("a long name", b"minimize %s: 3;" % (b"a" * 255), b"", problem_text(3, [], [], ["p min 1 0"])),
        (
            "three long names",
            named,
            b"",
            problem_text(0, [node], [arc], ["p min 2 1", "n 1 -1", "n 2 1", "a 2 1 0 2 5"]),
        ),
        ("too long a name", b"minimize %s: 3;" % (b"a" * 256), b"", "E07 TextTooLong model 1:10"),
        ("a long numeral", model, b"param p := %s7;" % (b"0" * 254), "7"),
        ("too long a numeral", model, b"param p := %s7;" % (b"0" * 255), "E07 TextTooLong data 1:12"),
        ("too long a string", model, b"'" * 256, "E07 TextTooLong data 1:1"),
        ("a long string that is open", model, b"'" * 257, "E02 OpenString data 1:1"),
        ("a long model", three.ljust(2**20), b"", problem_text(3, [], [], ["p min 1 0"])),
        ("too long a model", three.ljust(2**20 + 1), b"", "E07 TextTooLong model 1:1"),
        ("a network with blanks up to the limit", one_arc.ljust(2**20), b"", written),
        ("a network with a blank more", one_arc.ljust(2**20 + 1), b"", "E07 TextTooLong model 1:1"),
        ("data longer than a model", three, b" " * (2**20 + 1), "3"),
        ("too long data", three, b" " * (2**24 + 1), "E07 TextTooLong data 1:1"),
    ]
    check_texts(cases, complaints)


def check_nesting(complaints):
    """Nested openings: the opening, how often, and what follows; 64 of them can enclose a token."""
    cases = [
        ("(", 64, "1" + ")" * 64, "1"),
        ("(", 100, "", "E11 TooDeep model 1:76"),
        ("-", 64, "1", "1"),
        ("-", 100, "", "E11 TooDeep model 1:76"),
        ("{", 100, "", "E11 TooDeep model 1:76"),
        ("if ", 100, "", "E10 Syntax model 1:15"),
        ("if 1 = 2 then 2 else ", 64, "3", "3"),
        ("if a then b else ", 65, "c", "E11 TooDeep model 1:1100"),
    ]
    texts = [
        (f"{opening} {times} times", f"param p := {opening * times}{after}; minimize V: p;".encode(), b"", wanted)
        for opening, times, after, wanted in cases
    ]
    check_texts(texts, complaints)


def counted(braces):
    """Returns an objective whose constant is the number of keys of these braces."""
    return b"minimize V: sum {%s} 1;" % braces


def check_many(complaints):
    """More than a thousand of each thing, keys of four members, four dummies at once, and the longest string."""
    many = range(1, 1101)
    lines = lambda line: "".join(line.format(i) for i in many).encode()
    two_sets = b"set A := 1..1100; set B := 551..1650; "
    fours = " ".join(f"({i % 7},{i % 11},{i % 13},{i})" for i in many).encode()
    four_values = " ".join(f"{i % 7} {i % 11} {i % 13} {i} {i}" for i in many).encode()
    longest = b"'%s'" % (b"a" * 253)
    total = 1100 * 1101 // 2
    cases = [
        (
            "many statements",
            lines("param p{0};") + b"minimize V: " + b"+".join(b"p%d" % i for i in many) + b";",
            lines("param p{0} := {0};"),
            f"{total}",
        ),
        (
            "many declarations",
            lines("param p{0} := {0};") + lines("set S{0} := {{{0}}};") + b"minimize V: p1100 + sum {i in S1099} i;",
            b"",
            "2199",
        ),
        ("a long union", two_sets + counted(b"A union B"), b"", "1650"),
        ("a long difference", two_sets + counted(b"A diff B"), b"", "550"),
        ("a long intersection", two_sets + counted(b"A inter B"), b"", "550"),
        ("a long symmetric difference", two_sets + counted(b"A symdiff B"), b"", "1100"),
        ("a long product", b"set A := 1..40; set B := 1..30; set C := A cross B; " + counted(b"C"), b"", "1200"),
        ("a long set of data", b"set A;" + counted(b"A"), b"set A := " + lines("m{0} ") + b";", "1100"),
        (
            "many values",
            b"set A; param p {A}; minimize V: sum {i in A} p[i];",
            b"param: A: p := " + lines("m{0} {0} ") + b";",
            f"{total}",
        ),
        (
            "many values by a default",
            b"set A := 1..1100; param p {A} default 3; minimize V: sum {i in A} p[i];",
            b"",
            "3300",
        ),
        (
            "many columns",
            b"set A := 1..2; set B := 1..1100; param p {A, B}; minimize V: sum {i in A, j in B} p[i,j];",
            b"param p: " + lines("{0} ") + b":= 1 " + lines("{0} ") + b"2 " + lines("{0} ") + b";",
            f"{2 * total}",
        ),
        ("many nodes", b"minimize V; " + lines("node N{0};"), b"", " ".join(f"N{i}" for i in many)),
        (
            "keys of four",
            b"set Q dimen 4; param p {Q}; minimize V: sum {(a,b,c,d) in Q: a + b + c + d >= 0} p[a,b,c,d];",
            b"set Q := " + fours + b"; param p := " + four_values + b";",
            f"{total}",
        ),
        ("four dummies", b"set A := 1..6; minimize V: sum {a in A, b in A, c in A, d in A} 1;", b"", "1296"),
        (
            "a string as long as it may be",
            b"set A; minimize V; node N {A};",
            b"set A := " + longest + b";",
            "N[" + longest.decode() + "]",
        ),
        (
            "many items in braces",
            b"set A := 1..1; minimize V: sum {" + b",".join(b"1 in A" for _ in many) + b"} 1;",
            b"",
            "1",
        ),
        ("a check at many keys", b"set A := 1..1100; check {i in A}: i <= 1100; minimize V: 4;", b"", "4"),
    ]
    check_texts(cases, complaints)


SECONDS = 60


def check_slow(complaints):
    """Deep and long input in which an extra step at each position would show."""
    nested_if = b"if (" * 30 + b"1" + b") = 1 then 1 else 0" * 30
    nested_chain = b"(1 + " * 30 + b"1" + b")" * 30
    pairs = b" ".join(b"(%d,%d)" % (i, j) for i in range(1, 1001) for j in range(100))
    declarations = b"".join(b"param p%d := 1;\n" % i for i in range(50000))
    cells = b" ".join(b"m%d 1" % i for i in range(200000))
    cases = [
        ("nested conditions", b"param p := " + nested_if + b"; minimize V: p;", b"", "1"),
        ("nested chains", b"param p := " + nested_chain + b"; minimize V: p;", b"", "31"),
        (
            "pairs that a dummy selects",
            b"set A := 1..1000; set L dimen 2; minimize V: sum {i in A, (i,j) in L} 1;",
            b"set L := " + pairs + b";",
            "100000",
        ),
        ("many declarations", declarations + b"minimize V: p49999;", b"", "1"),
        (
            "many cells",
            b"set S; param p {S}; minimize V: sum {i in S} p[i];",
            b"param: S: p := " + cells + b";",
            "200000",
        ),
    ]
    check_texts(cases, complaints, SECONDS)


def check_items(complaints):
    """Braces of 100,000 items, more than a call stack could hold: sets, which give keys with too many members, and
    items without new dummies, which leave the key empty."""
    many, head = 100_000, b"set A; minimize V: 3; node N; "
    sets, places, members = b",".join([b"A"] * many), b",".join([b"1 in A"] * many), b",".join([b"1"] * many)
    cases = [
        ("items of an arc that are sets", head + b"arc X {%s} >= 0, <= 5, from N;" % sets, "E37 Arity model 1:37"),
        ("items of an arc with in", head + b"arc X {%s} >= 0, <= 5, from N;" % places, "3"),
        ("items of a node", head + b"node M {%s};" % places, "N M[]"),
        ("items of a set", head + b"set B := {%s};" % places, "3"),
        ("members of a set", head + b"set B := {%s}; node M {B};" % members, "N M[1]"),
        ("items of a parameter", head + b"param q {%s} default 1;" % places, "3"),
        ("items of a sum", head + b"param q := sum {%s} 7; check: q = 7;" % places, "3"),
        ("items of a check", head + b"check {%s}: 1 = 1;" % places, "3"),
    ]
    check_texts([(name, model, b"set A := 1 2;", wanted) for name, model, wanted in cases], complaints)


def check_more_limits(complaints):
    """Both sides of the limits on nodes, arcs, keys and components of a model, and on nodes of a problem."""
    head = b"minimize V: 3; node A; "
    nodes, arcs = ([f"{name}[{i}]" for i in range(1, count + 1)] for name, count in (("N", 10_000), ("X", 100_000)))
    cases = [
        (
            "as many nodes as there may be",
            b"minimize V: 3; node N {i in 1..10000};",
            problem_text(3, nodes, [], ["p min 10001 0"]),
        ),
        ("a node more", b"minimize V: 3; node N {i in 1..10001};", "E59 TooManyNodes model 1:21 N"),
        (
            "as many arcs as there may be",
            head + b"arc X {i in 1..100000} >= 0, <= 1, from A;",
            problem_text(3, ["A"], arcs, ["p min 2 100000"] + ["a 1 2 0 1 0"] * 100_000),
        ),
        ("an arc more", head + b"arc X {i in 1..100001} >= 0, <= 1, from A;", "E60 TooManyArcs model 1:28 X"),
        ("as many keys as there may be", b"minimize V: 3; param p {i in 1..1000, j in 1..1000} default 0;", "3"),
        (
            "a row of keys more",
            b"minimize V: 3; param p {i in 1..1001, j in 1..1000} default 0;",
            "E40 TooMany model 1:24",
        ),
        (
            "four components",
            b"minimize V: 3; node N {a in 1..2, b in 1..1, c in 1..1, d in 1..1: a = 1};",
            "N[1,1,1,1]",
        ),
        (
            "five components",
            b"minimize V: 3; node N {a in 1..2, b in 1..1, c in 1..1, d in 1..1, e in 1..1: a = 1};",
            "E37 Arity model 1:23",
        ),
    ]
    check_texts([(name, model, b"", wanted) for name, model, wanted in cases], complaints)
    with tempfile.TemporaryDirectory() as folder:
        path = pathlib.Path(folder) / "limits.min"
        for count, answer in ((20_000, (0, b"s 0\n")), (20_001, (3, b"E77 TooLarge problem 1\n"))):
            path.write_text(f"p min {count} 0\n")
            status, text, stderr = run(["min", path])
            if (status, (stderr or text)[: len(answer[1])]) != answer:
                complaints.append(f"{count} nodes of a problem: status {status}, {stderr!r}")
