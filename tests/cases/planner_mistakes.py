"""Further mistakes of planners: spreadsheets as data, headings, grouped digits, words of AMPL and GLPK, in the bread of
examples/bread, the cities of examples/cities, and small models. The fields are those of port_mistakes, after the texts
that are changed."""
import io
import pathlib
import zipfile

EXAMPLES = pathlib.Path(__file__).resolve().parent.parent.parent / "examples"


def example(name):
    return {kind: (EXAMPLES / name / f"{name}.{kind[:3]}").read_text(encoding="utf-8") for kind in ("model", "data")}


def workbook():
    """Returns a ZIP file that begins as those of spreadsheets do; its compressed bytes are no UTF-8."""
    made = io.BytesIO()
    with zipfile.ZipFile(made, "w", zipfile.ZIP_DEFLATED) as book:
        book.writestr(
            "[Content_Types].xml",
            "<Types>" + "".join(f"<Override PartName='/xl/{index * index}.xml'/>" for index in range(99)) + "</Types>",
        )
    return made.getvalue()


BREAD, CITIES = example("bread"), example("cities")
TERM = (
    "Feed is a term of the condition of Plant: write an arc to Plant[p] without from, and leave Feed out of the"
    " condition:"
)
FEED = {
    "model": """set PLANTS; param least {PLANTS};
minimize Total;
arc Feed {p in PLANTS} >= least[p], <= 10;
node Plant {p in PLANTS}: net_out = Feed[p];
node Town: net_in = 20;
arc Send {p in PLANTS} >= 0, <= 20, from Plant[p], to Town, obj Total 1;
""",
    "data": "set PLANTS := a b;\nparam least := a 1 b 5;\n",
}
PAIRS = {
    "model": """minimize Total;
set P := 1..2000;
set Q := 2..2000;
node Plant {p in P}: net_out <= 1;
node Town {q in Q}: net_in <= 1;
arc Ship {p in P, q in {p}} >= 0, <= 1, from Plant[p], to Town[q], obj Total 1;
""",
    "data": "",
}
BLANK = {**BREAD, "data": BREAD["data"].replace("hill", "'Old hill'")}
WEEKS = {
    "model": """set WEEKS;
param need {WEEKS};
minimize Total;
node Week {t in WEEKS}: net_in = need[t];
arc Make {t in WEEKS} >= 0, <= 30, to Week[t], obj Total 2;
arc Keep {t in WEEKS: t + 1 in WEEKS} >= 0, <= 9, from Week[t], to Week[t + 1], obj Total 1;
""",
    "data": "set WEEKS := 1 2 3;\nparam need := 1 10 2 20 3 30;\n",
}

# fmt: off
MISTAKES = (
    (BREAD, "a whole workbook as data", "data", "", workbook(), "E06",
     "this is a spreadsheet (.xlsx): `netflow-sheet list FILE.xlsx` makes data of it", "Latin-1"),
    (BREAD, "an old workbook as data", "data", "", b"\xd0\xcf\x11\xe0\xa1\xb1\x1a\xe1\x00\xff", "E06",
     "save it as .xlsx", "Latin-1"),
    (BREAD, "a default of a statement", "data", "param bakes :=", "param default 0: bakes :=", "E20",
     "give default with each name: param bakes default 0 := ..", "missing"),
    (BREAD, "a default of two names", "data", "param van := 40;",
     "param van := 40;\nparam default 5 : bakes wants := north 60 1;", "E20",
     "param bakes default 5 := ; param wants default 5 := ; param: bakes wants := ..", "missing"),
    (CITIES, "a default of each column", "data", "param supply default 0 := PITT 450;",
     "param: supply default 0 demand default 1 := PITT 450 0;", "E20",
     "param supply default 0 := ; param demand default 1 := ; param: supply demand := ..", "missing"),
    (BREAD, "no colon of a table", "data", "param cost:", "param cost", "E20", "is a : missing after cost?",
     ":= missing"),
    (BLANK, "a name with a blank in a heading", "data", "'Old hill' lake mill :=", "Old hill lake mill :=", "E21",
     "the heading in line 6 has 4 columns, and each row has 3 values: write a name with a blank in quotes, 'Old hill'",
     "line 7"),
    (BREAD, "two words in a heading", "data", "hill lake mill :=", "hill lake side mill :=", "E21",
     "the heading in line 6 has 4 columns, and each row has 3 values: is a name with a blank in it?", "line 7"),
    (BREAD, "a column missing in a heading", "data", "hill lake mill :=", "hill lake :=", "E21",
     "the heading in line 6 has 2 columns, and each row has 3 values: is mill missing in the heading?", "line 7"),
    (BREAD, "a blank in the names of all rows", "data", "north    4    6    9\n      south    7",
     "north end    4    6    9\n      south end    7", "E21",
     "is a name with a blank in the rows? Write it with quotes, 'north end'", "line 7"),
    (BREAD, "columns that the model lacks", "data", "param wants := hill 30, lake 45, mill 25;",
     "param: region wants remark := hill N 30 urgent lake S 45 . mill S 25 .;", "E30",
     "the model has no region and no remark: leave the columns out (netflow-sheet list SHEET --columns KEY,wants)",
     "is bakes meant"),
    (WEEKS, "a range in data", "data", "set WEEKS := 1 2 3;", "set WEEKS := 1..3;", "E33",
     "data have no ranges: write 1 2 3 in line 1, or set WEEKS := 1..3; in the model", "whose members are texts"),
    (WEEKS, "a long range in data", "data", "set WEEKS := 1 2 3;", "set WEEKS := 1..52;", "E33",
     "write 1 2 3 4 5 6 .. 52 in line 1", "whose members are texts"),
    (FEED, "a variable in a condition", "model", "arc Feed", "var Feed", "E14",
     f"{TERM} arc Feed {{p in PLANTS}} .., to Plant[p]", "a network has arcs"),
    (FEED, "an arc in a condition", "model", "param least", "param least", "E12",
     f"{TERM} arc Feed {{p in PLANTS}} .., to Plant[p]", "already counts"),
    (FEED, "a variable in a condition with net_in", "model", "net_out = Feed", "net_in = Feed", "E12",
     "write an arc from Plant[p] without to, and leave", "already counts"),
    (FEED, "a variable with another index", "model", "arc Feed {p in PLANTS} >= least[p]",
     "var Feed {i in PLANTS} >= least[i]", "E14",
     "write an arc to Plant[i] without from, and leave Feed out of the condition: arc Feed {i in PLANTS} .., to "
     "Plant[i]", "a network has arcs"),
    (FEED, "a sum of variables in a condition", "model", "net_out = Feed[p];\nnode Town: net_in = 20",
     "net_out <= 9;\nnode Town: net_in = 20 + sum {p in PLANTS} Feed[p]", "E12",
     "write an arc from Town without to, and leave Feed out of the condition: arc Feed {p in PLANTS} .., from Town",
     "already counts"),
    (FEED, "a sum of variables that is subtracted", "model", "net_out = Feed[p];\nnode Town: net_in = 20",
     "net_out <= 9;\nnode Town: net_in = 20 - sum {p in PLANTS} Feed[p]", "E12", "write an arc to Town without from",
     "already counts"),
    (BREAD, "a var in no condition", "model", "node Bakery", "var Sold {SHOPS} >= 0;\nnode Bakery", "E14",
     "var: a network has arcs", "term"),
    (BREAD, "two data files joined", "data", "south    7    5    3;", f"south 7 5 3;\n{BREAD['data']}", "E31",
     "its first statement is in line 1; are two data files joined? Give both to the tools", "remove one"),
    (BREAD, "two defaults", "data", "param bakes := north 60, south 50;",
     "param bakes default 1 := north 60;\nparam bakes default 2 := south 50;", "E31",
     "bakes has a default in an earlier statement: its statements are in line 3, 4; keep one default", "joined"),
    (BREAD, "a second statement of a parameter", "data", "south    7    5    3;",
     "south 7 5 3;\nparam bakes := south 40;", "E31",
     "bakes['south'] is 50 in line 3 and 40 in line 9: remove one of the two Hint: its first statement is in line "
     "3; are two data files joined?", None),
    (PAIRS, "too many tuples", "model", "q in {p}}", "q in Q: p = q}", "E40",
     "Ship has 2,000 x 1,999 = 3,998,000 tuples before the condition is evaluated, and 1,000,000 are the most: "
     "write {p in P inter Q, q in {p}}", "put the smaller"),
    (PAIRS, "too many tuples of two conditions", "model", "q in {p}}", "q in Q: p > 5 and q = p}", "E40",
     "write {p in P inter Q, q in {p}: p > 5}", "put the smaller"),
    (PAIRS, "too many tuples of one set", "model", "{p in P, q in {p}}", "{p in P, q in P: p = q and p in Q}", "E40",
     "write {p in P, q in {p}: p in Q}", "put the smaller"),
    (PAIRS, "too many arcs", "model", "arc Ship {p in P, q in {p}}", "arc Ship {p in 1..500, q in 2..401}", "E60",
     "Ship has 500 x 400 = 200,000 arcs, and 100,000 are the most: index it by a set of the tuples that exist",
     "split"),
    (BREAD, "an error value in a list", "data", "north 60, south 50", "north #N/A, south 50", "E20",
     "#N/A in line 3 is an error value of a spreadsheet, and # begins a comment", "missing at"),
    (BREAD, "an error value in a table", "data", "4    6    9", "4    #DIV/0!    9", "E21",
     "#DIV/0! in line 7 is an error value of a spreadsheet", "cells"),
    (BREAD, "a number in quotes", "data", "hill 30", 'hill "30"', "E36", '"30" is a text: write 30', "cells"),
    (BREAD, "a number in quotes in a table", "data", "4    6    9", "4    '6'    9", "E36", "'6' is a text: write 6",
     "4O"),
    (BREAD, "a decimal comma in a list", "data", "hill 30", "hill 30,5", "E37",
     "30,5 in line 4: is 30.5 meant? Decimals have a point", "cells"),
    (BREAD, "a comma for thousands in a list", "data", "north 60", "north 1,060", "E37",
     "1,060 in line 3: is 1060 meant? Digits are not grouped", "cells"),
    (BREAD, "a blank for thousands in a list", "data", "hill 30", "hill 1 030", "E37",
     "1 030 in line 4: is 1030 meant? Digits are not grouped", "cells"),
    (BREAD, "two decimal commas in a list", "data", "hill 30, lake 45", "hill 30,5, lake 45,5", "E3",
     "30,5 in line 4: is 30.5 meant? Decimals have a point", "cells"),
    (WEEKS, "commas between numbers", "data", "1 10 2 20 3 30", "1 10,2 20,9 30", "E33", "9 is not in WEEKS", "meant?"),
    (BREAD, "a decimal comma in one value", "data", "van := 40", "van := 30,5", "E31",
     "is the comma part of a number? Decimals have a point: 30.5", "305"),
    (BREAD, "two points", "data", "hill 30", "hill 1.200.000", "E36",
     "1.200.000: is 1200000 meant? A point begins decimals", "cells"),
    (BREAD, "the last ; before a comment", "model", "obj Total cost[b,s];", "obj Total cost[b,s]  # per loaf", "E10",
     "is a ; missing at the end of line 13?", "check the token"),
    (BREAD, "the last ; of the data before a comment", "data", "7    5    3;", "7    5    3  # end\n# of May", "E20",
     "is a ; missing at the end of line 8?", "look for"),
    (BREAD, "a range in two parts with a subscript", "model", "net_in = wants[s]", "net_in >= 2, <= wants[s]", "E10",
     "a range is one condition: 2 <= net_in <= wants[s]", "check the"),
    (BREAD, "crossed bounds", "model", ">= 0, <= van", ">= bakes[b], <= van", "E53",
     "the lower bound, bakes['north'] = 60 in line 3, is above the upper bound, van = 40 in line 5", "see bakes"),
    (BREAD, "a number above an upper bound", "model", ">= 0, <= van", ">= 50, <= van", "E53",
     "the lower bound, 50, is above the upper bound, van = 40 in line 5", "exchange"),
    (BREAD, "coeff after from", "model", "to Shop[s]", "coeff Shop[s] 1", "E14", "coeff Shop[s] 1: write to Shop[s]",
     "missing before"),
    (BREAD, "coeff -1", "model", "from Bakery[b]", "coeff Bakery[b] -1", "E14",
     "coeff Bakery[b] -1: write from Bakery[b]", "gain"),
    (BREAD, "another coeff", "model", "to Shop[s]", "coeff Shop[s] 2", "E14", "another coefficient is a gain",
     "missing before"),
    (BREAD, "cover", "model", "to Shop[s]", "cover {i in SHOPS: i <> s} Shop[i]", "E14",
     "an arc has one `to`: an arc that reaches several nodes at once makes no network", "missing before"),
    (BREAD, "= after the objective", "model", "obj Total cost[b,s]", "obj Total = cost[b,s]", "E10",
     "no = comes after the objective's name: obj Total cost[b,s]", "bound"),
    (BREAD, "an end with parentheses", "model", "from Bakery[b]", "from Bakery(b)", "E15",
     "subscripts are in brackets: Bakery[b]", "gain"),
    (BREAD, "two pairs of brackets", "model", "cost[b,s];", "cost[b][s];", "E10",
     "subscripts are in one pair of brackets: cost[b,s]", "check the token"),
    (BREAD, "an index in brackets", "model", "Drive {b in BAKERIES, s in SHOPS}", "Drive [b in BAKERIES, s in SHOPS]",
     "E10", "an index is in braces: arc Drive {b in BAKERIES, s in SHOPS}", "check the token"),
    (BREAD, "no comma between sets", "model", "{BAKERIES, SHOPS}", "{BAKERIES SHOPS}", "E10",
     "is a , missing before SHOPS?", "check the token"),
    (BREAD, "no comma between indices", "model", "{b in BAKERIES, s in SHOPS}", "{b in BAKERIES s in SHOPS}", "E10",
     "is a , missing before s?", "check the token"),
)
# fmt: on
