"""Usual mistakes in models and data, with the error that each gives and the hint of netflow-explain. Each is one change
of a small correct model."""
import dataclasses

MODEL = """set DEPOTS;
set SHOPS;
param last;
param has {DEPOTS} >= 0;
param wants {SHOPS, 1..last} >= 0; param room;
param cost {DEPOTS, SHOPS}; set NEAR within DEPOTS cross SHOPS;

minimize Total;
node Depot {d in DEPOTS}: net_out <= has[d];
node Shop {s in SHOPS, t in 1..last}: net_in = wants[s,t];
arc Drive {d in DEPOTS, s in SHOPS, t in 1..last} >= 0, <= 40,
    from Depot[d], to Shop[s,t], obj Total cost[d,s];
arc Keep {s in SHOPS, t in 1..last - 1} >= 0, <= room,
    from Shop[s,t], to Shop[s,t + 1], obj Total 1;
"""

DATA = """set DEPOTS := Linz Graz;
set SHOPS := Wien Enns 'Sankt Veit';
param last := 2;
param has :=
Linz 90
Graz 100;
param wants: 1 2 :=
Wien 20 10
Enns 15 30
'Sankt Veit' 5 25;
param cost: Wien Enns 'Sankt Veit' :=
Linz 3 1 9
Graz 5 6 4;
param room := 9;
set NEAR := (Linz, Wien) (Graz, Enns);
"""


def quoted(text):
    return "'" + text.replace("'", "''") + "'"


@dataclasses.dataclass
class Mistake:
    """In the model or the data `right` becomes `wrong`; no `right` exchanges the two texts."""

    name: str
    text: str
    right: str
    wrong: str
    fault: str
    guess: str

    def texts(self):
        if not self.right:
            return DATA, MODEL
        texts = {"model": MODEL, "data": DATA}
        assert texts[self.text].count(self.right) >= 1, self.name
        texts[self.text] = texts[self.text].replace(self.right, self.wrong, 1)
        return texts["model"], texts["data"]


# fmt: off
ROWS = (
    ("no ; in the model", "model", "set SHOPS;", "set SHOPS", "E14 LeftOut model 3:1 param",
     "is a ; missing at the end of line 2?"),
    ("no ; before a node", "model", "minimize Total;", "minimize Total", "E10 Syntax model 9:1",
     "is a ; missing at the end of line 8?"),
    ("no ; in the data", "data", "param last := 2;", "param last := 2", "E20 Syntax data 4:",
     "is a ; missing at the end of line 3?"),
    ("no ; before a table", "data", "Graz 100;", "Graz 100", "E20 Syntax data 7:",
     "is a ; missing at the end of line 6?"),
    ("files exchanged", "model", "", "", "E14 LeftOut model 1:", "are the two files exchanged?"),
    ("a comma in a number", "data", "Linz 3 1 9", "Linz 3 1,5 9", "E21 RowWidth data 13:",
     "line 12 has 5 cells, and 4 are expected: is a comma part of a number?"),
    ("an empty cell", "data", "Wien 20 10", "Wien 20", "E21 RowWidth data 10:",
     "line 8 has 2 cells, and 3 are expected"),
    ("a name with a blank", "data", "'Sankt Veit' 5 25", "Sankt Veit 5 25", "E21 RowWidth data 10:",
     "line 10 has 4 cells, and 3 are expected"),
    ("a fraction", "data", "Linz 90", "Linz 90.5", "E04 NotWhole data 5:6", "scale the column"),
    ("a letter in a number", "data", "Graz 100", "Graz 1O0", "E36 KindMismatch data 6:6", "1O0: is 100 meant?"),
    ("= in data", "data", "param last := 2", "param last = 2", "E01 BadCharacter data 3:12", "write := for = in data"),
    ("a typographic quote", "data", "'Sankt Veit'", "\u2018Sankt Veit\u2019", "E01 BadCharacter data 2:",
     "LEFT SINGLE QUOTATION MARK"),
    ("a byte order mark", "data", "set DEPOTS", "\ufeffset DEPOTS", "E01 BadCharacter data 1:1", "a byte order mark"),
    ("a member misspelt", "data", "Enns 15 30", "Ens 15 30", "E33 OutsideSet data 9:1 wants['Ens',1]",
     "Ens: is Enns meant?"),
    ("a member in another case", "data", "Graz 100", "graz 100", "E33 OutsideSet data 6:1 has['graz']",
     "graz: is Graz meant?"),
    ("a parameter misspelt in the data", "data", "param wants:", "param want:", "E30 NoSuchName data 7:7 want",
     "want: is wants meant?"),
    ("a name misspelt in the model", "model", "net_out <= has[d]", "net_out <= hass[d]",
     "E12 Undeclared model 9:38 hass", "hass: is has meant?"),
    ("a name in another case", "model", "obj Total 1", "obj total 1", "E12 Undeclared model 14:43 total",
     "total: is Total meant?"),
    ("a table that is not turned", "data", "param cost: Wien Enns 'Sankt Veit' :=\nLinz 3 1 9\nGraz 5 6 4;",
     "param cost: Linz Graz :=\nWien 3 5\nEnns 1 6\n'Sankt Veit' 9 4;", "E33 OutsideSet data 12:1 cost['Wien','Linz']",
     "are the two members exchanged?"),
    ("a row forgotten", "data", "Enns 15 30\n", "", "E32 NoValue model 10:48 wants['Enns',1]",
     "the data have no row of wants['Enns',1]; the nearest: wants['Wien',1] in line 8, wants['Sankt Veit',1] in "
     "line 9"),
    ("no data for a set", "data", "set SHOPS := Wien Enns 'Sankt Veit';\n", "", "E32 NoValue model 2:5",
     "the data have no statement for SHOPS"),
    ("a row twice", "data", "Graz 100;", "Graz 100 Linz 5;", "E31 DoubleValue data 6:10 has['Linz']",
     "remove one of the two"),
    ("below 0", "data", "Linz 90", "Linz -90", "E34 Restriction model 4:23 has['Linz']",
     "has['Linz'] is -90 in line 5, column 6; the model has >= 0"),
    ("a dot for a value", "data", "Enns 15 30", "Enns . 30", "E32 NoValue model 10:48 wants['Enns',1]",
     "wants['Enns',1] is a missing-value dot in line 9, column 6"),
    ("no row for a key", "data", "Graz 100;", ";", "E32 NoValue model 9:38 has['Graz']",
     "the data have no row of has['Graz']; has is in line 5"),
    ("a pair of no set", "data", "(Graz, Enns)", "(Graz, Ens)", "E34 Restriction model 6:45 NEAR",
     "(Graz,Ens) in line 15 is not in DEPOTS cross SHOPS: SHOPS has no Ens"),
    ("an arc too far", "model", "t in 1..last - 1} >=", "t in 1..last} >=", "E50 NoSuchNode model 14:24 Shop['Wien',3]",
     "its braces end one period earlier"),
    ("no upper bound", "model", ">= 0, <= room,", ">= 0,", "E52 NoUpper model 13:5 Keep",
     "room is declared and used nowhere: is the bound meant to be it?"),
    ("= as a bound", "model", ">= 0, <= room,", "= room,", "E14 LeftOut model 13:41 =", "are >= and <= meant?"),
    ("from without to", "model", "from Shop[s,t], to Shop", "from Shop[s,t], Shop", "E14 LeftOut model 14:21 Shop",
     "is a to missing before Shop?"),
    ("if in a sum", "model", "net_in = wants[s,t]", "net_in = wants[s,t] - if t = 1 then 1", "E10 Syntax model 10:61",
     "put an if that is an operand in parentheses"),
    ("subject to", "model", "minimize Total;", "minimize Total;\nsubject to Limit: 1 <= 2;",
     "E14 LeftOut model 9:1 subject", "becomes a node: node B"),
    ("no : before a condition", "model", "}: net_out", "} net_out", "E16 NetPlace model 9:26",
     "is a : missing before net_out?"),
    ("a ; too many", "data", "param last := 2;", "param last := 2;;", "E20 Syntax data 3:17",
     "is this ; one too many?"),
    ("no param in the data", "data", "param last", "last", "E20 Syntax data 3:1",
     "is set or param missing before last?"),
    ("no ; inside a line", "model", "set SHOPS;", "set SHOPS param x;", "E14 LeftOut model 2:11",
     "is a ; missing before param?"),
    ("a word twice", "data", "param last", "param param last", "E20 Syntax data 3:13", "is param written twice?"),
    ("a cell missing in a list", "data", "Linz 90\nGraz 100;", "Linz 90 Graz;", "E37 Arity data 5:9",
     "the cells from Graz on do not fit"),
    ("a bracket that is not closed", "model", "wants[s,t];", "wants[s,t;", "E10 Syntax model 10:57",
     "is the [ before it not closed?"),
    ("a bracket too many", "model", "<= has[d];", "<= has[d]];", "E10 Syntax model 9:44",
     "is this ] one too many, or its [ missing?"),
    ("two words exchanged", "model", "param last;", "last param;", "E14 LeftOut model 3:1 last",
     "are last and param the wrong way round?"),
    ("no objective", "model", "minimize Total;\n", "", "E12 Undeclared model 11:38 Total",
     "declare the objective: minimize Total;"),
)
# fmt: on
MISTAKES = [Mistake(*row) for row in ROWS]
