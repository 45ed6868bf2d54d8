"""Models of AMPL's chapter on networks, in its notation: what node and arc models say runs with decimals and without
bounds, and of the others the message names the word and its replacement."""
import pytest

import netflow
from support import run, write

CITIES = """set CITIES;
set LINKS within (CITIES cross CITIES);
param supply {CITIES} >= 0;   # amounts available at cities
param demand {CITIES} >= 0;   # amounts required at cities
   check: sum {i in CITIES} supply[i] = sum {j in CITIES} demand[j];
param cost {LINKS} >= 0;      # shipment costs/1000 packages
param capacity {LINKS} >= 0;  # max packages that can be shipped
"""
NODE = """minimize Total_Cost;
node Balance {k in CITIES}: net_in = demand[k] - supply[k];
arc Ship {(i,j) in LINKS} >= 0, <= capacity[i,j],
   from Balance[i], to Balance[j], obj Total_Cost cost[i,j];
"""
VAR = """var Ship {(i,j) in LINKS} >= 0, <= capacity[i,j];
minimize Total_Cost: sum {(i,j) in LINKS} cost[i,j] * Ship[i,j];
subject to Balance {k in CITIES}:
   supply[k] + sum {(i,k) in LINKS} Ship[i,k] = demand[k] + sum {(k,j) in LINKS} Ship[k,j];
"""
DATA = """set CITIES := PITT NE SE BOS EWR BWI ATL MCO ;
set LINKS := (PITT,NE) (PITT,SE)
             (NE,BOS) (NE,EWR) (NE,BWI)
             (SE,EWR) (SE,BWI) (SE,ATL) (SE,MCO);
param supply default 0 := PITT 450 ;
param demand default 0 :=
  BOS 90, EWR 120, BWI 120, ATL 70, MCO 50;
param:      cost  capacity  :=
  PITT NE    2.5    250
  PITT SE    3.5    250
  NE BOS     1.7    100
  NE EWR     0.7    100
  NE BWI     1.3    100
  SE EWR     1.3    100
  SE BWI     0.8    100
  SE ATL     0.2    100
  SE MCO     2.1    100 ;
"""
DIST = """set D_CITY;
set W_CITY;
set DW_LINKS within (D_CITY cross W_CITY);
param p_supply >= 0;
param w_demand {W_CITY} >= 0;
   check: p_supply = sum {j in W_CITY} w_demand[j];
param pd_cost {D_CITY} >= 0;
param dw_cost {DW_LINKS} >= 0;
param pd_cap {D_CITY} >= 0;
param dw_cap {DW_LINKS} >= 0;
minimize Total_Cost;
node Plant: net_out = p_supply;
node Dist {i in D_CITY};
node Whse {j in W_CITY}: net_in = w_demand[j];
arc PD_Ship {i in D_CITY} >= 0, <= pd_cap[i],
   from Plant, to Dist[i], obj Total_Cost pd_cost[i];
arc DW_Ship {(i,j) in DW_LINKS} >= 0, <= dw_cap[i,j],
   from Dist[i], to Whse[j], obj Total_Cost dw_cost[i,j];
"""
DIST_DATA = """set D_CITY := NE SE ;
set W_CITY := BOS EWR BWI ATL MCO ;
set DW_LINKS := (NE,BOS) (NE,EWR) (NE,BWI) (SE,EWR) (SE,BWI) (SE,ATL) (SE,MCO);
param p_supply := 450 ;
param w_demand := BOS 90, EWR 120, BWI 120, ATL 70, MCO 50;
param: pd_cost pd_cap := NE 2.5 250 SE 3.5 250;
param: dw_cost dw_cap :=
  NE BOS 1.7 100 NE EWR 0.7 100 NE BWI 1.3 100 SE EWR 1.3 100 SE BWI 0.8 100 SE ATL 0.2 100 SE MCO 2.1 100;
"""
TRANS = """set ORIG;
set DEST;
param supply {ORIG} >= 0;
param demand {DEST} >= 0;
   check: sum {i in ORIG} supply[i] = sum {j in DEST} demand[j];
param cost {ORIG,DEST} >= 0;
minimize Total_Cost;
node Supply {i in ORIG}: net_out = supply[i];
node Demand {j in DEST}: net_in = demand[j];
arc Trans {i in ORIG, j in DEST} >= 0,
   from Supply[i], to Demand[j], obj Total_Cost cost[i,j];
"""
TRANS_DATA = """param: ORIG: supply := GARY 1400 CLEV 2600 PITT 2900 ;
param: DEST: demand := FRA 900 DET 1200 LAN 600 WIN 400 STL 1700 FRE 1100 LAF 1000 ;
param cost: FRA DET LAN WIN STL FRE LAF :=
   GARY 39 14 11 14 16 82 8
   CLEV 27 9 12 9 26 95 17
   PITT 24 14 17 13 28 99 20 ;
"""
MAXFLOW = """set INTER;
param entr symbolic in INTER;
param exit symbolic in INTER, <> entr;
set ROADS within (INTER diff {exit}) cross (INTER diff {entr});
param cap {ROADS} >= 0;
node Intersection {k in INTER};
arc Traff_In >= 0, to Intersection[entr];
arc Traff_Out >= 0, from Intersection[exit];
arc Traff {(i,j) in ROADS} >= 0, <= cap[i,j],
   from Intersection[i], to Intersection[j];
maximize Entering_Traff: Traff_In;
"""
MAXFLOW_DATA = """data;
set INTER := a b c d e f g ;
param entr := a ;
param exit := g ;
param: ROADS: cap := a b 50, a c 100, b d 40, b e 20, c d 60, c f 20, d e 50, d f 60, e g 70, f g 70 ;
"""
THROUGH = (
    CITIES
    + """param city_cap {CITIES} >= 0;
minimize Total_Cost;
node Supply {k in CITIES}: net_out = supply[k];
node Demand {k in CITIES}: net_in = demand[k];
arc Ship {(i,j) in LINKS} >= 0, <= capacity[i,j],
   from Demand[i], to Supply[j], obj Total_Cost cost[i,j];
arc Through {k in CITIES} >= 0, <= city_cap[k],
   from Supply[k], to Demand[k];
"""
)
ASSIGN = (
    TRANS.replace("ORIG", "PEOPLE")
    .replace("DEST", "PROJECTS")
    .replace(">= 0,\n", ">= 0, <= limit[i,j],\n")
    .replace("minimize", "param limit {PEOPLE,PROJECTS} >= 0;\nminimize")
    .replace("Trans {", "Assign {")
)
# Eleven people and offices, of whom each gets one; the numbers are their preferences.
ASSIGN_DATA = """set PEOPLE := Coullard Daskin Hazen Hopp Iravani Linetsky Mehrotra Nelson Smilowitz Tamhane White ;
set PROJECTS := C118 C138 C140 C246 C250 C251 D237 D239 D241 M233 M239;
param supply default 1 ;
param demand default 1 ;
param limit default 1 ;
param cost:
           C118 C138 C140 C246 C250 C251 D237 D239 D241 M233 M239 :=
Coullard     6    9    8    7   11   10    4    5    3    2    1
Daskin      11    8    7    6    9   10    1    5    4    2    3
Hazen        9   10   11    1    5    6    2    7    8    3    4
Hopp        11    9    8   10    6    5    1    7    4    2    3
Iravani      3    2    8    9   10   11    1    5    4    6    7
Linetsky    11    9   10    5    3    4    6    7    8    1    2
Mehrotra     6   11   10    9    8    7    1    2    5    4    3
Nelson      11    5    4    6    7    8    1    9   10    2    3
Smilowitz   11    9   10    8    6    5    7    3    4    1    2
Tamhane      5    6    9    8    4    3    7   10   11    2    1
White       11    9    8    4    6    5    3   10    7    2    1 ;
"""
# A model, its data, the value, and whether it needs bounds. The values are the book's, and NetworkX's; 1829 is 1819 and
# 20 times 0.5, since 20 of the 250 through NE have to reach BWI through SE.
RUNS = (
    ("net1node", CITIES + NODE, DATA, 1819, False),
    ("net3node", DIST, DIST_DATA, 1819, False),
    ("netthru", THROUGH, DATA + "param city_cap default 1000 := NE 230;\n", 1829, False),
    ("nettrans", TRANS, TRANS_DATA, 196200, True),
    ("netasgn", ASSIGN, ASSIGN_DATA, 28, False),
    ("netmax3", MAXFLOW, MAXFLOW_DATA, 130, True),
)
PATH = """set INTER;
param entr symbolic in INTER;
param exit symbolic in INTER, <> entr;
set ROADS within (INTER diff {exit}) cross (INTER diff {entr});
"""
MAX_VAR = (
    PATH
    + """param cap {ROADS} >= 0;
var Traff {(i,j) in ROADS} >= 0, <= cap[i,j];
maximize Entering_Traff: sum {(entr,j) in ROADS} Traff[entr,j];
subject to Balance {k in INTER diff {entr,exit}}:
  sum {(i,k) in ROADS} Traff[i,k] = sum {(k,j) in ROADS} Traff[k,j];
"""
)
SHORT_VAR = (
    PATH
    + """param time {ROADS} >= 0;
var Use {(i,j) in ROADS} >= 0;
minimize Total_Time: sum {(i,j) in ROADS} time[i,j] * Use[i,j];
subject to Start: sum {(entr,j) in ROADS} Use[entr,j] = 1;
subject to Balance {k in INTER diff {entr,exit}}:
  sum {(i,k) in ROADS} Use[i,k] = sum {(k,j) in ROADS} Use[k,j];
"""
)
DIST_VAR = (
    DIST.split("minimize")[0]
    + """var PD_Ship {i in D_CITY} >= 0, <= pd_cap[i];
var DW_Ship {(i,j) in DW_LINKS} >= 0, <= dw_cap[i,j];
minimize Total_Cost:
   sum {i in D_CITY} pd_cost[i] * PD_Ship[i] + sum {(i,j) in DW_LINKS} dw_cost[i,j] * DW_Ship[i,j];
subject to P_Bal: sum {i in D_CITY} PD_Ship[i] = p_supply;
subject to D_Bal {i in D_CITY}: PD_Ship[i] = sum {(i,j) in DW_LINKS} DW_Ship[i,j];
subject to W_Bal {j in W_CITY}: sum {(i,j) in DW_LINKS} DW_Ship[i,j] = w_demand[j];
"""
)
MULTI = """set CITIES;
set LINKS within (CITIES cross CITIES);
set PRODS;
param supply {CITIES,PRODS} >= 0;
param demand {CITIES,PRODS} >= 0;
   check {p in PRODS}: sum {i in CITIES} supply[i,p] = sum {j in CITIES} demand[j,p];
param cost {LINKS,PRODS} >= 0;
param capacity {LINKS,PRODS} >= 0;
param cap_joint {LINKS} >= 0;
minimize Total_Cost;
node Balance {k in CITIES, p in PRODS}: net_in = demand[k,p] - supply[k,p];
arc Ship {(i,j) in LINKS, p in PRODS} >= 0, <= capacity[i,j,p],
   from Balance[i,p], to Balance[j,p], obj Total_Cost cost[i,j,p];
subject to Multi {(i,j) in LINKS}: sum {p in PRODS} Ship[i,j,p] <= cap_joint[i,j];
"""
FEEDS = """set FEEDS;
param supply {FEEDS} >= 0;
param cost {FEEDS} >= 0;
var Buy {j in FEEDS} >= 0, <= supply[j];
minimize Total_Cost: sum {j in FEEDS} cost[j] * Buy[j];
node Mix: net_out = sum {j in FEEDS} Buy[j];
"""
# A model of the chapter that cannot run, and the word that its message has to name, with a part of the replacement.
NAMED = (
    ("net1", CITIES + VAR, DATA, "var", "arc X"),
    (
        "net1 without var",
        CITIES
        + VAR.split("\n", 1)[1].replace(
            "minimize Total_Cost: sum {(i,j) in LINKS} cost[i,j] * Ship[i,j];", "minimize Total_Cost;"
        ),
        DATA,
        "subject",
        "node B",
    ),
    ("net2", DIST_VAR, DIST_DATA, "var", "arc X"),
    ("netmax", MAX_VAR, MAXFLOW_DATA, "var", "arc X"),
    ("netshort", SHORT_VAR, MAXFLOW_DATA, "var", "arc X"),
    ("netmulti", MULTI, "", "subject to", "node B"),
    ("netfeeds", FEEDS, "", "var", "arc Buy {j in FEEDS} .., to Mix"),
    (
        "netmax with if",
        "set S; param entr symbolic; maximize T; node A {k in S}: net_out = if k = entr then 1 else 0;",
        "",
        "if",
        "parentheses",
    ),
    ("netthru with to_come", "set S; minimize C; node A {k in S}: to_come = 0;", "", "to_come", "from and to"),
    ("coeff", "minimize C; node A; arc X >= 0, <= 1, from A, coeff A 1;", "", "coeff", "write to A"),
    (
        "piecewise",
        "minimize C; node A; arc X >= 0, <= 9, from A, obj C <<5; 1, 2>>;",
        "",
        "<<",
        "one arc for each piece",
    ),
    ("gain", "minimize C; node A; node B; arc X >= 0, <= 9, from A, to B 0.9;", "", "gain", "arrives at the other"),
    ("division", "param p := 3; param q := p / 2; minimize C; node A;", "", "/", "div"),
    ("Infinity", "minimize C; node A; arc X >= 0, <= Infinity, from A;", "", "Infinity", "--bounds"),
    ("equal sign", "param p = 40; minimize C;", "", "=", ":="),
    ("ordered", "set S ordered; minimize C;", "", "ordered", "1..T"),
    ("exists", "set S; check: exists {i in S} i > 0; minimize C;", "", "exists", "sum"),
    ("solve", "minimize C; node A; solve;", "", "solve", "netflow solve"),
    (
        "data in the model",
        "set S; minimize C; node A;\ndata;\nset S := a;",
        "set S := b;",
        "data",
        "a file of their own",
    ),
    ("s.t.", "minimize C; node A; s.t. x: 1 = 1;", "", "s.t.", "node B"),
)


@pytest.mark.parametrize("name, model, data, value, has_no_bounds", RUNS, ids=[run[0] for run in RUNS])
def test_model_of_the_book(tmp_path, name, model, data, value, has_no_bounds):
    """From Python and by the commands: decimals as they are, and bounds by one option."""
    assert netflow.solve(model, data, bounds=has_no_bounds).value == value
    words = [write(tmp_path, f"{name}.mod", model), write(tmp_path, f"{name}.dat", data)]
    status, text, said = run("netflow-sheet", "plan", *words, "--grid", *["--bounds"] * has_no_bounds)
    assert (status, text.split("\n")[0].partition(",")[2], said) == (0, str(value), "")
    if has_no_bounds:
        status, _, said = run("netflow-why", *words)
        assert (status, said[:3]) == (3, "E52")


@pytest.mark.parametrize("name, model, data, word, replacement", NAMED, ids=[named[0] for named in NAMED])
def test_word_that_netflow_lacks(name, model, data, word, replacement):
    with pytest.raises(netflow.ModelError) as caught:
        netflow.solve(model, data or None)
    said = " ".join(caught.value.hints) + caught.value.code
    assert word in said and replacement in said


def test_given_factor(tmp_path):
    words = [write(tmp_path, "f.mod", CITIES + NODE), write(tmp_path, "f.dat", DATA)]
    assert run("netflow-sheet", "plan", *words, "--grid", "--scale", "cost=1000")[1].split("\n")[0] == "Total_Cost,1819"
    status, _, said = run("netflow-sheet", "plan", *words, "--scale", "cost=1")
    assert status == 3 and "cost" in said and "times 1 is not whole" in said


def test_unbounded():
    model = "maximize T; node A; arc In >= 0, to A, obj T 1; arc Out >= 0, from A;"
    with pytest.raises(netflow.Unbounded, match="T has no limit"):
        netflow.solve(model, bounds=True)
    free = "minimize C; node A: net_in = -3; arc X <= 5, to A, obj C 2;"
    assert netflow.solve(free, bounds=True).value == -6
