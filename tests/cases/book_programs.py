"""Models of AMPL's book with variables, as a user types them, and their data: chapter 15, and two of chapter 3."""
from test_ampl_book import (
    ASSIGN_DATA,
    CITIES,
    DATA,
    DIST_DATA,
    DIST_VAR,
    FEEDS,
    MAX_VAR,
    MAXFLOW_DATA,
    MULTI,
    SHORT_VAR,
    TRANS_DATA,
    VAR,
)

TRANSP = """set ORIG;   # origins
set DEST;   # destinations

param supply {ORIG} >= 0;   # amounts available at origins
param demand {DEST} >= 0;   # amounts required at destinations

   check: sum {i in ORIG} supply[i] = sum {j in DEST} demand[j];

param cost {ORIG,DEST} >= 0;   # shipment costs per unit
var Trans {ORIG,DEST} >= 0;    # units to be shipped

minimize Total_Cost:
   sum {i in ORIG, j in DEST} cost[i,j] * Trans[i,j];

subject to Supply {i in ORIG}:
   sum {j in DEST} Trans[i,j] = supply[i];

subject to Demand {j in DEST}:
   sum {i in ORIG} Trans[i,j] = demand[j];
"""
ASSIGNMENT = (
    TRANSP.replace("ORIG", "PEOPLE").replace("DEST", "PROJECTS").replace("Trans", "Assign")
    + "subject to Limit {i in PEOPLE, j in PROJECTS}: Assign[i,j] <= limit[i,j];\n"
).replace("var ", "param limit {PEOPLE,PROJECTS} >= 0;\nvar ")
NET1_MIXED = CITIES + VAR.replace("subject to Balance", "Balance")
MULTI_VAR = """set ORIG; set DEST; set PROD;
param supply {ORIG,PROD} >= 0;
param demand {DEST,PROD} >= 0;
param limit {ORIG,DEST} >= 0;
param cost {ORIG,DEST,PROD} >= 0;
var Trans {ORIG,DEST,PROD} >= 0;
minimize Total_Cost: sum {i in ORIG, j in DEST, p in PROD} cost[i,j,p] * Trans[i,j,p];
subject to Supply {i in ORIG, p in PROD}: sum {j in DEST} Trans[i,j,p] = supply[i,p];
subject to Demand {j in DEST, p in PROD}: sum {i in ORIG} Trans[i,j,p] = demand[j,p];
subject to Multi {i in ORIG, j in DEST}: sum {p in PROD} Trans[i,j,p] <= limit[i,j];
"""
STEEL = """set PROD;
param rate {PROD} > 0; param avail >= 0; param profit {PROD}; param market {PROD} >= 0;
var Make {p in PROD} >= 0, <= market[p];
maximize Total_Profit: sum {p in PROD} profit[p] * Make[p];
subject to Time: sum {p in PROD} (1/rate[p]) * Make[p] <= avail;
"""
FEEDS_DATA = "set FEEDS := hay corn;\nparam : supply cost := hay 5 2 corn 7 3;\n"
TIMES = MAXFLOW_DATA.replace("cap", "time")
# A model, its data and its value. The values are the book's; 140 is the length of a shortest path a - c - f - g, which
# NetworkX gives too, and 0 that of a blend that needs nothing.
CONVERTED = (
    ("net1", CITIES + VAR, DATA, 1819),
    ("net1 without subject to", NET1_MIXED, DATA, 1819),
    ("net3", DIST_VAR, DIST_DATA, 1819),
    ("netmax", MAX_VAR, MAXFLOW_DATA, 130),
    ("netshort", SHORT_VAR, TIMES, 140),
    ("transp", TRANSP, TRANS_DATA, 196200),
    ("assign", ASSIGNMENT, ASSIGN_DATA, 28),
)
# A model that is no network, and the position and words of its message.
REFUSED = (
    ("netmulti", MULTI, "14:53", ("Ship", "Multi", "side constraint")),
    ("multi", MULTI_VAR, "10:58", ("Trans", "Multi", "side constraint")),
    ("steel", STEEL, "5:35", ("does not divide", "1 / rate[p]")),
)
MIXED = (FEEDS, FEEDS_DATA)
