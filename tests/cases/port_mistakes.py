"""Mistakes with two subscripts, periods, relations and tuples, in a model of ports, carriers and weeks: each with its
code, what an explanation has to say, and what it must not say."""
MODEL = """set P;
set Q;
set L within P cross P;
param weeks;
set W := 1..weeks;
param needed {P, W};
param freight {P, Q};
param yard {P};
minimize Cost;
node Berth {p in P, t in W}: net_in = needed[p,t];
node Ship {q in Q}: net_out <= 99;
arc Lease {p in P} >= 0, <= yard[p], to Berth[p,1], obj Cost 5;
arc Move {p in P, q in Q, t in W} >= 0, <= 50, from Ship[q], to Berth[p,t], obj Cost freight[p,q];
"""
DATA = """set P := HAM GOA;
set Q := ann bob;
set L := (HAM,GOA);
param weeks := 4;
param needed: 1 2 3 4 :=
HAM 3 4 1 1
GOA 5 6 1 1;
param freight: ann bob :=
HAM 1 2
GOA 3 4;
param yard := HAM 20 GOA 30;
"""
TEXTS = {"model": MODEL, "data": DATA}
EXCHANGED, TWO_PHRASES = "are the subscripts exchanged?", "the bounds of an arc are two phrases: >= 0, <= yard[p]"
NO_IF = "Put an if"

# As in bread_mistakes, and last the words that are wrong here.
# fmt: off
MISTAKES = (
    ("exchanged subscripts of a parameter", "model", "needed[p,t];", "needed[t,p];", "E33",
     f"{EXCHANGED} needed['HAM',1] is in the sets", "is 1 meant"),
    ("exchanged subscripts of texts", "model", "freight[p,q]", "freight[q,p]", "E33",
     f"{EXCHANGED} freight['HAM','ann']", "Otherwise add"),
    ("exchanged subscripts of a node", "model", "to Berth[p,t]", "to Berth[t,p]", "E50", f"{EXCHANGED} Berth['HAM',1]",
     "one period earlier"),
    ("rows and columns exchanged", "data", "needed: 1 2 3 4 :=\nHAM 3 4 1 1\nGOA 5 6 1 1",
     "needed: HAM GOA :=\n1 3 5\n2 4 6\n3 1 1\n4 1 1", "E33", "are the two members exchanged? In a table (tr)",
     "is 1 meant"),
    ("a number for a text", "data", "HAM 3 4 1 1\nGOA 5 6 1 1", "1 3 4 1 1\n2 5 6 1 1", "E33",
     "1 is not in P, whose members are texts", "is 1 meant"),
    ("a week too many", "data", "needed: 1 2 3 4 :=", "needed: 1 2 3 5 :=", "E33",
     "5 is not in W, which is 1..4 Hint: it is in line 5", "exchanged"),
    ("a week too many in a list", "data", "param yard", "param needed := HAM 5 1;\nparam yard", "E33",
     "5 is not in W, which is 1..4", "exchanged"),
    ("a week too many of a node", "model", "to Berth[p,1]", "to Berth[p,5]", "E50", "5 is not in W, which is 1..4",
     "is 5 meant"),
    ("a text for a number", "model", "to Berth[p,1]", "to Berth[p,'1']", "E50",
     "'1' is a text; the number is in W, which is 1..4: write it without quotes, 1", "is 1 meant"),
    ("a short code with letters exchanged", "data", "yard := HAM 20 GOA", "yard := HAM 20 GAO", "E33",
     "GAO: is GOA meant?", "is not in"),
    ("a short code with letters exchanged in a table", "data", "GOA 5 6", "GAO 5 6", "E33", "GAO: is GOA meant?",
     "is 1 meant"),
    ("a chain in braces", "model", "q in Q, t in W}", "q in Q, 1 <= t <= weeks}", "E10",
     "an index is named with its set: t in 1..weeks", "not closed"),
    ("a chain in a condition", "model", "arc Lease {p in P}", "arc Lease {p in P: 1 <= yard[p] <= 5}", "E10",
     "write two comparisons: 1 <= yard[p] and yard[p] <= 5", "one lower and one upper"),
    ("a chain in a check", "model", "minimize Cost;", "check: 1 <= weeks <= 9;\nminimize Cost;", "E10",
     "write two comparisons: 1 <= weeks and weeks <= 9", NO_IF),
    ("=< in an arc", "model", "<= yard[p]", "=< yard[p]", "E14", "=<: is <= meant?", "are >= and <="),
    ("=< in a node", "model", "net_out <= 99", "net_out =< 99", "E10", "=<: is <= meant?", NO_IF),
    ("=> in an arc", "model", ">= 0, <= yard", "=> 0, <= yard", "E14", "=>: is >= meant?", "are >= and <="),
    ("an index of another declaration", "model", "obj Cost 5", "obj Cost 5 * t", "E12",
     "t is an index of another declaration", "is t meant"),
    ("an index of another one in another case", "model", "net_out <= 99", "net_out <= 9 * T", "E12",
     "t is an index of another declaration", "is t meant"),
    ("an index of this one in another case", "model", "needed[p,t];", "needed[p,T];", "E12", "T: is t meant?",
     "another declaration"),
    ("an objective before its arcs", "model", "minimize Cost;", "minimize Cost: sum {p in P} 5 * Lease[p];", "E12",
     "Lease is declared below, in line 12: move the objective after its arcs, or use obj", "correct its spelling"),
    ("a parameter before its declaration", "model", "set L within P cross P;",
     "set L within P cross P;\ncheck: weeks > 0;", "E12",
     "weeks is declared below, in line 5: move that declaration up", "objective after"),
    ("subscripts in braces", "model", "needed[p,t];", "needed{p,t};", "E10",
     "subscripts are in square brackets: needed[p,t]", NO_IF),
    ("subscripts in parentheses", "model", "needed[p,t];", "needed(p,t);", "E10",
     "subscripts are in square brackets: needed[p,t]", NO_IF),
    ("no comma between subscripts", "model", "freight[p,q]", "freight[p q]", "E10", "is a , missing before q?", NO_IF),
    ("a relation for a bound", "model", ">= 0, <= yard[p]", "0 <= yard[p]", "E10", TWO_PHRASES, NO_IF),
    ("a chain for the bounds", "model", " >= 0, <= yard[p]", ", 0 <= Lease <= yard[p]", "E10", TWO_PHRASES, NO_IF),
    ("a range of two directions", "model", "net_out <= 99", "5 <= net_out >= 10", "E10",
     "both signs of a range are the same: 5 <= net_out <= 10", NO_IF),
    ("a comma before a condition", "model", "t in W} >=", "t in W, t > 1} >=", "E36",
     "a condition comes after a colon: {.. : t > 1}", "4O"),
    ("a comma before a condition with a key", "model", "arc Lease {p in P}", "arc Lease {p in P, yard[p] > 5}", "E36",
     "after a colon: {.. : yard[p] > 5}", "4O"),
    ("obj without the objective", "model", "obj Cost freight[p,q]", "obj freight[p,q]", "E10",
     "the objective's name comes after obj: obj Cost freight[p,q]", NO_IF),
    ("obj without the objective, a number", "model", "obj Cost 5", "obj 5", "E10",
     "the objective's name comes after obj: obj Cost 5", NO_IF),
    ("a member without quotes", "model", "net_in = needed[p,t]", "net_in = (if p = HAM then 0 else needed[p,t])", "E12",
     "write it with quotes, 'HAM'", "case matters"),
    ("a tuple without a comma", "data", "(HAM,GOA)", "(HAM GOA)", "E20",
     "the members of a tuple have commas between them: (HAM,GOA)", "missing :="),
    ("braces in data", "data", "set P := HAM GOA;", "set P := {HAM, GOA};", "E01",
     "data have no braces: set P := HAM GOA;", "byte order"),
    ("E10 in a line without if", "model", "minimize Cost;", "minimize 3;\nminimize Cost;", "E10",
     "check the token and the one before it", NO_IF),
    ("a check with >=", "model", "minimize Cost;", "check: sum {p in P} yard[p] >= 60;\nminimize Cost;", "E35",
     "the left side of >= is too small", "two sums"),
    ("a check with <", "model", "minimize Cost;", "check {p in P}: yard[p] < 25;\nminimize Cost;", "E35",
     "the right side of < is too small", "left side of"),
    ("a pair outside a cross product", "data", "(HAM,GOA)", "(HAM,GOA)\n(GOA,ann)", "E34",
     "(GOA,ann) in line 4 is not in P cross P: P has no ann", "HAM,GOA"),
    ("a pair outside a condition", "model", "P cross P", "{i in P, j in P: i = j}", "E34",
     "(HAM,GOA) in line 3 is not in {i in P, j in P: i = j}: i = j is false", "see L"),
    ("a pair outside a set of pairs", "model", "P cross P", "{('GOA','HAM')}", "E34",
     "(HAM,GOA) in line 3 is not in {('GOA','HAM')}", "see L"),
    ("a slice of a set", "data", "(HAM,GOA)", "(HAM,*) GOA (*,HAM) GOA", "E20",
     "(HAM,*) is a slice of AMPL, which netflow does not have: write whole tuples: set L := (HAM,GOA) (GOA,HAM);",
     "missing"),
    ("a table of a set", "data", "set L := (HAM,GOA);", "set L: HAM GOA :=\nHAM - +\nGOA - -;", "E20",
     "list the pairs that have a +: set L := (HAM,GOA);", "missing"),
    ("decimals", "data", "HAM 20", "HAM 20.5", "E04", "scale the column, for example to cents. In data", "(units)"),
)
# fmt: on
