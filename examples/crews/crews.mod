# Who works which shift: each shift has the people that it needs, nobody works more than he may.
set CREWS;
set SHIFTS;
set CAN within (CREWS cross SHIFTS);
param need {SHIFTS} >= 0;
param most {CREWS} >= 0 default 2;
param pay {CAN} >= 0;
check {s in SHIFTS}: sum {(c,s) in CAN} 1 >= need[s];

minimize Pay;
node Crew {c in CREWS}: net_out <= most[c];
node Shift {s in SHIFTS}: net_in = need[s];
arc Work {(c,s) in CAN} >= 0, <= 1, from Crew[c], to Shift[s], obj Pay pay[c,s];
