# Goods go from where they are made, by two centres, to where they are wanted.
set CITIES;
set LINKS within (CITIES cross CITIES);
param supply {CITIES} >= 0;
param demand {CITIES} >= 0;
check: sum {i in CITIES} supply[i] = sum {j in CITIES} demand[j];
param cost {LINKS} >= 0;
param capacity {LINKS} >= 0;

minimize Total_Cost;
node Balance {k in CITIES}: net_in = demand[k] - supply[k];
arc Ship {(i,j) in LINKS} >= 0, <= capacity[i,j],
    from Balance[i], to Balance[j], obj Total_Cost cost[i,j];
