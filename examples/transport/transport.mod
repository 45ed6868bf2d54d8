# From mills to factories, at the least cost. What a mill does not sell stays there.
set MILLS;
set FACTORIES;
param supply {MILLS} >= 0;
param demand {FACTORIES} >= 0;
param cost {MILLS, FACTORIES} >= 0;

minimize Total;
node Mill {m in MILLS}: net_out <= supply[m];
node Factory {f in FACTORIES}: net_in = demand[f];
arc Ship {m in MILLS, f in FACTORIES} >= 0, <= supply[m],
    from Mill[m], to Factory[f], obj Total cost[m,f];
