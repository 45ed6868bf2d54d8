# What to make in which quarter, in normal hours and in overtime, and what to keep for later.
param quarters integer, >= 1;
param demand {1..quarters} >= 0;
param normal {1..quarters} >= 0;
param overtime {1..quarters} >= 0;
param room >= 0;
param price {1..quarters} >= 0;
param extra >= 0;
param keep >= 0;
check: sum {t in 1..quarters} (normal[t] + overtime[t]) >= sum {t in 1..quarters} demand[t];

minimize Cost;
node Quarter {t in 1..quarters}: net_in = demand[t];
arc Make {t in 1..quarters} >= 0, <= normal[t], to Quarter[t], obj Cost price[t];
arc Over {t in 1..quarters} >= 0, <= overtime[t], to Quarter[t], obj Cost price[t], obj Cost extra;
arc Keep {t in 1..quarters-1} >= 0, <= room, from Quarter[t], to Quarter[t+1], obj Cost keep;
