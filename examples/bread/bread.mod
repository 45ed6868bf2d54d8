# Bread from bakeries to shops.
set BAKERIES;
set SHOPS;
param bakes {BAKERIES} >= 0;
param wants {SHOPS} >= 0;
param cost {BAKERIES, SHOPS} >= 0;
param van >= 0;

minimize Total;  # in euros
node Bakery {b in BAKERIES}: net_out <= bakes[b];
node Shop {s in SHOPS}: net_in = wants[s];
arc Drive {b in BAKERIES, s in SHOPS} >= 0, <= van,
    from Bakery[b], to Shop[s], obj Total cost[b,s];
