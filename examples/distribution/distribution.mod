# Paint and glue from three depots to eight towns in two weeks. Flows are pallets, money is EUR.
set DEPOTS;
set TOWNS;
set PRODUCTS;
param weeks >= 1;
set WEEKS := 1..weeks;

param opening {DEPOTS, PRODUCTS} >= 0;                    # pallets in stock before week 1
param arrivals {DEPOTS, PRODUCTS, WEEKS} >= 0, default 0; # pallets from the factories
param space {DEPOTS} >= 0;                                # pallets of a product that a depot can keep for a week
param truck {DEPOTS, PRODUCTS} >= 0;                      # pallets that go to one town in one week
param demand {TOWNS, PRODUCTS, WEEKS} >= 0;
param rate {DEPOTS, TOWNS} >= 0;                          # EUR per pallet
param surcharge {PRODUCTS} >= 0, default 0;               # EUR per pallet
param storage >= 0;                                       # EUR per pallet and week

minimize Cost;

node Stock {d in DEPOTS, p in PRODUCTS, w in WEEKS}:
    net_out <= arrivals[d,p,w] + (if w = 1 then opening[d,p] else 0);
node Store {t in TOWNS, p in PRODUCTS, w in WEEKS}: net_in = demand[t,p,w];

arc Ship {d in DEPOTS, t in TOWNS, p in PRODUCTS, w in WEEKS} >= 0, <= truck[d,p],
    from Stock[d,p,w], to Store[t,p,w], obj Cost rate[d,t] + surcharge[p];
arc Keep {d in DEPOTS, p in PRODUCTS, w in WEEKS: w < weeks} >= 0, <= space[d],
    from Stock[d,p,w], to Stock[d,p,w+1], obj Cost storage;
