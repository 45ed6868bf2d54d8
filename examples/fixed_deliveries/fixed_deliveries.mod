# Two depots serve two shops. A contract fixes one delivery: its two bounds are equal. Another has a least amount.
minimize Cost;

node North: net_out <= 20;
node South: net_out <= 15;
node Hill: net_in = 12;
node Lake: net_in = 9;

arc Contract >= 5, <= 5, from North, to Hill, obj Cost 3;
arc NorthHill >= 0, <= 10, from North, to Hill, obj Cost 2;
arc NorthLake >= 2, <= 8, from North, to Lake, obj Cost 4;
arc SouthHill >= 0, <= 6, from South, to Hill, obj Cost 5;
arc SouthLake >= 0, <= 9, from South, to Lake, obj Cost 1;
