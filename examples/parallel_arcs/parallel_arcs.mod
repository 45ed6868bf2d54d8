minimize Cost;
node A: net_out = 5;
node B: net_in = 5;
arc P >= 0, <= 3, from A, to B, obj Cost 1;
arc Q >= 0, <= 3, from A, to B, obj Cost 1;
