minimize Cost;
node A: net_out = 2;
node B: net_in = 2;
arc Move >= 0, <= 5, from A, to B, obj Cost 4;
