minimize Cost;
node A: net_out