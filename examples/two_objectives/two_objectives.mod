# The same network seen by two objectives; one is chosen on the command line.
minimize Cost;
maximize Gain;
node A: net_in >= 2;
arc X >= 0, <= 6, to A, obj Cost 3, obj Gain 1;
