minimize Cost;
node A;
arc X >= 0, <= 3, from A, to B, obj Cost 1;
