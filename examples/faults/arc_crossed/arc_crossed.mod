minimize Cost;
node A;
arc X >= 5, <= 3, from A, to A, obj Cost 1;
