minimize Cost;
node A;
arc L >= 0, <= 5, from A, to A, obj Cost -2;
