minimize A;
node A;
