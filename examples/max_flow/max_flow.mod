# How many cars an hour can pass from one crossing to another.
set CROSSINGS;
param enter symbolic in CROSSINGS;
param leave symbolic in CROSSINGS, <> enter;
set ROADS within (CROSSINGS cross CROSSINGS);
param cap {ROADS} >= 0;

node Crossing {k in CROSSINGS};
arc In >= 0, <= 1000, to Crossing[enter];
arc Out >= 0, <= 1000, from Crossing[leave];
arc Cars {(i,j) in ROADS} >= 0, <= cap[i,j], from Crossing[i], to Crossing[j];
maximize Total: In;
