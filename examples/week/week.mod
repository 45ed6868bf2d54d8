# What is made and sold each day; what is left is kept in a store that holds little.
param days integer, >= 1;
param make {1..days} >= 0;
param sell {1..days} >= 0;
param room >= 0;

minimize Cost;
node Day {t in 1..days}: net_in = sell[t] - make[t];
arc Keep {t in 1..days-1} >= 0, <= room, from Day[t], to Day[t + 1], obj Cost 1;
