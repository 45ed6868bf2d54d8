# Each person does one job, and each job is done.
set PEOPLE;
set JOBS;
param hours {PEOPLE, JOBS} >= 0;

minimize Total;
node Person {p in PEOPLE}: net_out = 1;
node Job {j in JOBS}: net_in = 1;
arc Do {p in PEOPLE, j in JOBS} >= 0, <= 1, from Person[p], to Job[j], obj Total hours[p,j];
