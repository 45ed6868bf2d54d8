minimize A;
minimize B;
