x over
