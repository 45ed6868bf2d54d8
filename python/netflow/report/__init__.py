"""The HTML page of a plan or of its absence, with a drawing of the network."""
