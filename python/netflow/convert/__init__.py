"""Converts AMPL and MathProg models with variables into models of nodes and arcs."""
