"""Mistakes in models and data, with what has to be said of each."""
